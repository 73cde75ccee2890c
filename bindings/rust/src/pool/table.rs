//! The jobs that a pool holds, by the numbers of their tasks.

use crate::machine::Kind;
use crate::pool::jobs::HeldJob;
use std::collections::BTreeMap;

/// A job, and its task's kind.
pub(crate) struct Held {
    pub(crate) job: HeldJob,
    pub(crate) kind: Kind,
}

/// A table. Numbers follow one another, so a number's place is told by its low bits: tasks that wait in a line are side by side. Where the
/// place is taken by a task that waits for long, and the table is half empty, the newer one is among the others.
pub(crate) struct Jobs {
    places: Box<[Option<(u32, Held)>]>,
    placed: usize,
    others: BTreeMap<u32, Held>,
}

/// A power of two, as each size of the table.
const LEAST: usize = 64;

fn places(size: usize) -> Box<[Option<(u32, Held)>]> {
    (0..size).map(|_| None).collect()
}

impl Jobs {
    pub(crate) fn new() -> Jobs {
        Jobs { places: places(LEAST), placed: 0, others: BTreeMap::new() }
    }

    fn at(&self, task: u32) -> usize {
        task as usize & (self.places.len() - 1)
    }

    pub(crate) fn insert(&mut self, task: u32, held: Held) {
        if self.places[self.at(task)].is_some() && 2 * self.placed >= self.places.len() {
            self.grow();
        }
        let at = self.at(task);
        if self.places[at].is_some() {
            self.others.insert(task, held);
        } else {
            self.places[at] = Some((task, held));
            self.placed += 1;
        }
    }

    pub(crate) fn remove(&mut self, task: u32) -> Option<Held> {
        let at = self.at(task);
        match &self.places[at] {
            Some((there, _)) if *there == task => {
                self.placed -= 1;
                self.places[at].take().map(|(_, held)| held)
            }
            _ if self.others.is_empty() => None,
            _ => self.others.remove(&task),
        }
    }

    fn grow(&mut self) {
        let twice = places(2 * self.places.len());
        let there = std::mem::replace(&mut self.places, twice);
        let others = std::mem::take(&mut self.others);
        self.placed = 0;
        for (task, held) in there.into_vec().into_iter().flatten().chain(others) {
            self.insert(task, held);
        }
    }
}

#[cfg(test)]
mod tests {
    use super::*;
    use crate::pool::jobs::Plain;

    fn held() -> Held {
        Held { job: Box::new(Plain(|| ())), kind: Kind::Plain }
    }

    #[test]
    fn each_number_is_found_once() {
        let mut jobs = Jobs::new();
        // Two wait for long, whose places are those of many others.
        jobs.insert(0, held());
        jobs.insert(1, held());
        for task in 2..100_000 {
            jobs.insert(task, held());
            assert!(jobs.remove(task).is_some(), "{task}");
            assert!(jobs.remove(task).is_none(), "{task}");
        }
        assert_eq!((jobs.places.len(), jobs.others.len()), (LEAST, 0));
        assert!(jobs.remove(1).is_some() && jobs.remove(0).is_some());
        for task in (0..10_000).map(|number| number * 64) {
            jobs.insert(task, held());
        }
        for task in (0..10_000).rev().map(|number| number * 64) {
            assert!(jobs.remove(task).is_some(), "{task}");
        }
        assert_eq!((jobs.placed, jobs.others.len()), (0, 0));
    }
}
