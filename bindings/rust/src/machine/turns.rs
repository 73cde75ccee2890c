//! Several steps, one after another: a submission's, and those of a worker's turn.

use crate::machine::{Answer, Ask, Error, Kind, Machine, Outcome};

/// What the steps of a submission answered: the look, the offer and the second look, as far as they were made.
pub(crate) struct Entered {
    pub(crate) task: u32,
    /// How the offer ended, if it was made.
    pub(crate) offered: Option<Answer>,
    /// The answer of the last step.
    pub(crate) last: Answer,
}

/// What the steps of a worker's turn answered.
#[derive(Default)]
pub(crate) struct Turned {
    /// What it took, where the step was made.
    pub(crate) took: Option<Answer>,
    /// What it began, where it took a task.
    pub(crate) begun: Option<Answer>,
}

impl Machine {
    /// Submits a task, and makes the steps that follow at once: its offer, where that is to be made, and the second look behind that. None
    /// where the submission was refused. The error is that of the last step, where it was refused.
    pub(crate) fn enter(&mut self, by: u32, kind: Kind, priority: u32) -> (Option<Entered>, Result<(), Error>) {
        let submitted = match self.step(by, Ask::Submit(kind, priority)) {
            Ok(submitted) => submitted,
            Err(error) => return (None, Err(error)),
        };
        let (Answer::Reserve(Some(task), _) | Answer::Queue(task) | Answer::Refuse(task)) = submitted else {
            unreachable!("a submission answers a look, and not {submitted:?}");
        };
        let mut entered = Entered { task, offered: None, last: submitted };
        let status = self.offer_on(by, &mut entered);
        (Some(entered), status)
    }

    fn offer_on(&mut self, by: u32, entered: &mut Entered) -> Result<(), Error> {
        if let Answer::Queue(task) = entered.last {
            entered.last = self.step(by, Ask::Offer(task))?;
            entered.offered = Some(entered.last);
        }
        if let Answer::Queued(task) | Answer::Hand(task, _) = entered.last {
            entered.last = self.step(by, Ask::Second(task))?;
        }
        Ok(())
    }

    /// A worker's turn: its task ends, if it has one, and is forgotten where that may be; then it takes its next one, and begins it. The
    /// error is that of the last step, where it was refused.
    pub(crate) fn turn(&mut self, by: u32, slot: u64, over: Option<Outcome>) -> (Turned, Result<(), Error>) {
        let mut turned = Turned::default();
        let status = self.take_on(by, slot, over, &mut turned);
        (turned, status)
    }

    fn take_on(&mut self, by: u32, slot: u64, over: Option<Outcome>, turned: &mut Turned) -> Result<(), Error> {
        if let Some(outcome) = over {
            if let Answer::Ended(task) = self.step(by, Ask::End(slot, outcome))? {
                // One that owes something yet is kept, as each is where there is a record.
                let _ = self.release(task);
            }
        }
        let took = self.step(by, Ask::Take(slot))?;
        turned.took = Some(took);
        if let Answer::Held(_) | Answer::Head(_) = took {
            turned.begun = Some(self.step(by, Ask::Begin(slot))?);
        }
        Ok(())
    }
}
