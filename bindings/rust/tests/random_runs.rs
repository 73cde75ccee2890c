//! Random runs of asks through a machine's handle, beside the same scenario played from its text, which is what `poolrun steps` writes.
//! ZELLUNKAY_RUNS says how many, 10,000 where it is not set. Where POOLRUN names that program, it plays every hundredth too.

use std::env;
use std::fmt::Write;
use std::process::Command;
use zellunkay::{steps, Answer, Ask, Error, Kind, Machine, Outcome, Place, Recorder, Verdict};

/// Numbers that are the same at each run.
struct Dice(u64);

impl Dice {
    fn next(&mut self, below: u64) -> u64 {
        self.0 ^= self.0 << 13;
        self.0 ^= self.0 >> 7;
        self.0 ^= self.0 << 17;
        self.0 % below
    }

    fn pick<T: Copy>(&mut self, of: &[T]) -> T {
        of[self.next(of.len() as u64) as usize]
    }
}

fn pool_line(dice: &mut Dice) -> String {
    let maximum = 1 + dice.next(3);
    let core = dice.next(maximum + 1);
    let queue = dice.pick(&["handoff", "unbounded", "bounded 1", "bounded 2", "priority"]);
    let policy = dice.pick(&["abort", "callerruns", "discard", "discardoldest", "own"]);
    let timeout = if dice.next(4) == 0 { "keep 3" } else { "keep 0" };
    let core_timeout = if timeout == "keep 3" && dice.next(2) == 0 { " coretimeout" } else { "" };
    let limit = if dice.next(3) == 0 { " limit 64" } else { "" };
    format!("pool {core} {maximum} {queue} {timeout} {policy}{core_timeout}{limit}")
}

fn outcome_text(outcome: Outcome) -> String {
    match outcome {
        Ok(value) => value.to_string(),
        Err(code) => format!("!{code}"),
    }
}

struct Run {
    machine: Machine,
    outcomes: Vec<Outcome>,
}

impl Run {
    /// The outcome of the task that runs in the slot. Where there is none, its end is refused, whatever it is.
    fn there(&mut self, slot: u64) -> Outcome {
        for task in 0..self.outcomes.len() as u32 {
            if self.machine.task(task).map(|seen| seen.place) == Ok(Place::Running(slot)) {
                return self.outcomes[task as usize];
            }
        }
        Ok(0)
    }

    fn at(&self, task: u32) -> Outcome {
        self.outcomes.get(task as usize).copied().unwrap_or(Ok(0))
    }

    /// A line, and what it asks.
    fn line(&mut self, dice: &mut Dice) -> (String, Ask, Option<Outcome>) {
        let tasks = self.outcomes.len() as u64;
        let task = if tasks > 0 && dice.next(8) > 0 { tasks - 1 - dice.next(tasks.min(4)) } else { dice.next(4) } as u32;
        let slot = dice.next(4) / (1 + dice.next(2));
        let verdicts =
            [(Verdict::Abort, "abort"), (Verdict::CallerRuns, "callerruns"), (Verdict::Discard, "discard"), (Verdict::DiscardOldest, "discardoldest")];
        match dice.next(40) {
            0..=6 => {
                let outcome = if dice.next(4) == 0 { Err(dice.next(3) as u32) } else { Ok(dice.next(9) as i64 - 4) };
                let (kind, word) = dice.pick(&[(Kind::Plain, "plain"), (Kind::Future, "future"), (Kind::Group(3), "group 3")]);
                let priority = dice.next(3) as u32;
                let said = if priority > 0 || dice.next(4) == 0 { format!(" prio {priority}") } else { String::new() };
                (format!("submit {word} {}{said}", outcome_text(outcome)), Ask::Submit(kind, priority), Some(outcome))
            }
            7 => (format!("look {task}"), Ask::Look(task), None),
            8..=11 => (format!("offer {task}"), Ask::Offer(task), None),
            12..=14 => (format!("second {task}"), Ask::Second(task), None),
            15..=16 => (format!("grow {task}"), Ask::Grow(task), None),
            17..=18 => {
                let (verdict, word) = dice.pick(&verdicts);
                (format!("verdict {task} {word}"), Ask::Verdict(task, verdict), None)
            }
            19 => (format!("callerend {task}"), Ask::CallerEnd(task, self.at(task)), None),
            20..=22 => (format!("open {slot}"), Ask::Open(slot), None),
            23 => (format!("fail {slot}"), Ask::Fail(slot), None),
            24..=27 => (format!("take {slot}"), Ask::Take(slot), None),
            28..=30 => (format!("begin {slot}"), Ask::Begin(slot), None),
            31..=32 => (format!("end {slot}"), Ask::End(slot, self.there(slot)), None),
            33 => (format!("leave {slot}"), Ask::Leave(slot), None),
            34 => {
                let flag = dice.next(2) == 0;
                (format!("cancel {task}{}", if flag { " flag" } else { "" }), Ask::Cancel(task, flag), None)
            }
            35 => dice.pick(&[("purge", Ask::Purge), ("prestart", Ask::Prestart), ("takedone 3", Ask::TakeDone(3))]).into_line(),
            36 => (format!("remove {task}"), Ask::Remove(task), None),
            37 => {
                let size = dice.next(4) as u32;
                dice.pick(&[(format!("core {size}").leak() as &str, Ask::Core(size)), (format!("max {size}").leak(), Ask::Maximum(size))]).into_line()
            }
            38 => {
                let ticks = dice.next(20);
                dice.pick(&[
                    (format!("tick {ticks}").leak() as &str, Ask::Tick(ticks)),
                    (format!("keep {ticks}").leak(), Ask::Keep(ticks)),
                    ("coretimeout on", Ask::CoreTimeout(true)),
                    ("coretimeout off", Ask::CoreTimeout(false)),
                ])
                .into_line()
            }
            _ => {
                let end = dice.next(9);
                [("tidy", Ask::Tidy), ("ended", Ask::Ended), ("shutdown", Ask::Shutdown), ("stop", Ask::Stop)][(end / 3).min(2) as usize + usize::from(end == 8)]
                    .into_line()
            }
        }
    }
}

trait IntoLine {
    fn into_line(self) -> (String, Ask, Option<Outcome>);
}

impl IntoLine for (&str, Ask) {
    fn into_line(self) -> (String, Ask, Option<Outcome>) {
        (self.0.to_string(), self.1, None)
    }
}

const FATES: [&str; 7] = ["run", "caller", "rejected", "discarded", "handedback", "removed", "cancelled"];
const STATES: [&str; 5] = ["running", "shutdown", "stop", "tidying", "terminated"];

/// What stands at the end of a run, by the machine's readings.
fn end_of(run: &mut Run) -> String {
    let mut text = String::new();
    for task in 0..run.outcomes.len() as u32 {
        let fate = run.machine.task(task).unwrap().fate;
        writeln!(text, "t{task} {}", fate.map_or("open", |fate| FATES[fate as usize])).unwrap();
    }
    let view = run.machine.view();
    writeln!(text, "state {}", STATES[view.state as usize]).unwrap();
    writeln!(
        text,
        "counts submitted={} run={} caller={} rejected={} discarded={} handedback={} removed={} cancelled={} completed={} queued={} live={} largest={}",
        view.submitted, view.run, view.caller, view.rejected, view.discarded, view.handedback, view.removed, view.cancelled, view.completed, view.queued,
        view.live, view.largest
    )
    .unwrap();
    text
}

/// A scenario of so many lines, and what the handle's answers say is written of it, but for the entries' own text, which the record has.
fn played(dice: &mut Dice) -> (String, Vec<Result<u64, String>>, Run) {
    let pool = pool_line(dice);
    let machine = Machine::open(&pool, Recorder::Full).unwrap();
    let mut run = Run { machine, outcomes: Vec::new() };
    let (mut text, mut answers) = (pool + "\n", Vec::new());
    for _ in 0..20 + dice.next(80) {
        let (line, ask, outcome) = run.line(dice);
        writeln!(text, "{line}").unwrap();
        match run.machine.step(0, ask) {
            Ok(answer) => {
                if let Some(outcome) = outcome {
                    run.outcomes.push(outcome);
                }
                answers.push(Ok(run.machine.view().steps));
                if let (Ask::Stop, Answer::Count(count)) = (ask, answer) {
                    let handed = run.machine.handed();
                    assert_eq!(handed.len() as u32, count);
                    let named: String = handed.iter().map(|task| format!(" t{task}")).collect();
                    if count > 0 {
                        answers.push(Err(format!("back{named}")));
                    }
                }
            }
            Err(error) => answers.push(Err(refusal(error))),
        }
    }
    (text, answers, run)
}

fn refusal(error: Error) -> String {
    format!("refused {} {error:?}", error.number())
}

fn check(seed: u64, poolrun: Option<&str>) {
    let mut dice = Dice(seed.wrapping_mul(0x9E37_79B9_7F4A_7C15) | 1);
    let (text, answers, mut run) = played(&mut dice);
    let told = steps(text.as_bytes());
    assert_eq!(told.ending, Ok(()), "{text}");
    let record = String::from_utf8(run.machine.record().unwrap()).unwrap();
    let entries: Vec<&str> = record.lines().skip(2).collect();
    let mut wanted = String::new();
    for answer in &answers {
        match answer {
            Ok(number) => writeln!(wanted, "{}", entries[*number as usize - 1]).unwrap(),
            Err(line) => writeln!(wanted, "{line}").unwrap(),
        }
    }
    wanted += &end_of(&mut run);
    assert_eq!(String::from_utf8(told.output).unwrap(), wanted, "seed {seed}\n{text}");
    assert_eq!(zellunkay::audit(record.as_bytes()).ending, Ok(()), "seed {seed}");
    if let Some(program) = poolrun {
        let path = env::temp_dir().join(format!("zellunkay-run-{seed}.txt"));
        std::fs::write(&path, &text).unwrap();
        let out = Command::new(program).arg("steps").arg(&path).output().unwrap();
        std::fs::remove_file(&path).unwrap();
        assert_eq!(String::from_utf8(out.stdout).unwrap(), wanted, "seed {seed}");
    }
}

#[test]
fn runs_are_answered_alike() {
    let runs: u64 = env::var("ZELLUNKAY_RUNS").map_or(10_000, |word| word.parse().unwrap());
    let program = env::var("POOLRUN").ok();
    for seed in 1..=runs {
        check(seed, program.as_deref().filter(|_| seed % 100 == 0));
    }
}
