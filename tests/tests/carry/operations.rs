//! Ten thousand operations by chance, with changes of the battery between them, against stories that know nothing of
//! changes: "it answers every later ask and tell as one that was never switched off".

use floelinnet_tests::damage::damage;
use floelinnet_tests::draw::{cases, Draw};
use floelinnet_tests::reference::carry::{HEAD, TAIL};
use floelinnet_tests::reference::guard::{start, tell, Answer, Guard, Story, FRESH, HELD};
use floelinnet_tests::reference::{carry, Refusal};
use floelinnet_tests::{expected, floe};

use crate::{walked, Walked};

/// What was seen of each refusal, of each answer, and how many changes.
#[derive(Default, Debug)]
struct Seen {
    refused: [usize; 26],
    heard: [usize; 3],
    changes: usize,
    changes_lost: usize,
}

impl Seen {
    fn refused(&mut self, refused: u64) {
        self.refused[refused as usize] += 1;
    }
}

/// One job: the archive's guard, and its story.
struct Job {
    guard: floe::Guard,
    story: Story,
}

/// An operation on the job, which the archive does by these three calls: on a single guard, or on one of a row.
trait Calls {
    fn start(&mut self, job: usize, table: &[u8]) -> floe::Done;
    fn ask(&mut self, job: usize, table: &[u8]) -> floe::RowAsked;
    fn tell(&mut self, job: usize, table: &[u8], outcome: u8) -> floe::Done;
    fn guard(&mut self, job: usize) -> &mut floe::Guard;
}

/// Guards that are handed in and out.
struct Single(Vec<floe::Guard>);

impl Calls for Single {
    fn start(&mut self, job: usize, table: &[u8]) -> floe::Done {
        let started = floe::guard::start(table);
        if started.refused == 0 {
            self.0[job] = started.guard;
        }
        floe::Done { refused: started.refused, at: started.at }
    }

    fn ask(&mut self, job: usize, table: &[u8]) -> floe::RowAsked {
        let asked = floe::guard::ask(self.0[job], table);
        assert_eq!(asked.guard, self.0[job], "asking changes nothing");
        floe::RowAsked { refused: asked.refused, at: asked.at, answer: asked.answer }
    }

    fn tell(&mut self, job: usize, table: &[u8], outcome: u8) -> floe::Done {
        let told = floe::guard::tell(self.0[job], table, outcome);
        self.0[job] = told.guard;
        floe::Done { refused: told.refused, at: told.at }
    }

    fn guard(&mut self, job: usize) -> &mut floe::Guard {
        &mut self.0[job]
    }
}

/// Guards that stand in a row.
struct Row(Vec<floe::Guard>);

impl Calls for Row {
    fn start(&mut self, job: usize, table: &[u8]) -> floe::Done {
        floe::row::start(&mut self.0, job, table)
    }

    fn ask(&mut self, job: usize, table: &[u8]) -> floe::RowAsked {
        floe::row::ask(&self.0, job, table)
    }

    fn tell(&mut self, job: usize, table: &[u8], outcome: u8) -> floe::Done {
        floe::row::tell(&mut self.0, job, table, outcome)
    }

    fn guard(&mut self, job: usize) -> &mut floe::Guard {
        &mut self.0[job]
    }
}

/// The guard is switched off: it is written into a buffer that may be longer, it is forgotten, and it is read back.
fn change(draw: &mut Draw, guard: &mut floe::Guard, set: &[u8], table: &[u8], seen: &mut Seen) {
    let mut record = vec![7; HEAD + TAIL + set.len() + draw.below(3)];
    let length = floe::carry::write(*guard, set, &mut record).length as usize;
    assert_eq!(length, HEAD + TAIL + set.len());
    seen.changes += 1;
    seen.changes_lost += usize::from(guard.lost);
    *guard = floe::Guard { state: 999, lost: !guard.lost, outcomes: [false; HELD], count: 1 << 40 };
    // The power is cut in the middle of a write, and the record is there from before.
    if draw.one_in(4) {
        let cut = floe::carry::read(&record[..draw.below(length)], table);
        assert_eq!(cut, expected::started(Err(Refusal { number: 18, at: 0 })));
        seen.refused(cut.refused);
    }
    let read = floe::carry::read(&record[..length], table);
    assert_eq!((read.refused, read.at), (0, 0), "{record:02X?} on {table:02X?}");
    *guard = read.guard;
}

/// So many operations on jobs that share a table; each guard is what its story says after each of them.
fn operations(draw: &mut Draw, calls: &mut dyn Calls, jobs: usize, walked: &Walked, count: usize, seen: &mut Seen) {
    let Walked { limits, set, states, table } = walked;
    let mut stories = vec![Story::default(); jobs];
    for _ in 0..count {
        let job = draw.below(jobs);
        let story = &mut stories[job];
        let answer = story.answer(limits);
        match draw.below(16) {
            0 if draw.one_in(3) || answer == Answer::Lost => {
                assert_eq!(calls.start(job, table), floe::Done::default());
                *story = Story::default();
            }
            0..=3 => {
                let want = floe::RowAsked { refused: 0, at: 0, answer: answer as u64 };
                assert_eq!(calls.ask(job, table), want, "{story:?} under {limits:?}");
                seen.heard[answer as usize] += 1;
            }
            4..=9 => {
                let miss = draw.one_in(2) && (answer != Answer::Panic || draw.one_in(8));
                assert_eq!(calls.tell(job, table, u8::from(!miss)), floe::Done::default());
                story.tell(limits, u8::from(!miss));
            }
            10 => {
                let told = calls.tell(job, table, draw.of(&[2, 3, 128, 255]));
                assert_eq!(told, floe::Done { refused: 13, at: 0 });
                seen.refused(told.refused);
            }
            11 => {
                let mut faulty = table.clone();
                damage(draw, &mut faulty);
                let want = expected::done(start(&faulty).map(drop));
                if want.refused > 0 {
                    assert_eq!(calls.start(job, &faulty), want, "{faulty:02X?}");
                    seen.refused(want.refused);
                }
            }
            _ => change(draw, calls.guard(job), set, table, seen),
        }
        let want = expected::guard(stories[job].guard(states));
        assert_eq!(*calls.guard(job), want, "{:?} under {limits:?}", stories[job]);
        if stories[job].guard(states).count > 60 {
            assert_eq!(calls.start(job, table), floe::Done::default());
            stories[job] = Story::default();
        }
    }
    for (job, story) in stories.iter().enumerate() {
        assert_eq!(*calls.guard(job), expected::guard(story.guard(states)), "{story:?} under {limits:?}");
    }
}

#[test]
fn of_single_guards() {
    let mut draw = Draw::new(181);
    let mut seen = Seen::default();
    for walked in &walked(&mut draw, 50) {
        let mut calls = Single(vec![floe::guard::new()]);
        operations(&mut draw, &mut calls, 1, walked, cases(200), &mut seen);
    }
    assert!(seen.heard.iter().all(|&times| times > 100) && seen.changes > 1000, "{seen:?}");
    assert!([10, 11, 12, 13, 18].iter().all(|&number| seen.refused[number] > 10), "{seen:?}");
    assert!(seen.changes_lost > 100, "{seen:?}");
}

#[test]
fn of_rows() {
    let mut draw = Draw::new(182);
    let mut seen = Seen::default();
    for walked in &walked(&mut draw, 10) {
        let jobs = draw.of(&[2, 7, 16]);
        let mut calls = Row(vec![floe::guard::new(); jobs]);
        operations(&mut draw, &mut calls, jobs, walked, cases(1000), &mut seen);
    }
    assert!(seen.heard.iter().all(|&times| times > 50) && seen.changes > 1000, "{seen:?}");
    assert!([10, 11, 12, 13, 18].iter().all(|&number| seen.refused[number] > 10), "{seen:?}");
}

/// On a partner's table a change may lead to another of the states after which the same patterns are kept. So the state
/// is what the walk says, step by step, and all that is heard is what the story says.
#[test]
fn on_partners_tables() {
    let mut draw = Draw::new(183);
    let mut moved = 0;
    let mut heard = [0; 3];
    for canonical in &walked(&mut draw, 40) {
        let Walked { limits, set, table, .. } = canonical.partners(&mut draw);
        let mut job = Job { guard: floe::guard::start(&table).guard, story: Story::default() };
        let mut step: Guard = FRESH;
        for _ in 0..cases(250) {
            let answer = job.story.answer(&limits);
            let found = floe::guard::ask(job.guard, &table);
            assert_eq!((found.refused, found.answer), (0, answer as u64), "{:?} under {limits:?}", job.story);
            heard[answer as usize] += 1;
            if draw.one_in(3) {
                let before = step;
                let record = carry::record(step, &set);
                step = carry::read(&record, &table).expect("what a guard holds is walked on its table");
                change(&mut draw, &mut job.guard, &set, &table, &mut Seen::default());
                moved += usize::from(step.state != before.state);
            } else {
                let miss = draw.one_in(2) && (answer != Answer::Panic || draw.one_in(30));
                job.guard = floe::guard::tell(job.guard, &table, u8::from(!miss)).guard;
                step = tell(step, &table, u8::from(!miss)).unwrap();
                job.story.tell(&limits, u8::from(!miss));
            }
            assert_eq!(job.guard, expected::guard(step), "{:?} under {limits:?}", job.story);
            let told = job.story.guard(&canonical.states);
            assert_eq!((step.lost, step.outcomes, step.count), (told.lost, told.outcomes, told.count));
            if step.count > 60 {
                job = Job { guard: floe::guard::start(&table).guard, story: Story::default() };
                step = FRESH;
            }
        }
    }
    assert!(moved > 30 && heard.iter().all(|&times| times > 100), "{moved} moved, {heard:?}");
}
