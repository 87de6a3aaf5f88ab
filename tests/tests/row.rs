//! The three calls on a row of guards against the reference, all the memory around the row looked at after each.

use std::mem::size_of;
use std::slice;

use floelinnet_tests::damage::{damage, drawn_table};
use floelinnet_tests::draw::{cases, Draw};
use floelinnet_tests::reference::guard::{Answer, Guard, FRESH, HELD};
use floelinnet_tests::reference::{row, table, Refusal};
use floelinnet_tests::{expected, floe};

/// Records on both sides of a lent row that the archive must not reach.
const MARGIN: usize = 3;

#[derive(Clone, Copy, Debug)]
enum Call {
    Start,
    Ask,
    Tell(u8),
}

/// A guard's record with the bytes that hold nothing by name: a neighbour's stay too.
#[repr(C)]
#[derive(Clone, Copy, PartialEq, Eq, Debug)]
struct Record {
    state: u16,
    lost: u8,
    outcomes: [u8; HELD],
    spare: [u8; SPARE],
    count: u64,
}

const SPARE: usize = size_of::<floe::Guard>() - 2 - 1 - HELD - 8;

impl Record {
    fn hold(&mut self, guard: Guard) {
        (self.state, self.lost) = (guard.state, u8::from(guard.lost));
        (self.outcomes, self.count) = (guard.outcomes.map(u8::from), guard.count);
    }
}

/// One row twice: as the reference has it, and in the memory from which it is lent to the archive.
struct Rows {
    want: Vec<Guard>,
    memory: Vec<Record>,
}

impl Rows {
    fn new(draw: &mut Draw, want: Vec<Guard>) -> Rows {
        let mut chance = |_| Record {
            state: draw.number() as u16,
            lost: draw.byte(),
            outcomes: [(); HELD].map(|()| draw.byte()),
            spare: [(); SPARE].map(|()| draw.byte()),
            count: draw.count(),
        };
        let mut memory: Vec<Record> = (0..want.len() + 2 * MARGIN).map(&mut chance).collect();
        memory[MARGIN..].iter_mut().zip(&want).for_each(|(record, &guard)| record.hold(guard));
        Rows { want, memory }
    }

    fn lent(&mut self) -> &mut [floe::Guard] {
        let row = &mut self.memory[MARGIN..][..self.want.len()];
        // A record lies in memory as a guard does, and `hold` leaves a true or a false in it.
        unsafe { slice::from_raw_parts_mut(row.as_mut_ptr().cast(), row.len()) }
    }

    /// The call on both. "No other guard changes": every other byte stays.
    fn agree(&mut self, call: Call, job: usize, table: &[u8]) -> Result<Option<Answer>, Refusal> {
        let mut memory = self.memory.clone();
        let before = self.want.clone();
        let shown = || format!("{call:?} of job {job}, row {before:?}, table {table:02X?}");
        let (answer, found) = match call {
            Call::Start => {
                (row::start(&mut self.want, job, table).map(|()| None), floe::row::start(self.lent(), job, table))
            }
            Call::Ask => {
                let answer = row::ask(&self.want, job, table);
                let found = floe::row::ask(self.lent(), job, table);
                assert_eq!(found, expected::row_asked(answer), "{}", shown());
                (answer.map(Some), floe::Done { refused: found.refused, at: found.at })
            }
            Call::Tell(outcome) => {
                let answer = row::tell(&mut self.want, job, table, outcome);
                (answer.map(|()| None), floe::row::tell(self.lent(), job, table, outcome))
            }
        };
        assert_eq!(found, expected::done(answer.map(drop)), "{}", shown());
        if let Some(&guard) = self.want.get(job) {
            let own = &mut memory[MARGIN + job];
            own.hold(guard);
            own.spare = self.memory[MARGIN + job].spare;
        }
        assert_eq!(self.memory, memory, "memory after {}", shown());
        answer
    }
}

fn number(answer: Result<Option<Answer>, Refusal>) -> usize {
    answer.map_or_else(|refusal| usize::from(refusal.number), |_| 0)
}

/// Any table, any guards, any job and outcome, often with several faults at once.
#[test]
fn any_row_any_call() {
    let mut draw = Draw::new(71);
    let mut seen = [0; 18];
    for _ in 0..cases(50_000) {
        let count: usize = draw.of(&[0, 1, 2, 5, 15, 16, 17, 20]);
        let guards = (0..count).map(|_| draw.guard(7)).collect();
        let mut rows = Rows::new(&mut draw, guards);
        let mut table = drawn_table(&mut draw, 6);
        if draw.one_in(3) {
            damage(&mut draw, &mut table);
        }
        for _ in 0..8 {
            let job = draw.of(&[0, count / 2, count.saturating_sub(1), count, 16, 17, usize::MAX]);
            let outcome = draw.of(&[0, 0, 1, 1, 1, 2, 255]);
            let call = draw.of(&[Call::Start, Call::Ask, Call::Tell(outcome)]);
            seen[number(rows.agree(call, job, &table))] += 1;
        }
    }
    assert!([0, 10, 11, 12, 13, 14, 17].iter().all(|&number| seen[number] > 100), "{seen:?}");
}

/// Rows on tables of sets, told outcomes by chance for many jobs, with refused calls in between.
#[test]
fn long_runs_on_tables_of_sets() {
    let mut draw = Draw::new(72);
    let mut refused = [0; 15];
    let mut heard = [0; 3];
    for _ in 0..cases(250) {
        let table = table::bytes(&table::states(&draw.set()));
        let count = 1 + draw.below(16);
        let mut rows = Rows::new(&mut draw, vec![FRESH; count]);
        for _ in 0..500 {
            let job = draw.below(count);
            let answer = rows.agree(Call::Ask, job, &table).unwrap().unwrap();
            heard[answer as usize] += 1;
            let call = match answer {
                Answer::Lost if draw.one_in(8) => Call::Start,
                Answer::Panic => Call::Tell(u8::from(!draw.one_in(20))),
                _ => Call::Tell(draw.below(2) as u8),
            };
            assert_eq!(number(rows.agree(call, job, &table)), 0);
            if draw.one_in(4) {
                let mut table = table.clone();
                if draw.one_in(2) {
                    damage(&mut draw, &mut table);
                }
                let job = draw.of(&[job, count, 16, usize::MAX]);
                let outcome = draw.of(&[2, 3, 128, 255]);
                let call = draw.of(&[Call::Start, Call::Ask, Call::Tell(outcome)]);
                refused[number(rows.agree(call, job, &table))] += 1;
            }
        }
    }
    assert!([10, 11, 12, 13, 14].iter().all(|&number| refused[number] > 100), "{refused:?}");
    assert!(heard.iter().all(|&times| times > 1000), "{heard:?}");
}

/// AnyHit(1,2): after a miss a hit.
const TABLE: &[u8] = &[0, 0, 0, 0x0B, 1, 0, 2, 0, 1, 0, 0, 0xFF, 0xFF, 0, 0];
/// Refused by 10, by 11 and, for its count, by 12.
const SHORT: &[u8] = &[0, 0, 0, 0x0A, 1, 0, 2, 0, 1, 0, 0, 0xFF, 0xFF, 0, 0];
const VERSION_2: &[u8] = &[0, 0, 0, 0x0B, 2, 0, 2, 0, 1, 0, 0, 0xFF, 0xFF, 0, 0];
const COUNT_3: &[u8] = &[0, 0, 0, 0x0B, 1, 0, 3, 0, 1, 0, 0, 0xFF, 0xFF, 0, 0];

/// "14; then as the call on a single guard", 10 to 12, then 13, then 17: every choice of faults on every call. A refused
/// start leaves the job's old guard, in panic or lost, and one that was told all that it can count.
#[test]
fn every_choice_of_faults() {
    let mut draw = Draw::new(73);
    let tables = [(TABLE, 0), (&[][..], 10), (SHORT, 10), (VERSION_2, 11), (COUNT_3, 12)];
    for (count, job) in [(3, 1), (16, 0), (16, 15), (0, 0), (3, 3), (16, 16), (3, usize::MAX), (17, 0), (17, 17)] {
        let no_job = job >= count || count > 16;
        for (table, fault) in tables {
            for call in [Call::Start, Call::Ask, Call::Tell(0), Call::Tell(1), Call::Tell(2), Call::Tell(255)] {
                let no_outcome = matches!(call, Call::Tell(2..));
                for (lost, told) in [(false, 1), (true, 2), (false, u64::MAX), (true, u64::MAX)] {
                    let no_more = matches!(call, Call::Tell(_)) && told == u64::MAX;
                    let want = [(no_job, 14), (fault > 0, fault), (no_outcome, 13), (no_more, 17)];
                    let want = want.iter().find(|(refused, _)| *refused).map_or(0, |&(_, number)| number);
                    let guard = Guard { state: 1, lost, count: told, ..FRESH };
                    let mut rows = Rows::new(&mut draw, vec![guard; count]);
                    assert_eq!(number(rows.agree(call, job, table)), want, "{call:?}, {count} guards, job {job}");
                }
            }
        }
    }
}

/// RowHit(2,4): after a miss two hits.
const TWO_HITS: &[u8] = &[0, 0, 0, 0x0F, 1, 0, 3, 0, 1, 0, 0, 0xFF, 0xFF, 0, 2, 0xFF, 0xFF, 0, 0];
/// The same with a next state that there isn't, in state 2.
const BAD_STATE_2: &[u8] = &[0, 0, 0, 0x0F, 1, 0, 3, 0, 1, 0, 0, 0xFF, 0xFF, 0, 2, 0xFF, 0xFF, 0, 3];
/// `TABLE` with one in state 1.
const BAD_STATE_1: &[u8] = &[0, 0, 0, 0x0B, 1, 0, 2, 0, 1, 0, 0, 0xFF, 0xFF, 0xFF, 0xFF];
/// AnyHit(1,1): no miss is allowed.
const NO_MISS: &[u8] = &[0, 0, 0, 7, 1, 0, 1, 0xFF, 0xFF, 0, 0];
/// A table of no set: every miss is.
const ANY_MISS: &[u8] = &[0, 0, 0, 7, 1, 0, 1, 0, 0, 0, 0];

/// Worked calls: the table, the row before, the calls and what they answer, and the row after.
///
/// A guard is its state, with `!` where it is lost; one with nothing told but for these is meant before. A call is `s`
/// start, `a` ask, `m` tell a miss, `h` tell a hit or `x` tell 255, and the job's number. An answer is `-` where a
/// start or a tell wasn't refused, `n`, `p` or `l` for what an ask says, or the number of the refusal.
#[rustfmt::skip]
const WORKED: &[(&[u8], &str, &str, &str, &str)] = &[
    // One job alone: as a single guard.
    (TABLE, "0", "s0 a0 m0 a0 m0 a0 h0 a0", "- n - p - l - l", "1!"),
    (TWO_HITS, "0", "s0 a0 m0 a0 h0 a0 h0 a0", "- n - p - p - n", "0"),
    // Each job hears what its own outcomes say.
    (TABLE, "0 0", "s0 s1 m0 m1 m0 h1 a0 a1", "- - - - - - l n", "1! 0"),
    (TABLE, "0 0", "m1 a0 a1 m1 a0 a1 m0 a0 a1", "- n p - n l - p l", "1 1!"),
    (TWO_HITS, "0 0 0", "m0 a0 a1 a2 m2 h0 a0 a1 a2 h2 h1 m0 a0 a1 a2", "- p n n - - p n p - - - l n p", "2! 0 2"),
    (ANY_MISS, "0 0", "m0 m0 m1 a0 a1", "- - - n n", "0 0"),
    (NO_MISS, "0 0 0", "h1 m2 a0 a1 a2", "- - p p l", "0 0 0!"),
    // Starting one job starts no other.
    (TABLE, "1! 1!", "s0 a0 a1", "- n l", "0 1!"),
    (TABLE, "1! 1!", "s1 a0 a1", "- l n", "1! 0"),
    (TWO_HITS, "1 2 2", "s1 a0 a1 a2", "- p n p", "1 0 2"),
    // A lost job told on: its state stays, the others move.
    (TABLE, "0 0 1!", "h2 m1 h2 m2 a0 a1 a2", "- - - - n p l", "0 1 1!"),
    // Sixteen guards: the first, the last, and all between stay.
    (TABLE, "0 0 0 0 0 0 0 0 0 0 0 0 0 0 0 0", "s0 s15 m15 a0 a15 a14 m15 a15 m0 a0", "- - - n p n - l - p",
        "1 0 0 0 0 0 0 0 0 0 0 0 0 0 0 1!"),
    // No such job; no guards; more than sixteen.
    (TABLE, "0 0 0", "s2 a2 m2 s3 a3 m3 h3 s255 a2", "- n - 14 14 14 14 14 p", "0 0 1"),
    (TABLE, "", "s0 a0 m0 h0 s1", "14 14 14 14 14", ""),
    (TABLE, "0 0 0 0 0 0 0 0 0 0 0 0 0 0 0 0 0", "s0 a0 m0 h15 s16 a16 m16 s17", "14 14 14 14 14 14 14 14",
        "0 0 0 0 0 0 0 0 0 0 0 0 0 0 0 0 0"),
    // 14 before 10, 11, 12 and 13.
    (SHORT, "1 1!", "s2 a2 m2 x2", "14 14 14 14", "1 1!"),
    (VERSION_2, "1 1!", "s2 a2 m2 x2", "14 14 14 14", "1 1!"),
    (COUNT_3, "1 1!", "s2 a2 m2 x2", "14 14 14 14", "1 1!"),
    (TABLE, "1 1!", "x2", "14", "1 1!"),
    // With the job there, 10 to 12 for the table; the old guards stay.
    (SHORT, "1 1! 0", "s0 s1 s2 a0 a1 a2 h0 h1 x2", "10 10 10 10 10 10 10 10 10", "1 1! 0"),
    (VERSION_2, "1 1! 0", "s0 s1 s2 a0 a1 a2 h0 h1 x2", "11 11 11 11 11 11 11 11 11", "1 1! 0"),
    (COUNT_3, "1 1! 0", "s0 s1 s2 a0 a1 a2 h0 h1 x2", "12 12 12 12 12 12 12 12 12", "1 1! 0"),
    (BAD_STATE_1, "1 1! 0", "s0 s1 s2 a0 a1 a2 h0 h1 x2", "12 12 12 12 12 n 12 12 13", "1 1! 0"),
    // A refused tell isn't an outcome told, of a job in panic and of a lost one.
    (TABLE, "1 1! 0", "x0 x1 x2 a0 a1 a2 h0 a0", "13 13 13 p l n - n", "0 1! 0"),
    // A bad entry elsewhere: a refused start leaves the job's old guard, and ask and tell go on.
    (BAD_STATE_2, "0 0", "s0 a0 m0 a0 s0 a0 h0 s0 a0 h0 x0 a1", "12 n - p 12 p - 12 12 12 12 n", "2 0"),
    (BAD_STATE_2, "0 1!", "a1 s1 a1 h1 a1 s0 a0", "l 12 l - l 12 n", "0 1!"),
    // A table with fewer states: 12 for the jobs that stand beyond it, until they are started.
    (NO_MISS, "1 1! 0", "a0 a1 a2 h0 m1 x2 x1 h2 s0 a0 s1 a1", "12 12 p 12 12 13 12 - - p - p", "0 0 0"),
    // A table that fits: each job goes on from where it stands.
    (TWO_HITS, "1 1! 0", "a0 a1 a2 h0 h1 m2 a0 a1 a2 h0 a0", "p l n - - - p l p - n", "0 1! 1"),
];

#[test]
fn worked_calls() {
    let mut draw = Draw::new(74);
    for &(table, before, calls, answers, after) in WORKED {
        let mut rows = Rows::new(&mut draw, guards(before));
        let found: Vec<String> = calls
            .split_whitespace()
            .map(|written| {
                let (call, job) = call(written);
                shown(rows.agree(call, job, table))
            })
            .collect();
        assert_eq!(found.join(" "), answers, "{calls} on {before}, table {table:02X?}");
        let stands =
            |guards: &[Guard]| -> Vec<(u16, bool)> { guards.iter().map(|one| (one.state, one.lost)).collect() };
        assert_eq!(stands(&rows.want), stands(&guards(after)), "{calls} on {before}, table {table:02X?}");
    }
}

/// A new row, and what its guards hold after some calls.
#[test]
fn what_a_row_holds() {
    let mut row = [floe::guard::new(); 3];
    for (job, outcome) in [(0, 0), (2, 0), (2, 0), (2, 1), (0, 1), (0, 1)] {
        assert_eq!(floe::row::tell(&mut row, job, TABLE, outcome), floe::Done::default());
    }
    let held = |digits: &str| <[bool; HELD]>::try_from(digits.bytes().map(|digit| digit == b'1').collect::<Vec<_>>());
    let guard = |state, lost, digits, count| floe::Guard { state, lost, outcomes: held(digits).unwrap(), count };
    let fresh = guard(0, false, "111111111111111", 0);
    assert_eq!(row, [guard(0, false, "111111111111011", 3), fresh, guard(1, true, "111111111111110", 3)]);
    assert_eq!(floe::row::start(&mut row, 2, TABLE), floe::Done::default());
    assert_eq!(row, [guard(0, false, "111111111111011", 3), fresh, fresh]);
}

fn guards(written: &str) -> Vec<Guard> {
    let guard = |guard: &str| {
        let state = guard.trim_end_matches('!').parse().unwrap();
        Guard { state, lost: guard.ends_with('!'), ..FRESH }
    };
    written.split_whitespace().map(guard).collect()
}

fn call(written: &str) -> (Call, usize) {
    let (call, job) = written.split_at(1);
    let call = match call {
        "s" => Call::Start,
        "a" => Call::Ask,
        "m" => Call::Tell(0),
        "h" => Call::Tell(1),
        "x" => Call::Tell(255),
        _ => panic!("no call is written {written}"),
    };
    (call, job.parse().unwrap())
}

fn shown(answer: Result<Option<Answer>, Refusal>) -> String {
    match answer {
        Ok(None) => "-".into(),
        Ok(Some(Answer::Normal)) => "n".into(),
        Ok(Some(Answer::Panic)) => "p".into(),
        Ok(Some(Answer::Lost)) => "l".into(),
        Err(refusal) => refusal.number.to_string(),
    }
}
