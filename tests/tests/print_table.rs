//! The compiled printing program against the reference: what it writes for what it reads.

use std::fs::{read, read_dir};
use std::io::Write;
use std::path::{Path, PathBuf};
use std::process::{Command, Stdio};
use std::thread::sleep;
use std::time::Duration;

use floelinnet_tests::damage::spoilt_set;
use floelinnet_tests::draw::{cases, Draw};
use floelinnet_tests::reference::limits::{
    allowed_limits, limits_nothing, limits_within, width, Limit, OLD_LONGEST_WINDOW,
};
use floelinnet_tests::reference::table::states;
use floelinnet_tests::reference::{refuse, sets, Refusal};
use floelinnet_tests::tools;

/// What `make target/bin/print_table` copies from where `rt run` leaves it.
const PROGRAM: &str = concat!(env!("CARGO_MANIFEST_DIR"), "/../target/bin/print_table");
const ROOT: &str = concat!(env!("CARGO_MANIFEST_DIR"), "/..");

/// What the program writes for an input that comes in pieces of this length, with time to read each.
fn printed_in_pieces(input: &[u8], length: usize) -> String {
    assert!(Path::new(PROGRAM).is_file(), "there is no {PROGRAM}: run `make target/bin/print_table` in the root first");
    let mut program =
        tools::program(PROGRAM).stdin(Stdio::piped()).stdout(Stdio::piped()).stderr(Stdio::piped()).spawn().unwrap();
    let mut stdin = program.stdin.take().unwrap();
    for (number, piece) in input.chunks(length).enumerate() {
        if number > 0 {
            sleep(Duration::from_millis(20));
        }
        stdin.write_all(piece).unwrap();
    }
    drop(stdin);
    let output = program.wait_with_output().unwrap();
    assert!(output.status.success() && output.stderr.is_empty(), "{output:?}");
    String::from_utf8(output.stdout).expect("the output is text")
}

fn printed(input: &[u8]) -> String {
    printed_in_pieces(input, input.len().max(1))
}

/// RULES, The printing program: "It takes a set from standard input and reads 65 bytes of it at the most. More than 64
/// are refusal 1, whatever they hold"; 64 or fewer are tested as by the builder, but for the longest window, which is 12
/// here.
fn judged(input: &[u8]) -> Result<Vec<Limit>, Refusal> {
    if input.len() > 64 {
        return refuse(1, 0);
    }
    sets::read_within(OLD_LONGEST_WINDOW, input)
}

/// "A table is printed as one line with the word `states` and how many there are, then one line for each state, from 0
/// on: its number, the next state on a miss or `-` where none is allowed, and the next state on a hit." "A refusal is
/// printed as one line, with the number and the value beside it: `refused 3 at 0`."
fn text(answer: Result<Vec<Limit>, Refusal>) -> String {
    let set = match answer {
        Ok(set) => set,
        Err(refusal) => return format!("refused {} at {}\n", refusal.number, refusal.at),
    };
    let states = states(&set);
    let mut text = format!("states {}\n", states.len());
    for (number, state) in states.iter().enumerate() {
        let miss = state.miss.map_or("-".to_owned(), |next| next.to_string());
        text += &format!("{number} {miss} {}\n", state.hit);
    }
    text
}

/// The number of the refusal that is printed, 0 for a table.
fn agree(input: &[u8]) -> u8 {
    let answer = judged(input);
    let number = answer.as_ref().map_or_else(|refusal| refusal.number, |_| 0);
    assert_eq!(printed(input), text(answer), "{input:02X?}");
    number
}

const ANY_HIT_1_2: &[u8] = &[0, 0, 0, 5, 1, 1, 0, 1, 2];

#[test]
fn worked() {
    assert_eq!(printed(ANY_HIT_1_2), "states 2\n0 1 0\n1 - 0\n");
    assert_eq!(printed(&[]), "refused 1 at 0\n");
}

/// One input for each refusal that the program can print.
#[test]
fn refusals() {
    let rows: [(&[u8], &str); 14] = [
        (&[0, 0, 0, 6, 1, 1, 0, 1, 2], "refused 1 at 0\n"),
        (&[0, 0, 0, 5, 2, 1, 0, 1, 2], "refused 2 at 0\n"),
        (&[0, 0, 0, 5, 1, 9, 0, 1, 2], "refused 3 at 0\n"),
        (&[0, 0, 0, 5, 1, 2, 0, 1, 2], "refused 4 at 0\n"),
        (&[0, 0, 0, 8, 1, 2, 0, 1, 2, 4, 1, 2], "refused 5 at 1\n"),
        (&[0, 0, 0, 11, 1, 3, 0, 1, 2, 0, 1, 2, 1, 1, 13], "refused 6 at 2\n"),
        (&[0, 0, 0, 8, 1, 2, 0, 1, 2, 3, 13, 0], "refused 7 at 1\n"),
        (&[0, 0, 0, 5, 1, 1, 2, 12, 12], "refused 21 at 0\n"),
        (&[0, 0, 0, 8, 1, 2, 2, 12, 12, 1, 0, 3], "refused 21 at 0\n"),
        // The window too long for the program is tested first.
        (&[0, 0, 0, 5, 1, 1, 2, 13, 13], "refused 6 at 0\n"),
        // What the library takes.
        (&[0, 0, 0, 5, 1, 1, 0, 8, 16], "refused 6 at 0\n"),
        (&[0, 0, 0, 5, 1, 1, 3, 16, 0], "refused 7 at 0\n"),
        (&[0, 0, 0, 8, 1, 2, 2, 0, 13, 0, 1, 17], "refused 6 at 0\n"),
        (&[0, 0, 0, 8, 1, 2, 3, 13, 0, 4, 0, 1], "refused 7 at 0\n"),
    ];
    for (input, line) in rows {
        assert_eq!(printed(input), line, "{input:02X?}");
        agree(input);
    }
}

/// An input of this length with a true length field, and more bytes than any set has.
fn long(length: usize, version: u8, count: u8) -> Vec<u8> {
    let mut input = vec![1; length];
    input[..4].copy_from_slice(&(length as u32 - 4).to_be_bytes());
    input[4..6].copy_from_slice(&[version, count]);
    input
}

/// 64 bytes are tested as by the builder, 65 are not, "whatever they hold".
#[test]
fn around_64_bytes() {
    let heads = |length: usize| [long(length, 2, 8), long(length, 1, 9), long(length, 1, 8), vec![0; length]];
    for length in [63, 64] {
        assert_eq!(heads(length).map(|input| agree(&input)), [2, 3, 4, 1], "{length} bytes");
    }
    for length in [65, 66, 4096] {
        // Those of 64 bytes and a whole set are here only the beginning of the input.
        let beginnings = [heads(length), heads(64)].concat().into_iter().chain([ANY_HIT_1_2.to_vec()]);
        for mut input in beginnings {
            input.resize(length, 0);
            assert_eq!(printed(&input), "refused 1 at 0\n", "{length} bytes, {input:02X?}");
        }
    }
}

fn files_of_sets() -> Vec<PathBuf> {
    let files = read_dir(Path::new(ROOT).join("sets")).unwrap().map(|entry| entry.unwrap().path());
    files.filter(|path| path.extension().is_some_and(|kind| kind == "limits")).collect()
}

#[test]
fn every_file_of_sets() {
    let refused: Vec<u8> = files_of_sets().iter().map(|path| agree(&read(path).unwrap())).collect();
    assert!(refused.iter().filter(|&&number| number == 0).count() >= 5, "{refused:?}");
    assert_eq!([6, 21].map(|by| refused.iter().filter(|&&number| number == by).count()), [2, 1], "{refused:?}");
}

/// examples/table.rs prints what the program prints, by the library, and also the tables of the sets whose windows are too
/// long for the program. What the library refuses it says in words, by the number.
#[test]
fn the_example_of_the_library() {
    for path in files_of_sets() {
        let mut cargo = Command::new(env!("CARGO"));
        cargo.args(["run", "--release", "--offline", "--quiet", "--example", "table"]).arg(&path).current_dir(ROOT);
        let output = cargo.output().unwrap();
        let [lines, said] = [&output.stdout, &output.stderr].map(|said| String::from_utf8(said.clone()).unwrap());
        let set = read(&path).unwrap();
        let answer = sets::read(&set);
        assert_eq!(output.status.success(), answer.is_ok(), "{output:?}");
        if let Err(refusal) = answer {
            assert!(lines.is_empty() && said.contains(&format!(": refusal {}: ", refusal.number)), "{output:?}");
            continue;
        }
        assert!(said.is_empty(), "{output:?}");
        assert_eq!(lines, text(answer), "{path:?}");
        assert!(judged(&set).is_err() || lines == printed(&set), "{path:?}");
    }
}

/// AnyHit(6,12) has the most states, and no text of a limit alone has more lines.
#[test]
fn every_limit_alone() {
    let lines = |limit: Limit| {
        let input = sets::bytes(&[limit]);
        assert_eq!(agree(&input), 0);
        printed(&input).lines().count()
    };
    assert_eq!(lines(Limit { kind: 0, x: 6, k: 12 }), 1 + 924);
    assert_eq!(limits_within(OLD_LONGEST_WINDOW).into_iter().map(lines).max(), Some(1 + 924));
    let idle =
        allowed_limits().into_iter().filter(|&limit| limits_nothing(&[limit]) && width(limit) <= OLD_LONGEST_WINDOW);
    idle.for_each(|limit| assert_eq!(agree(&sets::bytes(&[limit])), 21, "{limit:?}"));
}

/// Limits that the library takes and the program doesn't: of each kind and window the strictest and the mildest.
#[test]
fn longer_windows() {
    let longer = |limit: &Limit| width(*limit) > OLD_LONGEST_WINDOW;
    for limit in allowed_limits().into_iter().filter(longer).filter(|limit| limit.x % limit.k.max(1) == 0) {
        assert_eq!(agree(&sets::bytes(&[limit])), if limit.kind == 3 { 7 } else { 6 }, "{limit:?}");
    }
}

/// A read that gives fewer bytes than were asked for is not the end of the input.
#[test]
fn in_pieces() {
    for input in [ANY_HIT_1_2.to_vec(), long(64, 1, 8), long(65, 1, 8)] {
        for length in [8, 40] {
            assert_eq!(printed_in_pieces(&input, length), text(judged(&input)), "{input:02X?} in pieces of {length}");
        }
    }
}

#[test]
fn random_sets() {
    let mut draw = Draw::new(91);
    for _ in 0..cases(60) {
        assert_eq!(agree(&sets::bytes(&draw.set_within(OLD_LONGEST_WINDOW))), 0);
    }
    let mut seen = [0; 22];
    for _ in 0..cases(600) {
        seen[usize::from(agree(&spoilt_set(&mut draw)))] += 1;
    }
    assert!((1..=7).chain([21]).all(|number| seen[number] > 5), "{seen:?}");
}
