//! C and C++ programs over the header: what they print, alone and under valgrind, and what compilers say of them.

mod cookbook;
mod layout;
mod programs;

use std::fs::{read_to_string, write};
use std::process::{Command, Output};
use std::slice;

use floelinnet_tests::floe::{builder, carry, compare, guard, log, row, sets, table, verdict};
use floelinnet_tests::reference::guard::HELD;
use floelinnet_tests::reference::table::WORK_ENTRIES;
use floelinnet_tests::tools;
use programs::{file, prints, prints_given, COMPILERS};

#[test]
fn operation() {
    let expected = read_to_string(file("examples/operation.expected")).unwrap();
    prints(&file("examples/operation.c"), &expected.lines().collect::<Vec<_>>());
}

#[test]
fn recorder() {
    let expected = read_to_string(file("examples/recorder.expected")).unwrap();
    prints(&file("examples/recorder.c"), &expected.lines().collect::<Vec<_>>());
}

#[test]
fn visit() {
    let source = file("examples/visit.c");
    let expected = read_to_string(file("examples/visit.expected")).unwrap();
    let files = ["sets/breath.limits", "logs/bunched.log", "logs/calm.log"];
    prints_given(&files, &source, &expected.lines().collect::<Vec<_>>());

    // "It ends with status 0 where every log was judged": a set is no log.
    let mut program = tools::program(programs::compile(&["gcc", "-std=c11"], &source));
    let ended = program.args(["sets/breath.limits", "logs/calm.log", "sets/breath.limits"]).current_dir(file(""));
    let Output { status, stdout, stderr } = ended.output().unwrap();
    let said = [stdout, stderr].map(|said| String::from_utf8(said).unwrap());
    assert_eq!(said, ["logs/calm.log: kept\n", "sets/breath.limits: refused by 15 at 0\n"]);
    assert_eq!(status.code(), Some(1));
}

/// README shows the programs that are tried here, and what the second prints.
#[test]
fn readme_shows_the_examples() {
    let readme = read_to_string(file("README.md")).unwrap();
    let blocks = |language: &str| -> Vec<&str> {
        let begin = format!("```{language}\n");
        readme.split(&begin).skip(1).map(|block| block.split_once("```\n").expect("a block ends").0).collect()
    };
    let examples = ["examples/operation.c", "examples/visit.c"].map(|path| read_to_string(file(path)).unwrap());
    assert_eq!(blocks("c"), examples);
    assert!(blocks("text").contains(&&*read_to_string(file("examples/visit.expected")).unwrap()));
}

/// How many functions the header declares.
const FUNCTIONS: usize = 19;

const SET: &[u8] = &[0, 0, 0, 8, 1, 2, 3, 3, 0, 2, 2, 5];
const OTHER: &[u8] = &[0, 0, 0, 5, 1, 1, 2, 3, 7];
const FAULTY: &[u8] = &[0, 0, 0, 8, 1, 2, 0, 1, 2, 4, 0, 1];
const ALL_OF_16: &[u8] = &[0, 0, 0, 5, 1, 1, 0, 16, 16];
const HALF_OF_16: &[u8] = &[0, 0, 0, 5, 1, 1, 0, 8, 16];
const PATTERN: &[u8] = &[1, 0, 1, 0, 0, 1];
const NIGHT: &[u8] = &[1, 1, 0, 1, 1, 1, 0, 1, 0, 0];

/// The calls of calls.c, in its order.
#[test]
fn calls() {
    let mut lines = Vec::new();
    macro_rules! line {
        ($answer:expr) => {
            lines.push(format!("{:?}", $answer))
        };
    }
    line!(sets::read_set(SET));
    line!(sets::read_set(FAULTY));
    line!(sets::read_set(&[]));

    let mut set = sets::read_set(SET).set;
    let mut bytes = [0; SET.len()];
    line!(sets::write_set(set, &mut bytes));
    line!(bytes);
    line!(sets::write_set(set, &mut bytes[1..]));
    line!(sets::write_set(set, &mut []));
    set.limits[1].k = 17;
    line!(sets::write_set(set, &mut bytes));
    set.count = 9;
    line!(sets::write_set(set, &mut bytes));
    line!(bytes);

    line!(verdict::judge(SET, PATTERN));
    line!(verdict::judge(ALL_OF_16, PATTERN));
    line!(verdict::judge(SET, &[]));
    line!(verdict::judge(SET, &[1, 0, 1, 2]));
    line!(verdict::judge(FAULTY, PATTERN));

    line!(compare::compare(SET, OTHER));
    line!(compare::compare(SET, SET));
    line!(compare::compare(SET, FAULTY));

    let mut work = vec![0; WORK_ENTRIES];
    let needed = builder::build(SET, &mut work, &mut []);
    line!(needed);
    line!(builder::build(SET, &mut work[1..], &mut []));
    let mut built = vec![0; needed.at as usize];
    line!(builder::build(SET, &mut work, &mut built));
    line!(built);

    let needed = builder::build(HALF_OF_16, &mut work, &mut []);
    line!(needed);
    let mut large = vec![0; needed.at as usize];
    line!(builder::build(HALF_OF_16, &mut work, &mut large));
    line!(table::check_table(&large));
    line!(large.iter().fold(0, |sum: u64, &byte| sum * 31 % 1_000_003 + u64::from(byte)));

    line!(table::check_table(&built));
    line!(table::check_table(&[]));
    let mut faulty = built.clone();
    faulty[4] = 2;
    line!(table::check_table(&faulty));

    line!(guard::start(&built[..built.len() - 1]));
    let started = guard::start(&built);
    line!(started);
    let mut one = started.guard;
    for _ in 0..3 {
        line!(guard::ask(one, &built));
        line!(guard::ask(one, &faulty));
        line!(guard::tell(one, &built, 2));
        let told = guard::tell(one, &built, 0);
        line!(told);
        one = told.guard;
    }
    line!(guard::ask(one, &built));

    let needed = carry::write(one, SET, &mut []);
    line!(needed);
    let mut record = vec![0; needed.at as usize];
    one.count = u64::MAX - 1;
    line!(carry::write(one, SET, &mut record));
    line!(record);
    line!(carry::write(one, SET, &mut record[1..]));
    line!(carry::write(one, FAULTY, &mut []));
    line!(record);
    let read = carry::read(&record, &built);
    line!(read);
    let mut told = guard::tell(read.guard, &built, 1);
    line!(told);
    line!(guard::tell(told.guard, &built, 1));
    line!(guard::tell(told.guard, &built, 2));
    line!(row::tell(slice::from_mut(&mut told.guard), 0, &built, 0));
    line!([told.guard]);
    for left in 0..record.len() {
        line!(carry::read(&record[..left], &built));
    }
    line!(carry::read(&record, &built[..built.len() - 1]));
    let outcomes = record.len() - HELD - 9;
    for place in [4, 9, 11, outcomes, record.len() - 1] {
        let mut spoilt = record.clone();
        spoilt[place] = 5;
        line!(carry::read(&spoilt, &built));
        line!(carry::read(&spoilt, &[]));
    }
    record[outcomes..][..HELD].fill(0);
    line!(carry::read(&record, &built));

    let mut old = vec![0, 0, 0, 21 + SET.len() as u8, 1];
    old.extend(SET);
    old.extend([1, 1, 1, 1, 1, 1, 1, 1, 0, 1, 0]);
    old.extend([0, 0, 0, 0, 0, 0, 0, 9, 0]);
    line!(carry::read(&old, &built));
    for left in 0..old.len() {
        line!(carry::read(&old[..left], &built));
    }
    for (place, byte) in [(4, 0), (4, 2), (4, 3), (12, 13), (12, 17), (24, 2), (old.len() - 1, 2)] {
        let mut spoilt = old.clone();
        spoilt[place] = byte;
        line!(carry::read(&spoilt, &built));
    }

    let mut guards = [guard::new(); 3];
    line!(guards);
    for _ in 0..3 {
        line!(row::ask(&guards, 1, &built));
        line!(row::ask(&guards, 1, &faulty));
        line!(row::ask(&guards, 3, &built));
        line!(row::tell(&mut guards, 1, &built, 2));
        line!(row::tell(&mut guards, 3, &built, 0));
        line!(row::tell(&mut guards, 1, &built, 0));
        line!(guards);
    }
    line!(row::ask(&guards, 1, &built));
    line!(row::start(&mut guards, 1, &faulty));
    line!(row::start(&mut guards, 3, &built));
    line!(guards);
    line!(row::start(&mut guards, 1, &built));
    line!(guards);

    let needed = log::write(NIGHT, &mut []);
    line!(needed);
    let mut night = vec![0; needed.at as usize];
    line!(log::write(NIGHT, &mut night));
    line!(night);
    line!(log::write(NIGHT, &mut night[1..]));
    line!(log::write(&[1, 2, 0], &mut []));
    line!(night);
    let mut empty = [0; 9];
    line!(log::write(&[], &mut empty));
    line!(empty);

    let opened = log::open(&night);
    line!(opened);
    let mut place = opened.place;
    for _ in 0..NIGHT.len() + 2 {
        let read = log::next(place, &night);
        line!(read);
        place = read.place;
    }
    line!(log::next(u64::MAX, &night));
    line!(log::next(0, &empty));

    line!(log::judge(SET, &night));
    line!(log::judge(ALL_OF_16, &night));
    line!(log::judge(SET, &empty));
    line!(log::judge(FAULTY, &[]));

    *night.last_mut().unwrap() |= 1;
    for version in [1, 2] {
        night[4] = version;
        line!(log::open(&night));
        line!(log::next(7, &night));
        line!(log::judge(SET, &night));
    }
    line!(log::open(&[]));
    line!(log::next(u64::MAX, &[]));

    // Lost at jobs 2 and 3: the sign of a first job is seen on both sides.
    for first in ["first: -13", "first: -12"] {
        assert!(lines.iter().any(|line| line.contains(first)), "{first}");
    }
    prints(&file("tests/c/calls.c"), &lines.iter().map(String::as_str).collect::<Vec<_>>());
}

/// names.c says each constant of the header beside what the library makes of it.
#[test]
fn names() {
    let rust = [
        ("FLOE_MOST_LIMITS", floelinnet::MOST_LIMITS),
        ("FLOE_LONGEST_SET", floelinnet::LONGEST_SET),
        ("FLOE_WORK_ENTRIES", floelinnet::WORK_ENTRIES),
        ("FLOE_LONGEST_TABLE", floelinnet::LONGEST_TABLE),
        ("FLOE_MOST_GUARDS", floelinnet::MOST_GUARDS),
        ("FLOE_LONGEST_WINDOW", floelinnet::LONGEST_WINDOW),
        ("FLOE_HELD", floelinnet::HELD),
        ("FLOE_RECORD_SIZE(0)", floelinnet::record_size(0)),
        ("FLOE_RECORD_SIZE(9)", floelinnet::record_size(9)),
        ("FLOE_LONGEST_RECORD", floelinnet::LONGEST_RECORD),
        ("FLOE_OLD_RECORD_SIZE(0)", floelinnet::old_record_size(0)),
        ("FLOE_OLD_RECORD_SIZE(9)", floelinnet::old_record_size(9)),
        ("FLOE_MISS", floelinnet::MISS.into()),
        ("FLOE_HIT", floelinnet::HIT.into()),
        ("FLOE_LOG_SIZE(0)", floelinnet::log_size(0)),
        ("FLOE_LOG_SIZE(86401)", floelinnet::log_size(86_401)),
        ("FLOE_REFUSED_PATTERN_LENGTH", floelinnet::Refused::PatternLength.number().into()),
    ];
    let mut lines: Vec<String> = rust.iter().map(|(name, value)| format!("{name} {value}")).collect();
    lines.push("every name is as the library has it".into());
    prints(&file("tests/c/names.c"), &lines.iter().map(String::as_str).collect::<Vec<_>>());
}

/// Guards through changes of the battery, against their stories.
#[test]
fn changes() {
    prints(&file("tests/c/changes.c"), &["10000 operations, and every guard is what it was told"]);
}

/// The forms that the header shows for a set, for a row, for a row of one, for a record and for a log are taken by every
/// compiler without a warning. Those for a log count the two hits of 1 1 0, which "at most 2 misses" keep.
#[test]
fn shown_forms() {
    let header = read_to_string(file("include/floelinnet.h")).unwrap();
    let shown =
        |line: &&str| [" *     floe_", " *     for (", " *     uint8_t "].iter().any(|form| line.starts_with(form));
    let shown: Vec<&str> = header.lines().filter(shown).map(|line| &line[2..]).collect();
    assert_eq!(shown.len(), 1 + 2 + 2 + 3 + 5, "{shown:?}");
    let shown = shown.join("\n");
    let program = format!(
        "#include <floelinnet.h>
         #include <stdio.h>
         int main(void) {{
             const uint8_t pattern[] = {{1, 1, 0}}, limits[] = {{0, 0, 0, 5, 1, 1, FLOE_ANY_MISS, 2, 8}};
             const size_t pattern_len = sizeof pattern, limits_len = sizeof limits;
             static uint16_t work[FLOE_WORK_ENTRIES];
             static uint8_t table[FLOE_LONGEST_TABLE];
             size_t table_len = floe_build(limits, limits_len, work, FLOE_WORK_ENTRIES, table, sizeof table).length;
             floe_guard guard = floe_guard_start(table, table_len).guard;
             guard = floe_guard_tell(guard, table, table_len, FLOE_MISS).guard;
             uint8_t log[FLOE_LOG_SIZE(sizeof pattern)];
             uint64_t hits = 0;
             {shown}
             printf(\"%u %d\\n\", (unsigned)set.count, row[FLOE_MOST_GUARDS - 1].outcomes[0]);
             printf(\"%u %u\\n\", (unsigned)asked.answer, (unsigned)told.refused);
             printf(\"%u %d\\n\", (unsigned)again.refused, again.guard.state == guard.state && guard.state > 0);
             printf(\"%u %d\\n\", (unsigned)again.guard.count, again.guard.outcomes[FLOE_HELD - 1]);
             printf(\"%u %u %u\\n\", (unsigned)hits, (unsigned)read.answer, (unsigned)verdict.kept);
             return 0;
         }}\n"
    );
    let source = programs::made("shown_forms.c");
    write(&source, program).unwrap();
    prints(&source, &["2 1", "0 0", "0 1", "2 1", "2 2 1"]);
}

/// The header and the rules show a record: the one that the archive writes of the guard and the set that they name.
#[test]
fn shown_record() {
    let table = [0, 0, 0, 0x0B, 1, 0, 2, 0, 1, 0, 0, 0xFF, 0xFF, 0, 0];
    let told = guard::tell(guard::start(&table).guard, &table, 0).guard;
    let mut record = [0; 38];
    assert_eq!(carry::write(told, &[0, 0, 0, 5, 1, 1, 0, 1, 2], &mut record).length, 38);
    let words: Vec<String> = record.iter().map(|byte| format!("{byte:02X}")).collect();
    for page in ["include/floelinnet.h", "docs/RULES.md"] {
        let text = read_to_string(file(page)).unwrap();
        // The header's lines begin with a star.
        let spaced = text.split_whitespace().filter(|&word| word != "*").collect::<Vec<_>>().join(" ");
        assert!(spaced.contains(&words.join(" ")), "{page}: {words:?}");
    }
}

/// What the archive exports the header declares, every function with the attribute. dropped.c calls each and drops what
/// it answers, and every compiler says so.
#[test]
fn dropped_answers() {
    let header = read_to_string(file("include/floelinnet.h")).unwrap();
    let symbols = programs::output(Command::new("nm").args(["-g", "--defined-only"]).arg(programs::archive()));
    let exported: Vec<&str> = symbols.lines().filter_map(|line| line.split_once(" T ")).map(|(_, name)| name).collect();
    assert_eq!(exported.len(), FUNCTIONS);
    for name in exported {
        let declared = |line: &str| line.starts_with("FLOE_NODISCARD ") && line.contains(&format!(" {name}("));
        assert!(header.lines().any(declared), "{name}");
    }
    for compiler in COMPILERS {
        let warnings = programs::warnings(compiler, &file("tests/c/dropped.c"));
        assert!(warnings.iter().all(|warning| warning.contains("[-Wunused-result]")), "{compiler:?}: {warnings:?}");
        assert_eq!(warnings.len(), FUNCTIONS, "{compiler:?}: {warnings:?}");
    }
}

/// "No call uses more than 1024 bytes of stack", says the header, but for the dynamic linker's.
#[test]
fn stack() {
    let program = programs::compile(&["gcc", "-std=c11", "-Wl,-z,now"], &file("tests/c/stack.c"));
    let said = programs::output(&mut tools::program(program));
    let used: Vec<(&str, usize)> = said
        .lines()
        .map(|line| line.split_once(' ').expect("a name and a number"))
        .map(|(name, bytes)| (name, bytes.parse().expect("a number")))
        .collect();
    assert_eq!(used.len(), FUNCTIONS);
    assert!(used.iter().all(|&(_, bytes)| bytes > 0 && bytes <= 1024), "{used:?}");
}

/// One version for header, pkg-config and crate, and the changes begin with it.
#[test]
fn one_version() {
    let header = read_to_string(file("include/floelinnet.h")).unwrap();
    let package = read_to_string(file("floelinnet.pc")).unwrap();
    let changes = read_to_string(file("CHANGELOG.md")).unwrap();
    let version = floelinnet::VERSION;
    assert!(header.contains(&format!("\n#define FLOE_VERSION \"{version}\"\n")));
    assert!(package.contains(&format!("\nVersion: {version}\n")));
    let newest = changes.lines().find(|line| line.starts_with("## ")).expect("the changes have a newest");
    assert!(newest.starts_with(&format!("## {version}: ")), "{newest}");
}
