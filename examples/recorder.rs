//! The exam recorder of a mobile vet: it reads breath and pulse four times a second, and one late reading is harmless,
//! a bunch of them isn't. A guard says before each reading whether it may still be late.
//!
//! A battery can run out in the middle of an operation, and nobody tells the recorder beforehand. So after each reading
//! it stores the guard's record, and when it is switched on again it goes on from there.
//!
//!     cargo run --example recorder

use std::error::Error;
use std::fs::{self, File};
use std::io::{self, ErrorKind, Write};
use std::path::PathBuf;
use std::process::ExitCode;
use std::{env, process};

use floelinnet::{
    build, old_record_size, record_size, Answer, Guard, Limit, LimitSet, Refused, LONGEST_RECORD, LONGEST_TABLE,
    WORK_ENTRIES,
};

/// At most 2 late readings in any 8, and never 2 in a row.
const LIMITS: [Limit; 2] = [Limit::AnyMiss { x: 2, k: 8 }, Limit::RowMiss { x: 2 }];

struct Recorder {
    set: LimitSet,
    table: Vec<u8>,
    /// Where the record is stored.
    folder: PathBuf,
}

impl Recorder {
    fn new(folder: PathBuf) -> Result<Recorder, Refused> {
        let set = LimitSet::new(&LIMITS)?;
        let mut table = vec![0; LONGEST_TABLE];
        let length = build(set.bytes(), &mut vec![0; WORK_ENTRIES], &mut table)?;
        table.truncate(length);
        Ok(Recorder { set, table, folder })
    }

    /// Writes a file of the folder and waits until the disk has it.
    fn write_file(&self, name: &str, bytes: &[u8]) -> io::Result<()> {
        let mut file = File::create(self.folder.join(name))?;
        file.write_all(bytes)?;
        file.sync_all()
    }

    /// The new record is written beside the old one and takes its place when it is whole. So whenever the power goes,
    /// the old one is there or the new one, and not a part of one or a mixture of both.
    fn store(&self, guard: Guard) -> Result<(), Box<dyn Error>> {
        let mut record = [0; LONGEST_RECORD];
        let length = guard.write_record(self.set.bytes(), &mut record)?;
        self.write_file("record.new", &record[..length])?;
        fs::rename(self.folder.join("record.new"), self.folder.join("record"))?;
        File::open(&self.folder)?.sync_all()?;
        Ok(())
    }

    fn start_anew(&self) -> Result<Guard, Refused> {
        println!("a new guard starts and knows of no late reading before now: watch the animal");
        Guard::start(&self.table)
    }

    /// The guard that was stored, or else a new one, and then the assistant has to hear of it.
    fn switch_on(&self) -> Result<Guard, Refused> {
        let record = match fs::read(self.folder.join("record")) {
            Err(error) if error.kind() == ErrorKind::NotFound => {
                println!("switched on: nothing was stored");
                return self.start_anew();
            }
            read => read.unwrap_or_default(), // one that can't be read has no bytes
        };
        let guard = match Guard::read_record(&record, &self.table) {
            Err(refused) => {
                println!("switched on: what was stored can't be read back (refusal {})", refused.number());
                return self.start_anew();
            }
            Ok(guard) => guard,
        };
        // A record carries its set. This table is of these limits, and an update may have changed them.
        if !self.carried_by(&record) {
            println!("switched on: what was stored is for other limits");
            return self.start_anew();
        }
        println!("switched on: the guard goes on after reading {}", guard.count);
        Ok(guard)
    }

    /// Whether a record that was read back carries this set, after the version. One that the software before the update
    /// wrote has version 1, and is shorter.
    fn carried_by(&self, record: &[u8]) -> bool {
        let set = self.set.bytes();
        let size = if record[4] == 1 { old_record_size(set.len()) } else { record_size(set.len()) };
        record.len() == size && record[5..].starts_with(set)
    }

    /// The readings that are taken on one battery.
    fn take_readings(&self, in_time: &[u8]) -> Result<(), Refused> {
        let mut guard = self.switch_on()?;
        for &outcome in in_time {
            // A real recorder waits here for its clock's tick, four a second.
            let reading = guard.count + 1;
            match guard.ask(&self.table)? {
                Answer::Normal => println!("reading {reading}: normal"),
                // Here the recorder raises the reading's priority and stops everything else until it is done.
                Answer::Panic => println!("reading {reading}: panic, this one must not be late"),
                // The apnoea warning can't be trusted. The alarm sounds until the assistant, who now watches the
                // animal, says to go on; only then is a new guard started.
                Answer::Lost => println!("reading {reading}: lost, alarm"),
            }
            // The reading is taken here, and the clock says whether it was in time.
            guard = guard.tell(&self.table, outcome)?;
            // The guard goes on all the same; but on another battery it would be an older one.
            if let Err(error) = self.store(guard) {
                eprintln!("alarm, the guard can't be stored, don't change the battery: {error}");
            }
        }
        Ok(())
    }

    /// Half a record, as a power cut in the middle of a write leaves it.
    fn write_half(&self, name: &str) -> Result<(), Box<dyn Error>> {
        let mut record = [0; LONGEST_RECORD];
        let length = Guard::default().write_record(self.set.bytes(), &mut record)?;
        Ok(self.write_file(name, &record[..length / 2])?)
    }
}

/// One operation, in place of a clock: whether each reading was in time (1) or late (0).
fn operate(recorder: &Recorder) -> Result<(), Box<dyn Error>> {
    recorder.take_readings(&[1, 1, 0, 1, 0, 1])?;

    println!("-- battery change; a new guard would say {} now", Guard::default().ask(&recorder.table)?);
    recorder.take_readings(&[1, 1])?;

    println!("-- power cut: half of the next record lies beside that of reading 8");
    recorder.write_half("record.new")?;
    recorder.take_readings(&[1, 1, 1, 0, 0])?;

    println!("-- battery change");
    recorder.take_readings(&[1])?;

    println!("-- power cut: of the record itself the disk has only half");
    recorder.write_half("record")?;
    recorder.take_readings(&[1, 1])?;
    Ok(())
}

fn main() -> ExitCode {
    match record() {
        Ok(()) => ExitCode::SUCCESS,
        // Before the first reading: the limits, the buffers or the disk are wrong, and the operation doesn't begin.
        // Later: the table's bytes have changed in memory. Nobody watches the readings then, so it is an alarm like
        // lost.
        Err(error) => {
            eprintln!("alarm, the readings aren't guarded: {error}");
            ExitCode::FAILURE
        }
    }
}

fn record() -> Result<(), Box<dyn Error>> {
    // A folder for this example alone. A real recorder has one that stays, and removes the record when the operation is
    // over: the next one begins with a new guard.
    let recorder = Recorder::new(env::temp_dir().join(format!("recorder-{}", process::id())))?;
    fs::create_dir(&recorder.folder)?;
    let ended = operate(&recorder);
    fs::remove_dir_all(&recorder.folder)?;
    ended
}
