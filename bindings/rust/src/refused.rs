use core::error::Error;
use core::fmt;

use crate::{old_record_size, record_size, WORK_ENTRIES};

/// Why a call was refused. The tests are made in the order of the numbers, but for 21, which comes straight after 1 to 7,
/// and unless a function's page says otherwise; the first that applies is given.
#[derive(Clone, Copy, PartialEq, Eq, Hash, Debug)]
pub enum Refused {
    /// 1: the set has fewer than 6 bytes, or its length field isn't the count of bytes after it.
    SetLength,
    /// 2: the set's version isn't 1.
    SetVersion,
    /// 3: the set's count of limits is 0 or above 8.
    LimitCount,
    /// 4: the set's length field isn't 2 + 3 times its count of limits.
    LimitsLength,
    /// 5: the kind of this limit, counted from 0, is above 3.
    LimitKind {
        /// The number of the limit.
        limit: usize,
    },
    /// 6: the k of this limit, counted from 0, isn't 1 to 16, or for RowMiss isn't 0.
    LimitK {
        /// The number of the limit.
        limit: usize,
    },
    /// 7: the x of this limit, counted from 0, isn't 0 to k, or for RowMiss isn't 1 to 16.
    LimitX {
        /// The number of the limit.
        limit: usize,
    },
    /// 8: the work area has fewer than [`WORK_ENTRIES`](crate::WORK_ENTRIES) entries.
    WorkLength,
    /// 9: the buffer is shorter than what must be written, a table, a set, a log or a record.
    Room {
        /// The length in bytes that is needed.
        needed: usize,
    },
    /// 10: the table has fewer than 7 bytes, or its length field isn't the count of bytes after it. A buffer that is
    /// longer than the table in it is refused so: pass `&table[..length]`.
    TableLength,
    /// 11: the table's version isn't 1.
    TableVersion,
    /// 12: the table's count of states n is 0 or above 32768, its length field isn't 3 + 4n, a next state is n or more
    /// (FF FF on a miss excepted), or the guard's state is n or more.
    States,
    /// 13: an outcome byte is neither 0 nor 1.
    Outcome {
        /// Its place in the pattern, or among the outcomes of the record, from 0; 0 in a tell.
        place: usize,
    },
    /// 14: the job's number, from 0, isn't below the row's count of guards, or the row has more than
    /// [`MOST_GUARDS`](crate::MOST_GUARDS).
    Job,
    /// 15: the log has fewer than 9 bytes, its length field isn't the count of bytes after it, its version isn't 1, or
    /// its length field isn't 5 and the bytes that its count of outcomes takes; or the pattern that a log is to be
    /// written of has more than 4,294,967,295 outcomes. A buffer that is longer than the log in it is refused so: pass
    /// `&log[..length]`.
    Log,
    /// 16: the low bits of the log's last byte that no outcome takes aren't all zero.
    UnusedBits,
    /// 17: the guard that is told was told [`u64::MAX`] outcomes already. It can be asked and stored, but only a new
    /// guard can be told more.
    Count,
    /// 18: the version of the record is neither 1 nor 2; it has fewer bytes than [`record_size(0)`](crate::record_size),
    /// with version 1 than [`old_record_size(0)`](crate::old_record_size); or its length field isn't the count of bytes
    /// after it. A record that was cut short is refused so: start a new guard. A buffer that is longer than the record
    /// in it is refused so too: pass `&record[..length]`.
    Record,
    /// 19: the lost byte of the record is neither 0 nor 1. Its bytes were changed since it was written.
    LostByte,
    /// 20: the record has version 1, and its set has a window of more than 12 jobs. Its 11 outcomes don't reach back so
    /// far, and no guard had such a set when version 1 was written: start a new guard.
    OldRecord,
    /// 21: the set keeps every pattern, so no guard would ever warn. Each of its limits is an AnyHit or RowHit with x 0 or
    /// an AnyMiss with x = k: give at least one of them an x that can be broken.
    LimitsNothing,
    /// 25: the outcomes of the record can't be walked on the table from state 0. The table wasn't built from the set
    /// that the record carries, or the record's bytes were changed since it was written.
    Walk,
    /// 26: the pattern that is to be judged has more than 9,223,372,036,854,775,807 outcomes. No slice is so long.
    PatternLength,
}

impl Refused {
    /// The number of the refusal, 1 to 21, 25 or 26.
    pub fn number(self) -> u8 {
        match self {
            Refused::SetLength => 1,
            Refused::SetVersion => 2,
            Refused::LimitCount => 3,
            Refused::LimitsLength => 4,
            Refused::LimitKind { .. } => 5,
            Refused::LimitK { .. } => 6,
            Refused::LimitX { .. } => 7,
            Refused::WorkLength => 8,
            Refused::Room { .. } => 9,
            Refused::TableLength => 10,
            Refused::TableVersion => 11,
            Refused::States => 12,
            Refused::Outcome { .. } => 13,
            Refused::Job => 14,
            Refused::Log => 15,
            Refused::UnusedBits => 16,
            Refused::Count => 17,
            Refused::Record => 18,
            Refused::LostByte => 19,
            Refused::OldRecord => 20,
            Refused::LimitsNothing => 21,
            Refused::Walk => 25,
            Refused::PatternLength => 26,
        }
    }

    /// What is returned beside the number: a limit's number, the length needed or an outcome's place, else 0.
    pub fn at(self) -> usize {
        match self {
            Refused::LimitKind { limit } | Refused::LimitK { limit } | Refused::LimitX { limit } => limit,
            Refused::Room { needed } => needed,
            Refused::Outcome { place } => place,
            _ => 0,
        }
    }
}

/// The number of the refusal, then what is wrong.
impl fmt::Display for Refused {
    fn fmt(&self, f: &mut fmt::Formatter<'_>) -> fmt::Result {
        write!(f, "refusal {}: ", self.number())?;
        match self {
            Refused::SetLength => {
                f.write_str("the set has fewer than 6 bytes, or its length field isn't the count of bytes after it")
            }
            Refused::SetVersion => f.write_str("the set's version isn't 1"),
            Refused::LimitCount => f.write_str("the set's count of limits is 0 or above 8"),
            Refused::LimitsLength => f.write_str("the set's length field isn't 2 + 3 times its count of limits"),
            Refused::LimitKind { limit } => write!(f, "the kind of limit {limit} is above 3"),
            Refused::LimitK { limit } => write!(f, "the k of limit {limit} isn't 1 to 16 (RowMiss: 0)"),
            Refused::LimitX { limit } => write!(f, "the x of limit {limit} isn't 0 to its k (RowMiss: 1 to 16)"),
            Refused::WorkLength => write!(f, "the work area has fewer than {WORK_ENTRIES} entries"),
            Refused::Room { needed } => write!(f, "the buffer is shorter than the {needed} bytes to be written"),
            Refused::TableLength => {
                f.write_str("the table has fewer than 7 bytes, or its length field isn't the count of bytes after it")
            }
            Refused::TableVersion => f.write_str("the table's version isn't 1"),
            Refused::States => f.write_str(
                "the table's count of states is 0 or above 32768, its length field isn't 3 + 4 times that count, \
                 or a next state or the guard's state isn't below it",
            ),
            Refused::Outcome { place } => write!(f, "the outcome at place {place} is neither 0 nor 1"),
            Refused::Job => {
                f.write_str("the job's number isn't below the row's count of guards, or the row has more than 16")
            }
            Refused::Log => f.write_str(
                "the log has fewer than 9 bytes, its length field isn't the count of bytes after it, its version \
                 isn't 1, or its length field isn't 5 and the bytes that its count of outcomes takes; \
                 or the pattern has more than 4294967295 outcomes",
            ),
            Refused::UnusedBits => f.write_str("the unused low bits of the log's last byte aren't all zero"),
            Refused::Count => f.write_str(
                "the guard was told 18446744073709551615 outcomes already and can count no further: start a new guard",
            ),
            Refused::Record => write!(
                f,
                "the version of the record is neither 1 nor 2, it has fewer than {} bytes (version 1: {}), or its length \
                 field isn't the count of bytes after it: it was cut short or is no record, so start a new guard",
                record_size(0),
                old_record_size(0)
            ),
            Refused::LostByte => f.write_str(
                "the lost byte of the record is neither 0 nor 1: its bytes were changed, so start a new guard",
            ),
            Refused::OldRecord => f.write_str(
                "the record has version 1, and its set has a window of more than 12 jobs: a record of version 1 can only \
                 be of shorter ones, so start a new guard",
            ),
            Refused::LimitsNothing => f.write_str(
                "the set keeps every pattern, so no warning would ever come: give at least one limit an x that can be \
                 broken (AnyHit and RowHit at least 1, AnyMiss below its k)",
            ),
            Refused::Walk => f.write_str(
                "the outcomes of the record can't be walked on the table: build the table from the set that the record \
                 carries, or, if it was, the record's bytes were changed, so start a new guard",
            ),
            Refused::PatternLength => f.write_str("the pattern has more than 9223372036854775807 outcomes"),
        }
    }
}

impl Error for Refused {}

/// The first two fields of an answer.
pub(crate) fn accepted(refused: u64, at: u64) -> Result<(), Refused> {
    let at = at as usize;
    Err(match refused {
        0 => return Ok(()),
        1 => Refused::SetLength,
        2 => Refused::SetVersion,
        3 => Refused::LimitCount,
        4 => Refused::LimitsLength,
        5 => Refused::LimitKind { limit: at },
        6 => Refused::LimitK { limit: at },
        7 => Refused::LimitX { limit: at },
        8 => Refused::WorkLength,
        9 => Refused::Room { needed: at },
        10 => Refused::TableLength,
        11 => Refused::TableVersion,
        12 => Refused::States,
        13 => Refused::Outcome { place: at },
        14 => Refused::Job,
        15 => Refused::Log,
        16 => Refused::UnusedBits,
        17 => Refused::Count,
        18 => Refused::Record,
        19 => Refused::LostByte,
        20 => Refused::OldRecord,
        21 => Refused::LimitsNothing,
        25 => Refused::Walk,
        26 => Refused::PatternLength,
        number => crate::no_such("refusal", number),
    })
}

#[cfg(test)]
mod tests {
    use super::*;

    /// 26 is among them, which no call through a slice can give.
    #[test]
    fn each_number_is_its_own() {
        for number in (1..=21).chain([25, 26]) {
            assert_eq!(accepted(number, 7).map_err(Refused::number), Err(number as u8));
        }
        assert_eq!(accepted(26, 0), Err(Refused::PatternLength));
    }
}
