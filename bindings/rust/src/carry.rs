use crate::raw::{self, Guard};
use crate::refused::accepted;
use crate::{Refused, HELD};

/// The length in bytes of the carry-over record of a guard and a set of so many bytes: a head of 5, the set, [`HELD`]
/// outcomes, and 9 for the count and the lost byte. No record is shorter than `record_size(0)`.
///
/// ```
/// use floelinnet::{record_size, LONGEST_RECORD, LONGEST_SET};
///
/// let any_hit_1_of_2 = [0, 0, 0, 5, 1, 1, 0, 1, 2];
/// assert_eq!(record_size(any_hit_1_of_2.len()), 38);
/// assert_eq!(record_size(LONGEST_SET), LONGEST_RECORD);
/// ```
pub const fn record_size(set: usize) -> usize {
    5 + set + HELD + 9
}

/// The length in bytes of a carry-over record of version 1, which has 11 outcomes. Such records are still read, but no
/// longer written.
///
/// ```
/// use floelinnet::{old_record_size, record_size, HELD};
///
/// assert_eq!(old_record_size(9), 34);
/// assert_eq!(record_size(9) - old_record_size(9), HELD - 11);
/// ```
pub const fn old_record_size(set: usize) -> usize {
    5 + set + 11 + 9
}

/// Through a change of the battery.
impl Guard {
    /// Writes the carry-over record of the guard and of the set whose table it walks to the beginning of `record`, and
    /// gives its length in bytes, which is that of [`record_size`]. [`LONGEST_RECORD`](crate::LONGEST_RECORD) bytes are
    /// room for every set; bytes of `record` past those that are written are left alone.
    ///
    /// The bytes of a record: four, big-endian, that count the bytes after them; the version, 2; the bytes of the set,
    /// with their own head; the [`HELD`] outcomes that the guard holds, one a byte, oldest first; eight for the count;
    /// and one that is 1 if the guard is lost, else 0. The state isn't in it: [`read_record`](Guard::read_record) walks
    /// the outcomes on a table from state 0.
    ///
    /// Refuses by 1 to 7 and 21 for the set, then by 9 with the length that is needed, and then writes nothing.
    ///
    /// ```
    /// use floelinnet::{record_size, Guard, Refused, LONGEST_RECORD, MISS};
    ///
    /// let any_hit_1_of_2 = [0, 0, 0, 5, 1, 1, 0, 1, 2];
    /// let table = [0, 0, 0, 11, 1, 0, 2, 0, 1, 0, 0, 0xFF, 0xFF, 0, 0];
    /// let guard = Guard::start(&table)?.tell(&table, MISS)?;
    ///
    /// let mut record = [0; LONGEST_RECORD];
    /// let length = guard.write_record(&any_hit_1_of_2, &mut record)?;
    /// assert_eq!(length, record_size(any_hit_1_of_2.len()));
    /// assert_eq!(record[..5], [0, 0, 0, 34, 2]);
    /// assert_eq!(record[5..14], any_hit_1_of_2);
    /// assert_eq!(record[14..29], [1, 1, 1, 1, 1, 1, 1, 1, 1, 1, 1, 1, 1, 1, MISS]);
    /// assert_eq!(record[29..37], 1_u64.to_be_bytes());
    /// assert_eq!(record[37], 0);
    ///
    /// assert_eq!(guard.write_record(&any_hit_1_of_2, &mut []), Err(Refused::Room { needed: 38 }));
    /// # Ok::<(), Refused>(())
    /// ```
    ///
    /// A record that was cut short is refused where it is read. But it has no check sum, and one that is written over
    /// the old one and torn in the middle has bytes of both, which may pass every test and be the guard of nobody. So
    /// write it to a file beside the old one, sync that file, rename it over the old one and sync the folder: after a
    /// cut of the power the old record is there, or the new one, and nothing between.
    pub fn write_record(self, set: &[u8], record: &mut [u8]) -> Result<usize, Refused> {
        let written = raw::carry_write(self, set, record);
        accepted(written.refused, written.at)?;
        Ok(written.length as usize)
    }

    /// Reads a record back on a table, all of which is checked, and gives the guard: with the record's outcomes and
    /// count, lost as it says, in the state where the walk of the outcomes from state 0 ends. Both are their own bytes,
    /// not longer buffers that hold them.
    ///
    /// On the table that [`build`](crate::build) makes of the record's set it is the guard that was written, field for
    /// field, if that was started there: it answers as one that was never switched off, through any number of changes.
    ///
    /// ```
    /// use floelinnet::{Answer, Guard, Refused, LONGEST_RECORD, MISS};
    ///
    /// let any_hit_1_of_2 = [0, 0, 0, 5, 1, 1, 0, 1, 2];
    /// let table = [0, 0, 0, 11, 1, 0, 2, 0, 1, 0, 0, 0xFF, 0xFF, 0, 0];
    /// let guard = Guard::start(&table)?.tell(&table, MISS)?;
    /// let mut record = [0; LONGEST_RECORD];
    /// let length = guard.write_record(&any_hit_1_of_2, &mut record)?;
    ///
    /// let again = Guard::read_record(&record[..length], &table)?;
    /// assert_eq!(again, guard);
    /// assert_eq!(again.ask(&table)?, Answer::Panic);
    ///
    /// // Cut short.
    /// assert_eq!(Guard::read_record(&record[..length - 1], &table), Err(Refused::Record));
    /// # Ok::<(), Refused>(())
    /// ```
    ///
    /// A record doesn't say of which table it is, and whether the table was made of the record's set isn't asked: on
    /// another table the guard is in the state where the walk ends there, or 25 refuses it. So build the table from the
    /// set that the record carries, which begins at byte 5 and has [`record_size(0)`](record_size) bytes fewer than the
    /// record, with version 1 [`old_record_size(0)`](old_record_size), where there are so many; or keep a set and its
    /// table together and read only records that carry this set. The version is byte 4:
    ///
    /// ```
    /// use floelinnet::{old_record_size, record_size};
    ///
    /// fn carries(record: &[u8], set: &[u8]) -> bool {
    ///     let size = if record.get(4) == Some(&1) { old_record_size(set.len()) } else { record_size(set.len()) };
    ///     record.len() == size && record[5..].starts_with(set)
    /// }
    /// # let any_hit_1_of_2 = [0, 0, 0, 5, 1, 1, 0, 1, 2];
    /// # let mut record = [0; 38];
    /// # floelinnet::Guard::default().write_record(&any_hit_1_of_2, &mut record)?;
    /// # assert!(carries(&record, &any_hit_1_of_2));
    /// # assert!(!carries(&record, &[0, 0, 0, 5, 1, 1, 0, 1, 3]));
    /// # assert!(!carries(&record[..37], &any_hit_1_of_2));
    /// # assert!(!carries(&record[..4], &any_hit_1_of_2));
    /// # let old = [&[0, 0, 0, 30, 1][..], &any_hit_1_of_2, &[1; 11], &[0; 9]].concat();
    /// # assert!(carries(&old, &any_hit_1_of_2));
    /// # assert!(!carries(&old[..33], &any_hit_1_of_2));
    /// # Ok::<(), floelinnet::Refused>(())
    /// ```
    ///
    /// A record of version 1, which was written before 0.7.0, has the last 11 outcomes, as many as matter while no window
    /// has more than 12 jobs. It is read as one that has hits in the places of the four older outcomes, and on the table
    /// of its set the guard goes on as one that was never switched off. Where its set has a longer window, 20 refuses it.
    ///
    /// ```
    /// use floelinnet::{Answer, Guard, Refused};
    ///
    /// let any_hit_1_of_2 = [0, 0, 0, 5, 1, 1, 0, 1, 2];
    /// let table = [0, 0, 0, 11, 1, 0, 2, 0, 1, 0, 0, 0xFF, 0xFF, 0, 0];
    /// // A guard that was told one miss.
    /// let outcomes = [1, 1, 1, 1, 1, 1, 1, 1, 1, 1, 0];
    /// let old = [&[0, 0, 0, 30, 1][..], &any_hit_1_of_2, &outcomes, &1_u64.to_be_bytes(), &[0]].concat();
    /// assert_eq!(Guard::read_record(&old, &table)?.ask(&table)?, Answer::Panic);
    ///
    /// // AnyHit(1,13).
    /// let mut longer = old;
    /// longer[13] = 13;
    /// assert_eq!(Guard::read_record(&longer, &table), Err(Refused::OldRecord));
    /// # Ok::<(), Refused>(())
    /// ```
    ///
    /// Refuses by 18; then by 1 to 7 and 21 for the set's bytes in the record; then by 20; then by 13 with the place among
    /// its outcomes; then by 19; then by 10 to 12 for the table; then by 25, whether or not the record is of a lost guard.
    /// The guard that the library gives beside a refusal, one with nothing told, isn't handed on.
    #[must_use = "the guard is what comes back"]
    pub fn read_record(record: &[u8], table: &[u8]) -> Result<Guard, Refused> {
        let read = raw::carry_read(record, table);
        accepted(read.refused, read.at)?;
        Ok(read.guard)
    }
}
