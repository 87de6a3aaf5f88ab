use crate::refused::accepted;
use crate::{raw, Refused};

/// Builds the table of a set into `table` and gives its length in bytes. The table is the smallest machine that walks
/// exactly the patterns that the set keeps; two sets that keep the same patterns give the same bytes.
///
/// The bytes of a table: four, big-endian, that count the bytes after them; the version, 1; two for the count of states
/// n; and for each state two for the next state after a miss (FF FF: a miss isn't allowed) and two for that after a hit.
///
/// `work` is lent for the call, whatever it holds. Buffers of [`WORK_ENTRIES`](crate::WORK_ENTRIES) and
/// [`LONGEST_TABLE`](crate::LONGEST_TABLE) serve every set. They are large for a stack, 262,144 and 131,079 bytes, so a
/// thread that hasn't much of it has them elsewhere.
///
/// Refuses by 1 to 7 and 21, then by 8, then by 9 with the length that is needed. Whether it builds or refuses by 9, it
/// leaves the first [`WORK_ENTRIES`](crate::WORK_ENTRIES) entries of `work` zero. Nothing else is written, but for the
/// table where it builds.
///
/// ```
/// use floelinnet::{build, Refused, LONGEST_TABLE, WORK_ENTRIES};
///
/// let any_hit_1_of_2 = [0, 0, 0, 5, 1, 1, 0, 1, 2];
/// let mut work = [0; WORK_ENTRIES];
/// let mut table = [0; LONGEST_TABLE];
/// let length = build(&any_hit_1_of_2, &mut work, &mut table)?;
/// assert_eq!(table[..length], [0, 0, 0, 11, 1, 0, 2, 0, 1, 0, 0, 0xFF, 0xFF, 0, 0]);
///
/// let too_short = build(&any_hit_1_of_2, &mut work, &mut table[..14]);
/// assert_eq!(too_short, Err(Refused::Room { needed: 15 }));
/// # Ok::<(), Refused>(())
/// ```
pub fn build(set: &[u8], work: &mut [u16], table: &mut [u8]) -> Result<usize, Refused> {
    let built = raw::build(set, work, table);
    accepted(built.refused, built.at)?;
    Ok(built.length as usize)
}

/// Checks the bytes of a whole table and gives its count of states. It takes the table's own bytes, not a longer
/// buffer that holds them. It doesn't say of which set the table is, nor that it is of one.
///
/// Refuses by 10 to 12.
///
/// ```
/// use floelinnet::{check_table, Refused};
///
/// let table = [0, 0, 0, 11, 1, 0, 2, 0, 1, 0, 0, 0xFF, 0xFF, 0, 0];
/// assert_eq!(check_table(&table), Ok(2));
/// assert_eq!(check_table(&table[..14]), Err(Refused::TableLength));
/// ```
pub fn check_table(table: &[u8]) -> Result<usize, Refused> {
    let checked = raw::check_table(table);
    accepted(checked.refused, checked.at)?;
    Ok(checked.states as usize)
}
