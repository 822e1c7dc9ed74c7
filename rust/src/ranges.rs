//! Range checks in a table: draft 0.6.0, 2.6.3, and what include/uisnabar.h says of them.

use crate::calls::{on_tables, uisnabar_ranges};
use crate::{number, outcome, Refusal, ANSWER_BYTES, FIND_BYTES, FOUND_BYTES};

// An execution row, and how many a table may have.
const ROW: usize = 32;
const MOST_ROWS: usize = 1 << 25;

/// Three consecutive rows that hold a cell below a bound.
#[derive(Clone, Copy, Debug, PartialEq, Eq, Hash)]
pub struct Find {
    /// The first of the three rows. Its addr A is the cell's number, and its value A the word that the cell holds.
    pub row: u32,
    /// The word is below this, which is 1 to p.
    pub bound: u32,
}

/// Judges as [`judge`](crate::judge) does, and where it accepts gives a find for each range check, in row order. No
/// other refusal is told: LIST is of a buffer that is too short, and there is room enough here.
pub fn ranges(program: &[u8], memory: &[u8], pc: u64, fp: u64, exec: &[u8], ext: &[u8]) -> Result<Vec<Find>, Refusal> {
    // no length of `exec` that is refused asks for more than the longest table; what is not written is never touched
    let rows = (exec.len() / ROW).min(MOST_ROWS);
    let (mut answer, mut found, mut finds) = ([0; ANSWER_BYTES], [0; FOUND_BYTES], vec![0; rows * FIND_BYTES]);
    // SAFETY: each pointer comes with its slice's length, and the three buffers that are written are this call's own.
    let verdict = unsafe { on_tables!(uisnabar_ranges(program, memory; pc, fp; exec, ext), finds, found, answer) };
    outcome(verdict, &answer)?;
    let of = |find: &[u8]| Find { row: number(&find[..4]), bound: number(&find[4..]) };
    Ok(finds.chunks_exact(FIND_BYTES).take(number(&found[..4]) as usize).map(of).collect())
}
