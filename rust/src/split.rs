//! The judge of a memory in two buffers, as include/uisnabar.h has it.

use crate::calls::{on_tables, uisnabar_judge_split};
use crate::{outcome, Refusal, ANSWER_BYTES};

/// Judges as [`judge`](crate::judge) does, the memory's first 2^m' words apart from the rest, m' from 0 to m - 1: the
/// same answer as on the two joined, WORD counted so too. Every other pair of lengths is SIZE part 2, even where the
/// two join to a memory that `judge` takes.
pub fn judge_split(
    program: &[u8],
    public: &[u8],
    rest: &[u8],
    pc: u64,
    fp: u64,
    exec: &[u8],
    ext: &[u8],
) -> Result<(), Refusal> {
    let mut answer = [0; ANSWER_BYTES];
    // SAFETY: each pointer comes with its slice's length, and `answer`, which alone is written, is this call's own.
    let verdict = unsafe { on_tables!(uisnabar_judge_split(program, public, rest; pc, fp; exec, ext), answer) };
    outcome(verdict, &answer)
}
