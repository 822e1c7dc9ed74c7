//! Listings: a program as text that a person can read and type (docs/LISTING.md), and back.

use crate::calls::{uisnabar_list, uisnabar_read_listing};
use crate::{number, outcome, Refusal, ANSWER_BYTES, INSTRUCTION, LINE_BYTES, MOST_INSTRUCTIONS, WRITTEN_BYTES};

/// The shortest line, its LF too: `op=add a=imm:0 b=imm:0 c=fp:0`.
const LINE_LEAST: usize = 30;

/// A function of the library that reads one buffer and writes another, of so many bytes: what it wrote.
macro_rules! written {
    ($call:ident($from:ident), $room:expr) => {{
        let (mut answer, mut written, mut to) = ([0; ANSWER_BYTES], [0; WRITTEN_BYTES], vec![0; $room]);
        // SAFETY: each pointer comes with its slice's length, and the three buffers that are written are its own.
        let verdict = unsafe {
            $call(
                $from.as_ptr(),
                $from.len(),
                to.as_mut_ptr(),
                to.len(),
                written.as_mut_ptr(),
                written.len(),
                answer.as_mut_ptr(),
                answer.len(),
            )
        };
        outcome(verdict, &answer)?;
        to.truncate(number(&written[..4]) as usize);
        to
    }};
}

/// A program's listing, an instruction a line, as `op=add a=cell:1 b=imm:2 c=fp:3`; [`read_listing`] reads it back.
/// SIZE, WORD or INSTRUCTION, of part 1, as [`judge`](crate::judge) has them.
pub fn list(program: &[u8]) -> Result<String, Refusal> {
    // no length of `program` that is refused asks for more than the longest listing
    let instructions = (program.len() / INSTRUCTION).min(MOST_INSTRUCTIONS);
    let text = written!(uisnabar_list(program), instructions * LINE_BYTES);
    Ok(String::from_utf8_lossy(&text).into_owned())
}

/// The program that a listing stands for, which [`judge`](crate::judge) takes; or LISTING and how long a prefix the
/// text shares with a valid one.
pub fn read_listing(text: &[u8]) -> Result<Vec<u8>, Refusal> {
    // no listing has more lines, and no byte is read for it; what a program leaves of the room is never touched
    let lines = (text.len() / LINE_LEAST).min(MOST_INSTRUCTIONS);
    Ok(written!(uisnabar_read_listing(text), lines * INSTRUCTION))
}
