//! The proved judge of leanVM tables, counts of the instruction forms that they reach, range checks in them, programs
//! from draft 0.5.0, listings of programs, streams of many hosts from one seed, and the reader of labels, from
//! libuisnabar.a, without `unsafe` for the caller.
//!
//! include/uisnabar.h documents each function, docs/VERDICTS.md every answer. A call of the library keeps nothing, uses
//! no heap and at most [`STACK_BYTES`] of stack, [`count`] at most [`COUNT_STACK_BYTES`], and may be made from several
//! threads at once.
//!
//! ```
//! let mut grid = uisnabar::FRESH;
//! let refusal = uisnabar::judge(&[], &[], 0, 0, &[], &[]).unwrap_err();
//! assert_eq!(refusal.to_string(), "SIZE part 1 place 0 rule 0 expected 0 found 0");
//! assert_eq!(uisnabar::judge_split(&[], &[], &[], 0, 0, &[], &[]), Err(refusal));
//! assert_eq!(uisnabar::count(&[], &[], 0, 0, &[], &[], &mut grid), Err(refusal));
//! assert_eq!(uisnabar::report(&grid).unwrap(), "");
//! assert_eq!(uisnabar::ranges(&[], &[], 0, 0, &[], &[]), Err(refusal));
//! assert_eq!(uisnabar::translate(&[0; 56]).unwrap_err().name(), "EDITION");
//! let program = uisnabar::read_listing(b"op=jump a=imm:1 b=imm:0 c=fp:0\n").unwrap();
//! assert_eq!(uisnabar::list(&program).unwrap(), "op=jump a=imm:1 b=imm:0 c=fp:0\n");
//! let seed = uisnabar::host(0x1_2fff_ffff, 5).unwrap();
//! assert_eq!((seed, uisnabar::jump(0x1_2fff_ffff, 5 << 40)), (0x6026_2501_2fff_ffff, seed));
//! assert_eq!(uisnabar::host(0x1_2fff_ffff, uisnabar::HOSTS).unwrap_err().name(), "HOST");
//! let recipe = uisnabar::read_label(b"v=2\nseed=000000012fffffff\nm=10\nn=12\n").unwrap();
//! assert_eq!((recipe.version, recipe.seed, recipe.m, recipe.n), (2, 0x1_2fff_ffff, 10, 12));
//! ```

mod calls;
mod listings;
mod ranges;
mod split;
mod streams;

use std::error::Error;
use std::fmt;

use calls::{on_tables, uisnabar_count, uisnabar_judge, uisnabar_label, uisnabar_report, uisnabar_translate};
pub use listings::{list, read_listing};
pub use ranges::{ranges, Find};
pub use split::judge_split;
pub use streams::{host, jump};

/// The version of the library that this crate is written for, `UISNABAR_VERSION`.
pub const VERSION: &str = env!("CARGO_PKG_VERSION");
/// No call but [`count`] uses more stack than this.
pub const STACK_BYTES: usize = 24576;
/// [`count`] uses no more than this: it holds a grid beside the judge.
pub const COUNT_STACK_BYTES: usize = 25600;
/// The length of a grid.
pub const GRID_BYTES: usize = 1080;
/// No report is longer than this.
pub const REPORT_BYTES: usize = 5076;
/// No line of a listing is longer than this, its LF too.
pub const LINE_BYTES: usize = 77;
/// How many hosts there are: they are 0 to `HOSTS - 1`.
pub const HOSTS: u64 = 16777216;

const ANSWER_BYTES: usize = 24;
const RECIPE_BYTES: usize = 20;
const WRITTEN_BYTES: usize = 8;
const FOUND_BYTES: usize = 8;
const FIND_BYTES: usize = 8;
const NEXT_BYTES: usize = 8;
// An instruction of draft 0.5.0 and of draft 0.6.0, and how many a program may have.
const OLD_INSTRUCTION: usize = 56;
const INSTRUCTION: usize = 48;
const MOST_INSTRUCTIONS: usize = 1 << 20;

/// The verdicts by number; 12 is none, and is not used again.
pub const NAMES: [&str; 20] = [
    "ACCEPTED",
    "SIZE",
    "WORD",
    "INSTRUCTION",
    "START",
    "EXEC",
    "EXTENSION",
    "BUS",
    "LABEL",
    "STUCK",
    "ROOM",
    "OPEN",
    "unknown",
    "ANSWER",
    "GRID",
    "EDITION",
    "LISTING",
    "SHORT",
    "HOST",
    "LIST",
];
const ACCEPTED: u32 = 0;
const ANSWER: u32 = 13;

/// Why tables, a program, a listing, a host or a label were refused: the six numbers of docs/VERDICTS.md. The verdict
/// is never 0.
#[derive(Clone, Copy, Debug, PartialEq, Eq, Hash)]
pub struct Refusal {
    pub verdict: u32,
    pub part: u32,
    pub place: u32,
    pub rule: u32,
    /// Of a lookup, EXEC with rule 2, 3 or 4 or EXTENSION with rule 18, 19, 20 or 21: the word that the memory's cell
    /// holds; of five cells, of the first that differs. Where a cell that the rule looks up is out of range, and of any
    /// other rule or verdict, nothing is said, and this and `found` are both 0; else they differ.
    pub expected: u32,
    /// Of the same lookup, the word that the table's column has there.
    pub found: u32,
}

impl Refusal {
    /// The verdict's name, "unknown" for a number that this version does not know.
    pub fn name(&self) -> &'static str {
        NAMES.get(self.verdict as usize).copied().unwrap_or("unknown")
    }
}

impl fmt::Display for Refusal {
    fn fmt(&self, out: &mut fmt::Formatter<'_>) -> fmt::Result {
        let Refusal { part, place, rule, expected, found, .. } = self;
        write!(out, "{} part {part} place {place} rule {rule} expected {expected} found {found}", self.name())
    }
}

impl Error for Refusal {}

/// Form counts over a campaign: 135 counters of 8 bytes, little-endian, as include/uisnabar.h orders them. It may hold
/// anything.
pub type Grid = [u8; GRID_BYTES];
/// A grid into which nothing was counted yet.
pub const FRESH: Grid = [0; GRID_BYTES];

/// What a label stands for.
#[derive(Clone, Copy, Debug, PartialEq, Eq, Hash)]
pub struct Recipe {
    /// 1 or 2: how cells 0 to 31 are drawn (include/uisnabar.h). A program that draws them itself refuses any other.
    pub version: u32,
    pub seed: u64,
    pub m: u32,
    pub n: u32,
}

fn number(bytes: &[u8]) -> u32 {
    bytes.iter().rev().fold(0, |n, byte| n << 8 | u32::from(*byte))
}

/// The returned verdict decides. On ANSWER nothing was written, so the buffer says nothing.
fn outcome(verdict: u32, answer: &[u8; ANSWER_BYTES]) -> Result<(), Refusal> {
    match verdict {
        ACCEPTED => Ok(()),
        ANSWER => Err(Refusal { verdict, part: 0, place: 0, rule: 0, expected: 0, found: 0 }),
        _ => Err(Refusal {
            verdict,
            part: number(&answer[4..8]),
            place: number(&answer[8..12]),
            rule: number(&answer[12..16]),
            expected: number(&answer[16..20]),
            found: number(&answer[20..24]),
        }),
    }
}

/// Whether the tables satisfy the constraints of leanVM draft 0.6.0 from the start (pc, fp), or the first reason why
/// not.
pub fn judge(program: &[u8], memory: &[u8], pc: u64, fp: u64, exec: &[u8], ext: &[u8]) -> Result<(), Refusal> {
    let mut answer = [0; ANSWER_BYTES];
    // SAFETY: each pointer comes with its slice's length, and `answer`, which alone is written, is this call's own.
    let verdict = unsafe { on_tables!(uisnabar_judge(program, memory; pc, fp; exec, ext), answer) };
    outcome(verdict, &answer)
}

/// Judges as [`judge`] does, and where it accepts adds one to the grid for each execution row, to the counter of its
/// instruction's form. On a refusal the grid stays as it was; GRID, tested last, is that its total would pass 2^63 - 1.
pub fn count(
    program: &[u8],
    memory: &[u8],
    pc: u64,
    fp: u64,
    exec: &[u8],
    ext: &[u8],
    grid: &mut Grid,
) -> Result<(), Refusal> {
    let mut answer = [0; ANSWER_BYTES];
    // SAFETY: each pointer comes with its slice's length, `grid` is borrowed for this call alone and `answer` its own.
    let verdict = unsafe { on_tables!(uisnabar_count(program, memory; pc, fp; exec, ext), grid, answer) };
    outcome(verdict, &answer)
}

/// A grid's report: a line such as `add.cell.imm.fp=12` for each counter that is not zero, in the grid's order.
pub fn report(grid: &Grid) -> Result<String, Refusal> {
    let (mut answer, mut written, mut text) = ([0; ANSWER_BYTES], [0; WRITTEN_BYTES], vec![0; REPORT_BYTES]);
    // SAFETY: each pointer comes with its slice's length, and the three buffers that are written are this call's own.
    let verdict = unsafe {
        uisnabar_report(
            grid.as_ptr(),
            grid.len(),
            text.as_mut_ptr(),
            text.len(),
            written.as_mut_ptr(),
            written.len(),
            answer.as_mut_ptr(),
            answer.len(),
        )
    };
    outcome(verdict, &answer)?;
    text.truncate(number(&written[..4]) as usize);
    Ok(String::from_utf8_lossy(&text).into_owned())
}

/// A program of draft 0.5.0, 56 bytes an instruction, in the form of draft 0.6.0, which [`judge`] takes; how that draft
/// is read where it contradicts itself: include/uisnabar.h. SIZE or WORD of part 1, or EDITION and the first instruction
/// that is not translatable.
pub fn translate(old: &[u8]) -> Result<Vec<u8>, Refusal> {
    // no length of `old` that is refused asks for more than the longest program
    let instructions = (old.len() / OLD_INSTRUCTION).min(MOST_INSTRUCTIONS);
    let (mut answer, mut program) = ([0; ANSWER_BYTES], vec![0; instructions * INSTRUCTION]);
    // SAFETY: each pointer comes with its slice's length, and the two buffers that are written are this call's own.
    let verdict = unsafe {
        uisnabar_translate(
            old.as_ptr(),
            old.len(),
            program.as_mut_ptr(),
            program.len(),
            answer.as_mut_ptr(),
            answer.len(),
        )
    };
    outcome(verdict, &answer)?;
    Ok(program)
}

/// The recipe that a buffer holds: seed, m, n and, last, the version.
fn recipe_of(bytes: &[u8; RECIPE_BYTES]) -> Recipe {
    Recipe {
        version: number(&bytes[16..20]),
        seed: u64::from(number(&bytes[4..8])) << 32 | u64::from(number(&bytes[..4])),
        m: number(&bytes[8..12]),
        n: number(&bytes[12..16]),
    }
}

/// The recipe that a label of either version stands for, or LABEL and how long a prefix it shares with a valid one.
pub fn read_label(text: &[u8]) -> Result<Recipe, Refusal> {
    let (mut answer, mut recipe) = ([0; ANSWER_BYTES], [0; RECIPE_BYTES]);
    // SAFETY: each pointer comes with its slice's length, and the two buffers that are written are this call's own.
    let verdict = unsafe {
        uisnabar_label(text.as_ptr(), text.len(), answer.as_mut_ptr(), answer.len(), recipe.as_mut_ptr(), recipe.len())
    };
    outcome(verdict, &answer)?;
    Ok(recipe_of(&recipe))
}

#[cfg(test)]
mod tests {
    use super::*;

    #[test]
    fn a_buffer_that_was_not_written_accepts_nothing() {
        let refusal = outcome(ANSWER, &[0; ANSWER_BYTES]).unwrap_err();
        assert_eq!((refusal.name(), refusal.verdict), ("ANSWER", ANSWER));
    }

    #[test]
    fn the_numbers_are_little_endian() {
        let answer = [5, 0, 0, 0, 3, 0, 0, 0, 1, 2, 3, 4, 2, 0, 0, 0, 5, 6, 7, 8, 9, 10, 11, 12];
        let wanted =
            Refusal { verdict: 5, part: 3, place: 0x0403_0201, rule: 2, expected: 0x0807_0605, found: 0x0c0b_0a09 };
        assert_eq!(outcome(5, &answer), Err(wanted));
    }

    #[test]
    fn a_recipe_has_its_version_last() {
        let bytes = [1, 2, 3, 4, 5, 6, 7, 8, 29, 0, 0, 0, 124, 0, 0, 0, 9, 10, 11, 12];
        let wanted = Recipe { version: 0x0c0b_0a09, seed: 0x0807_0605_0403_0201, m: 29, n: 124 };
        assert_eq!(recipe_of(&bytes), wanted);
    }

    #[test]
    fn a_number_that_is_no_verdict_is_a_refusal() {
        // one that is not used, and one of a later library
        for number in [12, 99] {
            assert_eq!(outcome(number, &[0; ANSWER_BYTES]).unwrap_err().name(), "unknown");
        }
    }
}
