//! Judges what `./bench table` wrote, as examples/driver.c does; and reads a label given as the one argument.
//! Exit status: 0 accepted, 1 refused, 2 could not. The crate in rust/ has the same two calls without `unsafe`.
//!
//!     ./bench lib
//!     rustc -O -L target/staticlib -l static=uisnabar -o driver examples/driver.rs
//!     ./bench table shelf/seed-0.label | ./driver
//!     ./driver shelf/seed-0.label
use std::io::{Error, ErrorKind, Read, Result, Write};

// Declared as include/uisnabar.h has them. The lengths are those of the slices, so each call is sound for any contents.
extern "C" {
    fn uisnabar_judge(
        program: *const u8, program_len: usize, memory: *const u8, memory_len: usize, pc: u64, fp: u64,
        exec: *const u8, exec_len: usize, ext: *const u8, ext_len: usize, answer: *mut u8, answer_len: usize,
    ) -> u32;
    fn uisnabar_label(text: *const u8, text_len: usize, answer: *mut u8, answer_len: usize, recipe: *mut u8, recipe_len: usize) -> u32;
}

// UISNABAR_ANSWER_BYTES and UISNABAR_RECIPE_BYTES of the header
const ANSWER_BYTES: usize = 24;
const RECIPE_BYTES: usize = 20;
const NAMES: [&str; 9] = ["ACCEPTED", "SIZE", "WORD", "INSTRUCTION", "START", "EXEC", "EXTENSION", "BUS", "LABEL"];
const ACCEPTED: u32 = 0;
const ANSWER: u32 = 13;
const MEMORY: usize = 4096;
const EXEC: usize = 32 * 256;
const EXT: usize = 120 * 256;

/// What a call returned, and what it wrote.
struct Answer {
    verdict: u32,
    bytes: [u8; ANSWER_BYTES],
}

fn judge(program: &[u8], memory: &[u8], pc: u64, fp: u64, exec: &[u8], ext: &[u8]) -> Answer {
    let mut bytes = [0; ANSWER_BYTES];
    let verdict = unsafe {
        uisnabar_judge(
            program.as_ptr(), program.len(), memory.as_ptr(), memory.len(), pc, fp,
            exec.as_ptr(), exec.len(), ext.as_ptr(), ext.len(), bytes.as_mut_ptr(), bytes.len(),
        )
    };
    Answer { verdict, bytes }
}

fn read_label(text: &[u8]) -> (Answer, [u8; RECIPE_BYTES]) {
    let (mut bytes, mut recipe) = ([0; ANSWER_BYTES], [0; RECIPE_BYTES]);
    let verdict = unsafe {
        uisnabar_label(text.as_ptr(), text.len(), bytes.as_mut_ptr(), bytes.len(), recipe.as_mut_ptr(), recipe.len())
    };
    (Answer { verdict, bytes }, recipe)
}

fn number(bytes: &[u8]) -> u64 {
    bytes.iter().rev().fold(0, |n, byte| n << 8 | u64::from(*byte))
}

/// The returned verdict decides: on ANSWER nothing was written, and a buffer of zeros would read as ACCEPTED.
fn shown(answer: &Answer) -> String {
    if answer.verdict == ANSWER {
        return "ANSWER\n".to_owned();
    }
    let n: Vec<u64> = answer.bytes.chunks(4).map(number).collect();
    let name = NAMES.get(answer.verdict as usize).copied().unwrap_or("unknown");
    format!("{name} part {} place {} rule {} expected {} found {}\n", n[1], n[2], n[3], n[4], n[5])
}

fn label(path: &str) -> Result<(Answer, String)> {
    let (answer, recipe) = read_label(&std::fs::read(path)?);
    let mut text = shown(&answer);
    if answer.verdict == ACCEPTED {
        let (seed, m, n, version) = (number(&recipe[..8]), number(&recipe[8..12]), number(&recipe[12..16]), number(&recipe[16..]));
        text += &format!("version {version} seed {seed:016x} m {m} n {n}\n");
    }
    Ok((answer, text))
}

fn tables() -> Result<(Answer, String)> {
    let mut parts = Vec::new();
    std::io::stdin().read_to_end(&mut parts)?;
    let fault = || Error::new(ErrorKind::InvalidData, format!("not what the table program writes: {} bytes", parts.len()));
    let (program, rest) = parts.split_at(parts.len().checked_sub(MEMORY + EXEC + EXT).ok_or_else(fault)?);
    let (memory, rest) = rest.split_at(MEMORY);
    let (exec, ext) = rest.split_at(EXEC);
    let answer = judge(program, memory, 0, 0, exec, ext);
    let text = shown(&answer);
    Ok((answer, text))
}

fn main() {
    let told = match std::env::args().nth(1) {
        Some(path) => label(&path),
        None => tables(),
    };
    let written = told.and_then(|(answer, text)| std::io::stdout().write_all(text.as_bytes()).map(|()| answer.verdict));
    std::process::exit(match written {
        Ok(ACCEPTED) => 0,
        Ok(_) => 1,
        Err(fault) => {
            eprintln!("{fault}");
            2
        }
    });
}
