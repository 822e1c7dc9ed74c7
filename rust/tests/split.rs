//! The memory in two buffers: tables written by hand from document 01, cut as document 02, M-109, has it, and otherwise.
use uisnabar::{judge, judge_split};

const CELLS: usize = 256;
const ROWS: usize = 256;
const P: u32 = 2_130_706_433;
/// What each bad pair of lengths gives.
const SIZE: &str = "SIZE part 2 place 0 rule 0 expected 0 found 0";
/// A jump to itself, in its own frame: its operands are read from no cell, so that each row may look up any.
const HALT: [u32; 12] = [1, 0, 0, 1, 1, 0, 1, 0, 0, 1, 0, 0];
/// The numbers of the cell that the last execution row looks up as A, and of the first of five, vB, of extension row 9.
const NEAR: [usize; 2] = [16, 14];

struct Tables {
    program: Vec<u8>,
    memory: Vec<u8>,
    exec: Vec<u8>,
    ext: Vec<u8>,
}

/// What cell `number` holds: no two the same.
fn held(number: usize) -> u32 {
    1000 + number as u32
}

fn bytes<'a>(words: impl IntoIterator<Item = &'a u32>) -> Vec<u8> {
    words.into_iter().flat_map(|word| word.to_le_bytes()).collect()
}

/// Accepted tables. Each extension row is padding, of cells 20 on and 40 on.
fn tables() -> Tables {
    let five = |first| std::array::from_fn::<u32, 5, _>(|k| held(first + k));
    let mut row = [0; 30];
    (row[0], row[4], row[9]) = (1, 1, held(20)); // start, len, vA base
    row[5..8].copy_from_slice(&[20, 40, 40]);
    for (at, first) in [(10, 20), (15, 40), (20, 40), (25, 40)] {
        row[at..at + 5].copy_from_slice(&five(first));
    }
    let (mut exec, mut ext) = ([[0, 0, 7, 8, 9, held(7), held(8), held(9)]; ROWS], [row; ROWS]);
    (exec[ROWS - 1][2], exec[ROWS - 1][5]) = (NEAR[0] as u32, held(NEAR[0]));
    ext[9][6] = NEAR[1] as u32;
    ext[9][15..20].copy_from_slice(&five(NEAR[1]));
    let memory: Vec<u32> = (0..CELLS).map(held).collect();
    Tables {
        program: bytes(&HALT),
        memory: bytes(&memory),
        exec: bytes(exec.iter().flatten()),
        ext: bytes(ext.iter().flatten()),
    }
}

/// Another word in a part.
fn put(part: &mut [u8], place: usize, word: u32) {
    part[4 * place..4 * place + 4].copy_from_slice(&word.to_le_bytes());
}

/// The answer, "" where the tables are accepted; the two buffers are apart, and the rest stands first.
fn told(tables: &Tables, public: usize) -> String {
    let (rest, public) = (tables.memory[public..].to_vec(), tables.memory[..public].to_vec());
    match judge_split(&tables.program, &public, &rest, 0, 0, &tables.exec, &tables.ext) {
        Ok(()) => String::new(),
        Err(why) => why.to_string(),
    }
}

/// The same at every m', which is that of the joined memory, and this one.
fn at_every_cut(tables: &Tables, wanted: &str) {
    let joined = judge(&tables.program, &tables.memory, 0, 0, &tables.exec, &tables.ext);
    assert_eq!(joined.err().map_or(String::new(), |why| why.to_string()), wanted);
    for log in 0..CELLS.ilog2() {
        assert_eq!(told(tables, 4 << log), wanted, "{log}");
    }
}

#[test]
fn every_cut_at_a_power_is_judged_as_the_whole() {
    let tables = tables();
    at_every_cut(&tables, "");
    for words in 0..CELLS {
        assert_eq!(told(&tables, 4 * words), if words.is_power_of_two() { "" } else { SIZE }, "{words}");
    }
    for public in [1, 2, 3, 5, 511, 513, 4 * CELLS - 1, 4 * CELLS] {
        assert_eq!(told(&tables, public), SIZE, "{public}");
    }
}

#[test]
fn the_two_must_join_to_a_memory() {
    let refused = |public: usize, rest: usize| {
        let Tables { program, exec, ext, .. } = tables();
        let (public, rest) = (vec![0; 4 * public], vec![0; 4 * rest]);
        let why = judge_split(&program, &public, &rest, 0, 0, &exec, &ext).unwrap_err();
        assert_eq!(why.to_string(), SIZE, "{} and {}", public.len(), rest.len());
    };
    for (public, rest) in [(0, 0), (1, 0), (1, 1), (64, 64), (64, 63), (128, 127), (128, 129), (256, 0), (16, 256)] {
        refused(public, rest);
    }
}

#[test]
fn lengths_are_tested_in_order() {
    let size = |part| format!("SIZE part {part} place 0 rule 0 expected 0 found 0");
    let mut tables = tables();
    tables.ext.pop();
    assert_eq!((told(&tables, 64), told(&tables, 12)), (size(4), size(2)));
    tables.exec.pop();
    assert_eq!((told(&tables, 64), told(&tables, 12)), (size(3), size(2)));
    tables.program.pop();
    assert_eq!((told(&tables, 64), told(&tables, 12)), (size(1), size(1)));
}

#[test]
fn words_are_counted_as_if_joined() {
    for cell in [0, 1, 15, 16, 17, 127, 128, 255] {
        let mut tables = tables();
        put(&mut tables.memory, cell, P);
        at_every_cut(&tables, &format!("WORD part 2 place {cell} rule 0 expected 0 found 0"));
    }
}

#[test]
fn cells_are_looked_up_on_both_sides_and_across() {
    let mut tables = tables();
    put(&mut tables.memory, NEAR[0], 5);
    at_every_cut(&tables, &format!("EXEC part 3 place 255 rule 2 expected 5 found {}", held(NEAR[0])));
    for k in 0..5 {
        let mut tables = self::tables();
        put(&mut tables.ext, 30 * 9 + 15 + k, 5);
        at_every_cut(&tables, &format!("EXTENSION part 4 place 9 rule 20 expected {} found 5", held(NEAR[1] + k)));
    }
    let mut tables = self::tables();
    put(&mut tables.exec, 8 * 255 + 2, CELLS as u32);
    at_every_cut(&tables, "EXEC part 3 place 255 rule 2 expected 0 found 0");
}

#[test]
fn a_start_is_compared_whole() {
    let Tables { program, memory, exec, ext } = tables();
    let (public, rest) = memory.split_at(64);
    assert_eq!(judge_split(&program, public, rest, 0, 0, &exec, &ext), Ok(()));
    for (pc, fp) in [(1 << 32, 0), (0, 1 << 32), (1, 0), (0, 1)] {
        assert_eq!(judge_split(&program, public, rest, pc, fp, &exec, &ext).unwrap_err().name(), "START");
    }
}
