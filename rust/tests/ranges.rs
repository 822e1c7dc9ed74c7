//! Range checks, in tables that are written here from document 01, and which rows are none: document 02, M-108.
use uisnabar::{judge, ranges, Find};

const CELLS: usize = 256;
const ROWS: usize = 256;
const P: u64 = 2_130_706_433;
/// Frames of one run; from the last every offset wraps.
const FRAMES: [u32; 3] = [0, 40, (P - 2) as u32];
// Offsets of cells that hold 3, 6 and 200; all others hold 0.
const THREE: u32 = 10;
const SIX: u32 = 11;
const MANY: u32 = 12;
const NONE: u32 = 13;

type Instruction = [u32; 12];

/// A DEREF of a cell: the words lead to cells that hold 0, which C is as an immediate.
fn deref(cell: u32, beta: u32) -> Instruction {
    [cell, beta, 0, 0, 1, 1, 0, 0, 0, 0, 2, 0]
}

/// An ADD of two cells to an immediate.
fn add(a: u32, sum: u32, c: u32) -> Instruction {
    [a, sum, c, 0, 1, 0, 0, 0, 0, 0, 1, 0]
}

fn sum(a: u32, b: u32) -> u32 {
    ((u64::from(a) + u64::from(b)) % P) as u32
}

struct Tables {
    program: Vec<Instruction>,
    memory: Vec<u32>,
    exec: Vec<[u32; 8]>,
    fp: u32,
}

/// The run of some instructions that do not jump, and of a jump to itself that is put behind them, in one frame.
fn run(instructions: &[Instruction], fp: u32) -> Tables {
    let (mut program, mut memory) = (instructions.to_vec(), vec![0; CELLS]);
    let halt = program.len() as u32;
    program.push([1, halt, 0, 1, 1, 0, 1, 0, 0, 1, 0, 0]);
    for (offset, word) in [(THREE, 3), (SIX, 6), (MANY, 200)] {
        memory[sum(fp, offset) as usize] = word;
    }
    let row = |at: usize| {
        let pc = at.min(program.len() - 1);
        let [a, b, c, fa, fb, fc, fpc, .., aux, _] = program[pc];
        // an operand that is no cell looks up cell 0
        let read = |offset, flag| if flag == 1 { 0 } else { sum(fp, offset) };
        let of = |cell: u32| memory[cell as usize];
        let (at_a, at_c) = (read(a, fa), read(c, fc + fpc));
        let at_b = if aux == 2 { sum(of(at_a), b) } else { read(b, fb) };
        [pc as u32, fp, at_a, at_b, at_c, of(at_a), of(at_b), of(at_c)]
    };
    let exec = (0..ROWS).map(row).collect();
    Tables { program, memory, exec, fp }
}

fn bytes<'a>(words: impl IntoIterator<Item = &'a u32>) -> Vec<u8> {
    words.into_iter().flat_map(|word| word.to_le_bytes()).collect()
}

/// Rows and bounds of the finds, or the judge's refusal.
fn found(tables: &Tables) -> Result<Vec<(u32, u32)>, String> {
    let mut padding = [0; 30]; // of cells 0 to 4, which hold 0
    (padding[0], padding[4]) = (1, 1); // start, len
    let (program, memory) = (bytes(tables.program.iter().flatten()), bytes(&tables.memory));
    let (exec, ext) = (bytes(tables.exec.iter().flatten()), bytes([padding; ROWS].iter().flatten()));
    let told = ranges(&program, &memory, 0, tables.fp.into(), &exec, &ext);
    assert_eq!(told.as_ref().err(), judge(&program, &memory, 0, tables.fp.into(), &exec, &ext).as_ref().err());
    told.map(|finds| finds.iter().map(|Find { row, bound }| (*row, *bound)).collect()).map_err(|why| why.to_string())
}

fn finds(instructions: &[Instruction], wanted: &[(u32, u32)]) {
    for fp in FRAMES {
        assert_eq!(found(&run(instructions, fp)).as_deref(), Ok(wanted), "{instructions:?}, {fp}");
    }
}

#[test]
fn the_row_is_the_first_and_the_bound_one_more_than_the_sum() {
    let check = [deref(THREE, 0), add(THREE, 9, SIX), deref(SIX, 0)];
    finds(&check, &[(0, 10)]);
    finds(&[[add(THREE, 3, NONE); 7].as_slice(), &check].concat(), &[(7, 10)]);
    finds(&[check, check].concat(), &[(0, 10), (3, 10)]);
    finds(&[deref(NONE, 0), add(NONE, 0, NONE), deref(NONE, 0)], &[(0, 1)]);
    finds(&[deref(MANY, 0), add(MANY, 400, MANY), deref(MANY, 0)], &[(0, 401)]);
}

#[test]
fn checks_may_overlap() {
    let chain = [deref(THREE, 0), add(THREE, 9, SIX), deref(SIX, 0), add(SIX, 206, MANY), deref(MANY, 0)];
    finds(&chain, &[(0, 10), (2, 207)]);
    // as many as a table may have
    let mut most = [deref(THREE, 0), add(THREE, 6, THREE)].repeat(127);
    most.push(deref(THREE, 0));
    let wanted: Vec<(u32, u32)> = (0..127).map(|i| (2 * i, 7)).collect();
    finds(&most, &wanted);
}

#[test]
fn c_of_a_deref_may_be_anything() {
    let cell = [THREE, 0, NONE, 0, 1, 0, 0, 0, 0, 0, 2, 0];
    finds(&[cell, add(THREE, 9, SIX), deref(SIX, 0)], &[(0, 10)]);
    for fp in FRAMES {
        let zero = (P - u64::from(fp)) % P;
        let relative = [SIX, 0, zero as u32, 0, 1, 0, 1, 0, 0, 0, 2, 0];
        let tables = run(&[deref(THREE, 0), add(THREE, 9, SIX), relative], fp);
        assert_eq!(found(&tables).as_deref(), Ok([(0, 10)].as_slice()));
    }
}

#[test]
fn nothing_else_is_a_check() {
    let (first, second, last) = (deref(THREE, 0), add(THREE, 9, SIX), deref(SIX, 0));
    finds(&[], &[]);
    finds(&[first, second], &[]);
    finds(&[second, last], &[]);
    finds(&[deref(THREE, 1), second, last], &[]);
    finds(&[first, second, deref(SIX, (P - 1) as u32)], &[]);
    finds(&[deref(NONE, 0), second, last], &[]);
    finds(&[first, second, first], &[]);
    finds(&[last, second, first], &[]);
    // the cells exchanged; B a cell; A, then C an immediate that is the cell's offset; a MUL
    finds(&[first, add(SIX, 9, THREE), last], &[]);
    finds(&[first, add(SIX, 9, THREE), first], &[]);
    finds(&[first, [THREE, THREE, NONE, 0, 0, 0, 0, 0, 0, 0, 1, 0], deref(NONE, 0)], &[]);
    finds(&[first, [THREE, THREE + 6, SIX, 1, 1, 0, 0, 0, 0, 0, 1, 0], last], &[]);
    finds(&[first, [THREE, 3 + SIX, SIX, 0, 1, 1, 0, 0, 0, 0, 1, 0], last], &[]);
    finds(&[first, [THREE, 18, SIX, 0, 1, 0, 0, 0, 1, 0, 0, 0], last], &[]);
    // one more row between them
    finds(&[first, first, second, second, last], &[]);
    finds(&[first, second, add(THREE, 3, NONE), last], &[]);
}

#[test]
fn the_judge_refuses_first() {
    let mut tables = run(&[deref(THREE, 0), add(THREE, 9, SIX), deref(SIX, 0)], 0);
    tables.exec[2][5] = 7;
    assert_eq!(found(&tables), Err("EXEC part 3 place 2 rule 2 expected 6 found 7".to_owned()));
    tables.memory.pop();
    assert_eq!(found(&tables), Err("SIZE part 2 place 0 rule 0 expected 0 found 0".to_owned()));
    // what the check says is false of a cell that holds 200: no table of it is accepted
    let tables = run(&[deref(MANY, 0), add(MANY, 100, NONE), deref(NONE, 0)], 0);
    assert_eq!(found(&tables), Err("EXEC part 3 place 1 rule 8 expected 0 found 0".to_owned()));
}
