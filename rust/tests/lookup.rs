//! What is said of a refused lookup, by tables written by hand from documents 01 and 02, in which a word or two are
//! changed.
use uisnabar::{count, judge, FRESH};

const CELLS: usize = 256;
const ROWS: usize = 256;
const TOP: u32 = 2_130_706_432;
/// A jump to itself, in its own frame: its operands are read from no cell, so that each row may look up any.
const HALT: [u32; 12] = [1, 0, 0, 1, 1, 0, 1, 0, 0, 1, 0, 0];
// Where a row has the number of the first cell, its first word, and how many there are, by rule.
const EXEC: [(u32, usize, usize, usize); 3] = [(2, 2, 5, 1), (3, 3, 6, 1), (4, 4, 7, 1)];
const EXT: [(u32, usize, usize, usize); 4] = [(18, 5, 9, 1), (19, 5, 10, 5), (20, 6, 15, 5), (21, 7, 25, 5)];

#[derive(Clone)]
struct Tables {
    memory: Vec<u32>,
    exec: Vec<[u32; 8]>,
    ext: Vec<[u32; 30]>,
}

/// What cell `number` holds: no two the same.
fn held(number: usize) -> u32 {
    1000 + number as u32
}

fn cells<const N: usize>(first: usize) -> [u32; N] {
    std::array::from_fn(|k| held(first + k))
}

/// Accepted tables. Each extension row is padding, of cells 20 on, 30 on and 40 on.
fn tables() -> Tables {
    let mut row = [0; 30];
    row[0] = 1; // start
    row[4] = 1; // len
    row[5..8].copy_from_slice(&[20, 30, 40]);
    row[9] = held(20);
    for (at, first) in [(10, 20), (15, 30), (20, 40), (25, 40)] {
        row[at..at + 5].copy_from_slice(&cells::<5>(first));
    }
    Tables {
        memory: (0..CELLS).map(held).collect(),
        exec: vec![[0, 0, 7, 8, 9, held(7), held(8), held(9)]; ROWS],
        ext: vec![row; ROWS],
    }
}

fn bytes<'a>(words: impl IntoIterator<Item = &'a u32>) -> Vec<u8> {
    words.into_iter().flat_map(|word| word.to_le_bytes()).collect()
}

/// The six numbers, all 0 where the tables are accepted. Counting gives the same.
fn told(tables: &Tables) -> [u32; 6] {
    let (program, memory) = (bytes(&HALT), bytes(&tables.memory));
    let (exec, ext) = (bytes(tables.exec.iter().flatten()), bytes(tables.ext.iter().flatten()));
    let (judged, mut grid) = (judge(&program, &memory, 0, 0, &exec, &ext), FRESH);
    assert_eq!(count(&program, &memory, 0, 0, &exec, &ext, &mut grid), judged);
    match judged {
        Ok(()) => [0; 6],
        Err(why) => [why.verdict, why.part, why.place, why.rule, why.expected, why.found],
    }
}

#[test]
fn nothing_is_said_of_other_answers() {
    let mut tables = tables();
    assert_eq!(told(&tables), [0; 6]);
    tables.ext[9][4] = 2;
    assert_eq!(told(&tables), [6, 4, 9, 17, 0, 0]);
    tables.exec[9][1] = 1;
    assert_eq!(told(&tables), [5, 3, 8, 14, 0, 0]);
    tables.memory.pop();
    assert_eq!(told(&tables), [1, 2, 0, 0, 0, 0]);
}

#[test]
fn the_cell_is_expected_and_the_column_found() {
    for row in [0, 5, 255] {
        for other in [0, 1, 3000, TOP] {
            for (rule, cell, word, _) in EXEC {
                let mut tables = tables();
                tables.exec[row][word] = other;
                let holds = held(tables.exec[row][cell] as usize);
                assert_eq!(told(&tables), [5, 3, row as u32, rule, holds, other]);
            }
            let mut tables = tables();
            tables.ext[row][9] = other;
            assert_eq!(told(&tables), [6, 4, row as u32, 18, held(20), other]);
        }
    }
}

#[test]
fn the_cell_may_hold_0() {
    for (number, verdict, part, rule) in [(7, 5, 3, 2), (8, 5, 3, 3), (9, 5, 3, 4), (20, 6, 4, 18), (24, 6, 4, 19)] {
        let mut tables = tables();
        tables.memory[number] = 0;
        assert_eq!(told(&tables), [verdict, part, 0, rule, 0, held(number)]);
    }
}

#[test]
fn of_five_cells_the_first_that_differs_is_told() {
    for (rule, cell, word, count) in EXT.into_iter().filter(|lookup| lookup.3 == 5) {
        for first in 0..count {
            for last in first..count {
                let mut tables = tables();
                let holds = held(tables.ext[200][cell] as usize + first);
                tables.ext[200][word + first] = 77;
                tables.ext[200][word + last] = 77;
                assert_eq!(told(&tables), [6, 4, 200, rule, holds, 77]);
            }
        }
    }
}

#[test]
fn a_cell_out_of_range_says_nothing() {
    for far in [256, 257, 1 << 30, TOP] {
        for (rule, cell, _, _) in EXEC {
            let mut tables = tables();
            tables.exec[3][cell] = far;
            assert_eq!(told(&tables), [5, 3, 3, rule, 0, 0]);
        }
        for (rule, cell, _, _) in [EXT[0], EXT[2], EXT[3]] {
            let mut tables = tables();
            tables.ext[3][cell] = far;
            assert_eq!(told(&tables), [6, 4, 3, rule, 0, 0]);
        }
    }
}

#[test]
fn five_cells_are_told_where_all_are_in_range() {
    for (rule, cell, word, _) in EXT.into_iter().filter(|lookup| lookup.3 == 5) {
        for first in [251, 252, 255] {
            let mut tables = tables();
            tables.ext[3][cell] = first;
            if rule == 19 {
                tables.ext[3][9] = held(first as usize); // rule 18 is of the same cell
            }
            // the first of them differs, in range or not
            tables.ext[3][word] = 5;
            let said = if first == 251 { [held(251), 5] } else { [0, 0] };
            assert_eq!(told(&tables), [6, 4, 3, rule, said[0], said[1]]);
        }
    }
}
