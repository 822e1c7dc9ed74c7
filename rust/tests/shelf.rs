//! The crate against the shelf: each label read, and the tables of each judged and counted, as they are and damaged.
//!
//! The tables come from the table program: the one that UISNABAR_TABLE names, or the one built or installed beside this
//! crate. A shelf stands beside it too.
use std::fs::{self, File};
use std::path::{Path, PathBuf};
use std::process::{Command, Stdio};

use uisnabar::{count, judge, read_label, report, Grid, Recipe, Refusal, FRESH, NAMES};

const MEMORY: usize = 4096;
const EXEC: usize = 32 * 256;
const EXT: usize = 120 * 256;
const P: u32 = 2_130_706_433;

fn here() -> &'static Path {
    Path::new(env!("CARGO_MANIFEST_DIR"))
}

fn labels() -> Vec<PathBuf> {
    let shelf = here().join("../shelf");
    let files = fs::read_dir(&shelf).unwrap_or_else(|fault| panic!("{}: {fault}", shelf.display()));
    let mut labels: Vec<PathBuf> =
        files.map(|file| file.unwrap().path()).filter(|path| path.extension() == Some("label".as_ref())).collect();
    labels.sort();
    assert!(labels.len() >= 31, "the shelf has {} labels", labels.len());
    labels
}

fn numbers_of(refusal: Refusal) -> [u32; 6] {
    [refusal.verdict, refusal.part, refusal.place, refusal.rule, refusal.expected, refusal.found]
}

/// The recorded lines that come after the label, as numbers.
fn recorded(label: &Path, text: &[u8]) -> (bool, Vec<u32>) {
    let record = fs::read(label.with_extension("answer")).unwrap();
    let read = !text.is_empty() && record.starts_with(text);
    let lines = String::from_utf8(record[if read { text.len() } else { 0 }..].to_vec()).unwrap();
    (read, lines.lines().map(|line| line.split_once('=').unwrap().1.parse().unwrap()).collect())
}

fn tables(label: &Path) -> Vec<u8> {
    let named = std::env::var_os("UISNABAR_TABLE").map(PathBuf::from);
    let beside = [here().join("../target/bin/table"), here().join("../../../bin/uisnabar-table")];
    let program = named
        .or_else(|| beside.into_iter().find(|path| path.is_file()))
        .expect("no table program: name it in UISNABAR_TABLE");
    let told = Command::new(program).stdin(File::open(label).unwrap()).stderr(Stdio::inherit()).output().unwrap();
    assert!(told.status.success());
    told.stdout
}

/// Program, memory and both tables; the lengths at m = 10 and H = K = 256.
fn parts(tables: &[u8]) -> [&[u8]; 4] {
    let (program, rest) = tables.split_at(tables.len() - MEMORY - EXEC - EXT);
    let (memory, rest) = rest.split_at(MEMORY);
    let (exec, ext) = rest.split_at(EXEC);
    [program, memory, exec, ext]
}

fn judged(tables: &[u8], pc: u64) -> Result<(), Refusal> {
    let [program, memory, exec, ext] = parts(tables);
    judge(program, memory, pc, 0, exec, ext)
}

fn counted(tables: &[u8], pc: u64, grid: &mut Grid) -> Result<(), Refusal> {
    let [program, memory, exec, ext] = parts(tables);
    count(program, memory, pc, 0, exec, ext, grid)
}

/// The counters by the report's lines.
fn total(grid: &Grid) -> u128 {
    report(grid).unwrap().lines().map(|line| line.split_once('=').unwrap().1.parse::<u128>().unwrap()).sum()
}

#[test]
fn every_label_is_read_as_recorded() {
    let mut refused = 0;
    for label in labels() {
        let text = fs::read(&label).unwrap();
        let (read, numbers) = recorded(&label, &text);
        match read_label(&text) {
            Ok(recipe) => {
                assert!(read, "{}", label.display());
                let Recipe { version, seed, m, n } = recipe;
                let again = format!("v={version}\nseed={seed:016x}\nm={m}\nn={n}\n");
                assert_eq!(again.as_bytes(), text, "{}", label.display());
            }
            Err(refusal) => {
                assert!(!read, "{}", label.display());
                assert_eq!(numbers, numbers_of(refusal), "{}", label.display());
                assert_eq!(NAMES[refusal.verdict as usize], refusal.name());
                refused += 1;
            }
        }
    }
    assert!(refused >= 7);
}

#[test]
fn every_table_is_judged_as_recorded() {
    let mut accepted = 0;
    for label in labels() {
        let (read, numbers) = recorded(&label, &fs::read(&label).unwrap());
        let mut tables = tables(&label);
        assert_eq!(tables.is_empty(), !read || numbers[0] != 0, "{}", label.display());
        if tables.is_empty() {
            continue;
        }
        assert_eq!(judged(&tables, 0), Ok(()), "{}", label.display());
        // pc is 64 bits wide: a start that is 0 in its lower half alone is another start
        assert_eq!(judged(&tables, 1 << 32).map_err(numbers_of), Err([4, 0, 0, 0, 0, 0]));
        // another word in value A of row 7: it isn't the cell any more, rule 2, and both words are told
        let at = tables.len() - EXT - EXEC + 7 * 32 + 5 * 4;
        let word = u32::from_le_bytes(tables[at..at + 4].try_into().unwrap());
        let other = (word + 1) % P;
        tables[at..at + 4].copy_from_slice(&other.to_le_bytes());
        assert_eq!(judged(&tables, 0).map_err(numbers_of), Err([5, 3, 7, 2, word, other]), "{}", label.display());
        accepted += 1;
    }
    assert!(accepted >= 22, "{accepted} tables");
}

#[test]
fn every_accepted_table_is_counted_and_no_other() {
    let (mut grid, mut accepted) = (FRESH, 0);
    for label in labels() {
        let tables = tables(&label);
        if tables.is_empty() {
            continue;
        }
        let before = grid;
        assert_eq!(counted(&tables, 1, &mut grid), judged(&tables, 1), "{}", label.display());
        assert_eq!(grid, before, "{}", label.display());
        assert_eq!(counted(&tables, 0, &mut grid), Ok(()), "{}", label.display());
        accepted += 1;
        assert_eq!(total(&grid), accepted * 256, "{}", label.display());
    }
    let lines = report(&grid).unwrap();
    let forms: Vec<&str> = lines.lines().map(|line| line.split_once('=').unwrap().0).collect();
    // the forms that the maker writes, in the grid's order
    assert_eq!(
        forms,
        ["add.cell.cell.cell", "mul.cell.cell.cell", "deref.cell.imm.cell", "jump.imm.imm.fp", "ext.imm.imm.imm"]
    );
}

#[test]
fn a_grid_is_full_at_its_last_row() {
    let tables = labels().iter().map(|label| tables(label)).find(|tables| !tables.is_empty()).unwrap();
    let most = (1_u64 << 63) - 1;
    for (rows, taken) in [(most - 256, true), (most - 255, false), (u64::MAX, false)] {
        let mut grid = FRESH;
        grid[..8].copy_from_slice(&rows.to_le_bytes());
        let before = grid;
        let found = counted(&tables, 0, &mut grid);
        assert_eq!(found.map_err(|refusal| refusal.name()), if taken { Ok(()) } else { Err("GRID") });
        assert_eq!(taken, grid != before);
        assert_eq!(total(&grid), u128::from(rows) + if taken { 256 } else { 0 });
        assert_eq!(counted(&tables, 1, &mut grid).unwrap_err().name(), "START");
    }
    let lines = report(&[0xff; 1080]).unwrap();
    assert_eq!((lines.len(), lines.lines().count()), (5076, 135));
    assert!(lines.ends_with("\next.fp.fp.fp=18446744073709551615\n"));
}

#[test]
fn lengths_of_any_kind_are_answered() {
    for bytes in [0, 1, 47, 48, 49] {
        let refusal = judge(&vec![0; bytes], &[], 0, 0, &[], &[]).unwrap_err();
        assert_eq!(numbers_of(refusal), [1, if bytes == 48 { 2 } else { 1 }, 0, 0, 0, 0]);
    }
}
