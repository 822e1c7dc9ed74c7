//! Programs of draft 0.5.0, by words written by hand from documents 000 and 02.
use uisnabar::translate;

const P: u32 = 2_130_706_433;
/// Instructions of draft 0.5.0, and what each becomes: ADD, MUL, three kinds of DEREF, JUMP.
const PAIRS: [([u32; 14], [u32; 12]); 6] = [
    ([1, 2, 3, 0, 0, 0, 1, 0, 0, 0, 0, 0, 0, 0], [1, 2, 3, 0, 0, 0, 0, 0, 0, 0, 1, 0]),
    ([1, 2, 3, 1, 0, 1, 0, 1, 0, 0, 0, 0, 0, 0], [1, 2, 0, 1, 0, 0, 1, 0, 1, 0, 0, 0]),
    ([1, 2, 3, 0, 1, 1, 0, 0, 1, 0, 0, 0, 1, 0], [1, 3, 2, 0, 1, 1, 0, 0, 0, 0, 2, 0]),
    ([1, 2, 3, 0, 0, 1, 0, 0, 1, 0, 0, 0, 1, 0], [1, 3, 2, 0, 1, 0, 0, 0, 0, 0, 2, 0]),
    ([1, 2, 3, 0, 1, 1, 0, 0, 1, 0, 0, 0, 0, 0], [1, 3, 0, 0, 1, 0, 1, 0, 0, 0, 2, 0]),
    ([1, 2, 3, 0, 1, 1, 0, 0, 0, 1, 0, 0, 0, 0], [1, 2, 0, 0, 1, 0, 1, 0, 0, 1, 0, 0]),
];

fn bytes<'a>(words: impl IntoIterator<Item = &'a u32>) -> Vec<u8> {
    words.into_iter().flat_map(|word| word.to_le_bytes()).collect()
}

fn old() -> Vec<u8> {
    bytes(PAIRS.iter().flat_map(|(old, _)| old))
}

/// The refusal, once a word of the programs above is another.
fn refused(instruction: usize, place: usize, word: u32) -> String {
    let mut old = old();
    let at = 56 * instruction + 4 * place;
    old[at..at + 4].copy_from_slice(&word.to_le_bytes());
    translate(&old).unwrap_err().to_string()
}

#[test]
fn every_kind_is_translated() {
    assert_eq!(translate(&old()), Ok(bytes(PAIRS.iter().flat_map(|(_, new)| new))));
    for (old, new) in PAIRS {
        assert_eq!(translate(&bytes(&old)), Ok(bytes(&new)));
    }
}

#[test]
fn refusals_name_part_and_place() {
    for (instruction, place, word) in [(0, 3, 2), (1, 10, 1), (2, 3, 1), (3, 12, 0), (4, 8, 0), (5, 13, 1)] {
        let wanted = format!("EDITION part 0 place {instruction} rule 0 expected 0 found 0");
        assert_eq!(refused(instruction, place, word), wanted);
    }
    for (instruction, place) in [(0, 0), (3, 7), (5, 13)] {
        let wanted = format!("WORD part 1 place {} rule 0 expected 0 found 0", 14 * instruction + place);
        assert_eq!(refused(instruction, place, P), wanted);
        assert_eq!(refused(instruction, place, u32::MAX), wanted);
    }
}

#[test]
fn lengths_of_any_kind_are_answered() {
    let add = bytes(&PAIRS[0].0);
    for len in [0, 1, 48, 55, 57, 111] {
        let refusal = translate(&old()[..len]).unwrap_err();
        assert_eq!(refusal.to_string(), "SIZE part 1 place 0 rule 0 expected 0 found 0", "{len} bytes");
    }
    assert_eq!(translate(&add.repeat(1 << 20)), Ok(bytes(&PAIRS[0].1).repeat(1 << 20)));
    assert_eq!(translate(&add.repeat((1 << 20) + 1)).unwrap_err().name(), "SIZE");
}
