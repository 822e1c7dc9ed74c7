//! Listings, by lines and words written by hand from documents 01 and 02.
use uisnabar::{list, read_listing, LINE_BYTES};

const P: u32 = 2_130_706_433;
/// Lines, and the words that each stands for: every operation, and each way to write an operand.
const PAIRS: [(&str, [u32; 12]); 10] = [
    ("op=add a=cell:1 b=imm:2 c=fp:3\n", [1, 2, 3, 0, 1, 0, 1, 0, 0, 0, 1, 0]),
    ("op=add a=imm:0 b=cell:2130706432 c=imm:10\n", [0, P - 1, 10, 1, 0, 1, 0, 0, 0, 0, 1, 0]),
    ("op=mul a=imm:7 b=cell:8 c=cell:9\n", [7, 8, 9, 1, 0, 0, 0, 0, 1, 0, 0, 0]),
    ("op=deref a=cell:4 b=imm:5 c=imm:6\n", [4, 5, 6, 0, 1, 1, 0, 0, 0, 0, 2, 0]),
    ("op=jump a=imm:1 b=imm:0 c=fp:0\n", [1, 0, 0, 1, 1, 0, 1, 0, 0, 1, 0, 0]),
    ("op=xadd a=imm:1 b=cell:2 c=imm:3 be=0 n=3\n", [1, 2, 3, 1, 0, 1, 0, 0, 0, 0, 0, 100]),
    ("op=xmul a=fp:1 b=fp:2 c=cell:3 be=1 n=4\n", [1, 2, 3, 0, 0, 0, 0, 1, 0, 0, 0, 138]),
    ("op=xpeq a=cell:1 b=imm:2 c=fp:3 be=0 n=3\n", [1, 2, 3, 0, 1, 0, 1, 0, 0, 0, 0, 112]),
    (LONGEST, [P - 1, P - 1, P - 1, 0, 0, 0, 0, 0, 0, 0, 0, 33_554_442]),
    (SHORTEST, [0, 0, 0, 1, 1, 0, 1, 0, 0, 0, 1, 0]),
];
const SHORTEST: &str = "op=add a=imm:0 b=imm:0 c=fp:0\n";
const LONGEST: &str = "op=xmul a=cell:2130706432 b=cell:2130706432 c=cell:2130706432 be=1 n=1048576\n";

fn bytes<'a>(words: impl IntoIterator<Item = &'a u32>) -> Vec<u8> {
    words.into_iter().flat_map(|word| word.to_le_bytes()).collect()
}

fn whole() -> (String, Vec<u8>) {
    (PAIRS.iter().map(|(line, _)| *line).collect(), bytes(PAIRS.iter().flat_map(|(_, words)| words)))
}

fn refused(text: &str) -> String {
    read_listing(text.as_bytes()).unwrap_err().to_string()
}

fn place(place: usize) -> String {
    format!("LISTING part 0 place {place} rule 0 expected 0 found 0")
}

#[test]
fn every_operation_is_listed_and_read() {
    let (text, program) = whole();
    assert_eq!((list(&program), read_listing(text.as_bytes())), (Ok(text), Ok(program)));
    for (line, words) in PAIRS {
        assert_eq!((list(&bytes(&words)), read_listing(line.as_bytes())), (Ok(line.to_owned()), Ok(bytes(&words))));
    }
}

#[test]
fn the_longest_line_has_the_bytes_that_are_said() {
    assert_eq!(LONGEST.len(), LINE_BYTES);
    assert_eq!(list(&bytes(&PAIRS[8].1).repeat((1 << 20) + 1)).unwrap_err().name(), "SIZE");
}

#[test]
fn as_many_lines_as_there_may_be_are_listed_and_read() {
    for (line, words) in &PAIRS[8..] {
        let (text, program) = (line.repeat(1 << 20), bytes(words).repeat(1 << 20));
        assert!(read_listing(text.as_bytes()).as_ref() == Ok(&program) && list(&program).as_ref() == Ok(&text));
        assert_eq!(refused(&(text + line)), place(line.len() << 20));
    }
}

#[test]
fn a_text_that_is_cut_is_refused_at_its_end() {
    for (line, _) in PAIRS {
        for len in 0..line.len() {
            assert_eq!(refused(&line[..len]), place(len), "{line}");
            assert_eq!(refused(&format!("{line}{}", &line[..len.max(1)])), place(line.len() + len.max(1)), "{line}");
        }
    }
}

#[test]
fn a_text_is_refused_where_it_leaves_every_listing() {
    for (text, at) in [
        ("op=sub", 3),
        ("op=xadd a=fp:1 b=cell:2", 17),
        ("op=add a=fp:1", 9),
        ("op=jump a=imm:1 b=imm:0 c=imm:0\n", 26),
        ("op=deref a=imm:1", 11),
        ("op=add a=imm:01", 14),
        ("op=add a=imm:2130706433", 22),
        ("op=xadd a=imm:1 b=imm:2 c=imm:3 be=2", 35),
        ("op=xadd a=imm:1 b=imm:2 c=imm:3 be=0 n=0", 39),
        ("op=xadd a=imm:1 b=imm:2 c=imm:3 be=0 n=1048577", 45),
        ("op=add a=imm:1 b=imm:2 c=imm:3\r\n", 30),
    ] {
        assert_eq!(refused(text), place(at), "{text}");
    }
}

#[test]
fn programs_are_refused_as_the_judge_refuses_them() {
    let (_, program) = whole();
    for (word, value, wanted) in [
        (12, P, "WORD part 1 place 12"),
        (107, u32::MAX, "WORD part 1 place 107"),
        (99, 2, "INSTRUCTION part 1 place 8"),
        (107, 1, "INSTRUCTION part 1 place 8"),
    ] {
        let mut bad = program.clone();
        bad[4 * word..4 * word + 4].copy_from_slice(&value.to_le_bytes());
        assert_eq!(list(&bad).unwrap_err().to_string(), format!("{wanted} rule 0 expected 0 found 0"));
    }
    for len in [0, 1, 47, 49] {
        assert_eq!(list(&program[..len]).unwrap_err().to_string(), "SIZE part 1 place 0 rule 0 expected 0 found 0");
    }
}
