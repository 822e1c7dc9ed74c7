//! Labels of both versions, by texts written by hand from documents 01 and 02.
use uisnabar::{read_label, Recipe};

/// The longest label, and what it stands for.
fn longest(version: u32) -> (String, Recipe) {
    let text = format!("v={version}\nseed=0123456789abcdef\nm=29\nn=124\n");
    (text, Recipe { version, seed: 0x0123_4567_89ab_cdef, m: 29, n: 124 })
}

fn refused(text: &str) -> String {
    read_label(text.as_bytes()).unwrap_err().to_string()
}

fn place(place: usize) -> String {
    format!("LABEL part 0 place {place} rule 0 expected 0 found 0")
}

#[test]
fn both_versions_are_read() {
    for version in [1, 2] {
        let (text, recipe) = longest(version);
        assert_eq!(read_label(text.as_bytes()), Ok(recipe));
        let shortest = format!("v={version}\nseed=ffffffff00000000\nm=10\nn=1\n");
        let wanted = Recipe { version, seed: 0xffff_ffff_0000_0000, m: 10, n: 1 };
        assert_eq!(read_label(shortest.as_bytes()), Ok(wanted));
    }
}

#[test]
fn no_other_version_is() {
    for version in ["0", "3", "9", "02", " 2", "", "a"] {
        assert_eq!(refused(&longest(2).0.replace("v=2", &format!("v={version}"))), place(2), "v={version}");
    }
    for version in ["11", "22", "1 ", "2\r"] {
        assert_eq!(refused(&longest(2).0.replace("v=2", &format!("v={version}"))), place(3), "v={version}");
    }
}

#[test]
fn a_label_that_is_cut_or_goes_on_is_refused_at_its_end() {
    for version in [1, 2] {
        let (text, _) = longest(version);
        for len in 0..text.len() {
            assert_eq!(refused(&text[..len]), place(len), "v={version}");
        }
        assert_eq!(refused(&format!("{text}\n")), place(text.len()), "v={version}");
    }
}

#[test]
fn each_field_is_refused_where_it_leaves_its_range() {
    for version in [1, 2] {
        let (text, _) = longest(version);
        for (old, new, at) in [
            ("f\n", "F\n", 24),
            ("m=29", "m=30", 28),
            ("m=29", "m=9", 28),
            ("n=124", "n=125", 35),
            ("n=124", "n=0", 33),
        ] {
            assert_eq!(refused(&text.replace(old, new)), place(at), "v={version}, {new}");
        }
    }
}
