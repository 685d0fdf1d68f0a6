//! Camera pictures by change request 6: heads that are right and heads that are not, sizes, and each byte.

use crate::camera::camera;

/// Two pixels' bytes: colours 321H and F0FH.
const TWO: [u8; 6] = [17, 34, 51, 255, 0, 255];

/// What is taken from a head with those two pixels behind it, as a picture of 2 by 1.
fn taken(head: &[u8]) -> Option<Vec<u16>> {
    camera(&[head, &TWO].concat(), 2, 1)
}

fn all_right(heads: &[&[u8]]) {
    for head in heads {
        assert_eq!(taken(head), Some(vec![0x321, 0xF0F]), "{}", head.escape_ascii());
    }
}

fn none_right(heads: &[&[u8]]) {
    for head in heads {
        assert_eq!(taken(head), None, "{}", head.escape_ascii());
    }
}

#[test]
fn white_of_each_kind() {
    all_right(&[
        b"P6\n2 1\n255\n",
        b"P6 2 1 255 ",
        b"P6\t2\x0B1\x0C255\r",
        b"P6 \t\r\n\x0B\x0C2\n\n1  255\t",
    ]);
    for white in 0..=255 {
        let head = [b"P6", &[white][..], b"2", &[white], b"1", &[white], b"255", &[white]].concat();
        assert_eq!(taken(&head).is_some(), [9, 10, 11, 12, 13, 32].contains(&white), "{white}");
    }
    none_right(&[b"P62 1 255\n", b"P6\n21\n255\n", b"P6\n2 1255\n", b"P6\n2 1\n255", b" P6\n2 1\n255\n"]);
}

#[test]
fn one_white_byte_behind_the_head() {
    none_right(&[b"P6\n2 1\n255\r\n", b"P6\n2 1\n255\n\n", b"P6\n2 1\n255  "]);
}

#[test]
fn comments() {
    all_right(&[
        b"P6\n# a camera\n2 1\n255\n",
        b"P6 #1\n2 #2\n1 #3\n255\n",
        b"P6#\n2#\n1#\n255\n",
        b"P6# 9 9 9\n# P6 ## 7\n \n#\n2 1\n255\n",
        b"P6#a\rb\x00\xFF\n2 1\n255\n",
        b"P6\n2 1 # wide\n  # high\n255 ",
    ]);
}

#[test]
fn no_comments() {
    none_right(&[
        b"P6\n2 1\n255#\n",
        b"P6\n2 1\n255 #\n",
        b"P6\n2 1\n255\n#\n",
        b"#\nP6\n2 1\n255\n",
        b"P#\n6\n2 1\n255\n",
        b"P6#a\r2 1\n255\n",
        b"P6 2 # 1\n255\n",
        b"P6\n2 1\n2#\n55\n",
        b"P6\n2 1\n# 255",
        b"P6 2 1 # 255 ",
        b"P6#a\r2 1 255 ",
        b"P6\n;a\n2 1\n255\n",
    ]);
}

#[test]
fn other_sizes() {
    none_right(&[
        b"P6\n1 2\n255\n",
        b"P6\n2 2\n255\n",
        b"P6\n1 1\n255\n",
        b"P6\n3 1\n255\n",
        b"P6\n2 0\n255\n",
    ]);
    // 2^32 + 2, 2^64 + 1, 256 + 1.
    none_right(&[b"P6\n4294967298 1\n255\n", b"P6\n2 18446744073709551617\n255\n", b"P6\n2 257\n255\n"]);
    none_right(&[b"P6\n20 1\n255\n", b"P6\n2 10\n255\n", b"P6\n12 1\n255\n"]);
    // As many pixels, the other way round.
    let file = [&b"P6\n3 2\n255\n"[..], &[0; 18]].concat();
    assert_eq!(camera(&file, 3, 2), Some(vec![0; 6]));
    assert_eq!(
        [(2, 3), (6, 1), (1, 6), (3, 1), (3, 3)].map(|(n, v)| camera(&file, n, v)),
        [None, None, None, None, None]
    );
}

#[test]
fn other_greatest_values() {
    for greatest in (0..=1000).chain([65_535, 65_536 + 255]) {
        let head = format!("P6\n2 1\n{greatest}\n");
        assert_eq!(taken(head.as_bytes()).is_some(), greatest == 255, "{greatest}");
    }
}

#[test]
fn numbers_written_otherwise() {
    all_right(&[b"P6\n02 01\n0255\n", b"P6\n000000000000000000000000000000000002 1\n255\n"]);
    none_right(&[
        b"P6\n+2 1\n255\n",
        b"P6\n2 -1\n255\n",
        b"P6\n2.0 1\n255\n",
        b"P6\n2 1\n0xFF\n",
        b"P6\n2 1\nFF\n",
    ]);
    none_right(&[b"P6\n2 1\n", b"P6\n2\n255\n", b"P6\n255\n", b"P6\n", b"P6", b"", b"P6\n2 1 1\n255\n"]);
    none_right(&[b"P6\n2,1\n255\n", b"P6\n2_0 1\n255\n", b"P6\n\xB2 1\n255\n"]);
}

#[test]
fn other_kinds_of_file() {
    for kind in [b"P1", b"P3", b"P5", b"P7", b"p6", b"6P", b"PF", b"\x00\x00"] {
        none_right(&[&[kind, &b"\n2 1\n255\n"[..]].concat()]);
    }
    none_right(&[b"\xEF\xBB\xBFP6\n2 1\n255\n", b"PP6\n2 1\n255\n", b"P66\n2 1\n255\n"]);
}

#[test]
fn one_byte_too_few_or_too_many() {
    let file = [&b"P6\n2 1\n255\n"[..], &TWO].concat();
    assert!(camera(&file, 2, 1).is_some());
    for length in 0..file.len() {
        assert_eq!(camera(&file[..length], 2, 1), None, "{length}");
    }
    for more in [0, 17, b'\n', b' ', 255] {
        assert_eq!(camera(&[&file[..], &[more]].concat(), 2, 1), None);
    }
    assert_eq!(camera(&file.repeat(2), 2, 1), None);
    assert_eq!(camera(&[&file[..], &TWO[..3]].concat(), 2, 1), None);
}

#[test]
fn seventeen_times_a_gun() {
    for place in 0..6 {
        for byte in 0..=255 {
            let mut guns = [0; 6];
            guns[place] = byte;
            let file = [&b"P6\n2 1\n255\n"[..], &guns].concat();
            let mut colours = vec![0, 0];
            colours[place / 3] = u16::from(byte / 17) * [1, 16, 256][place % 3];
            assert_eq!(camera(&file, 2, 1), (byte % 17 == 0).then_some(colours), "{place} {byte}");
        }
    }
}
