//! The fixed cases, and the session's line grammar (01, "A session" and on; 02, (i) to (iii)).

use model::cases::CASES;
use model::session::{Session, LONGEST_LINE};
use std::io::BufReader;

#[test]
fn fixed_cases() {
    let failed: Vec<String> =
        CASES.iter().filter_map(|(name, case)| case().err().map(|what| format!("{name}: {what}"))).collect();
    assert!(failed.is_empty(), "{failed:#?}");
}

/// What the line program prints for these bytes.
fn printed(input: &[u8]) -> String {
    // A small buffer, so that lines are read in many parts.
    let mut reader = BufReader::with_capacity(7, input);
    let mut output = Vec::new();
    Session::default().run(&mut reader, &mut output).expect("no error in memory");
    String::from_utf8(output).expect("plain text")
}

#[test]
fn line_ends() {
    assert_eq!(printed(b""), "");
    assert_eq!(printed(b"\n"), "?\n");
    assert_eq!(printed(b"\n\n"), "?\n?\n");
    assert_eq!(printed(b"B"), "B 0 1\n");
    assert_eq!(printed(b"B\n"), "B 0 1\n");
    assert_eq!(printed(b"B\nB"), "B 0 1\nB 0 2\n");
    assert_eq!(printed(b"B\r\nB\n"), "?\nB 0 1\n");
    assert_eq!(printed(b"B\0\nB\n"), "?\nB 0 1\n");
    assert_eq!(printed(b"\xff\xfe\nB\n"), "?\nB 0 1\n");
}

#[test]
fn words_and_numbers() {
    let wrong: [&[u8]; 52] = [
        b" B",
        b"B ",
        b"b",
        b"B 1",
        b"BB",
        b"B1",
        b"A",
        b"A 1",
        b"A 1 ",
        b"A  1 0",
        b"A 1  0",
        b"A 1 0 ",
        b"A 1 0  5",
        b"A 1 0 x",
        b"A 1 0 -5",
        b"A 1 0 +5",
        b"A 1 0 5.0",
        b"A 1 0\t5",
        b"A1 0 5",
        b"D",
        b"D 1",
        b"D 1 0 0",
        b"C",
        b"C 1 1",
        b"X",
        b"X 1 1",
        b"R",
        b"R 0 0",
        b"E",
        b"E 1 1",
        b"L",
        b"L 0 0",
        b"P",
        b"P 0 0",
        b"S",
        b"S l1",
        b"S 1 0",
        b"S l 0",
        b"S p 0",
        b"S l 1 0",
        b"S x1 0",
        b"S L1 0",
        b"S l1 0 0",
        b"S l-1 0",
        b"S l1 ",
        b"?",
        b"N 1",
        b"C 18446744073709551616",
        b"A 1 0 99999999999999999999",
        b"S l18446744073709551616 0",
        b"A 99999999999999999999999999 9",
        b"0",
    ];
    for line in wrong {
        let mut session = Session::default();
        session.answer(b"B");
        let before = session.store.clone();
        assert_eq!(session.answer(line), "?", "{}", String::from_utf8_lossy(line));
        assert!(session.store == before);
    }
    // Numbers within 64 bits are calls, whatever range they are out of; zeros in front do not widen them.
    let right: [(&[u8], &str); 20] = [
        (b"C 18446744073709551615", "C 2"),
        (b"C 4294967297", "C 2"),
        (b"X 18446744073709551615", "X 2"),
        (b"A 1 18446744073709551615 5", "A 1"),
        (b"A 1 4294967296 5", "A 1"),
        (b"A 4294967297 0 5", "A 2"),
        (b"D 4294967297 0", "D 2"),
        (b"D 1 256", "D 1"),
        (b"R 18446744073709551615", "R 4"),
        (b"L 18446744073709551615", "L 4"),
        (b"E 4294967297", "E 2"),
        (b"P 4294967296", "P 1"),
        (b"S l4294967297 0", "S 2"),
        (b"S p18446744073709551615 0", "S 2"),
        (b"S l1 8", "S 1"),
        (b"A 1 0", "A 0 0"),
        (b"A 01 000 18446744073709551615", "A 0 1"),
        (b"A 1 0 000000000000000000000000000000000000000000000005", "A 0 2"),
        (b"S l0000000000000000000000000000000000001 00", "S 0 18446744073709551615 5"),
        (b"C 0000000000000000000000000000000000000000000001", "C 0 1 0"),
    ];
    let mut session = Session::default();
    session.answer(b"B");
    for (line, expected) in right {
        assert_eq!(session.answer(line), expected, "{}", String::from_utf8_lossy(line));
    }
}

#[test]
fn long_lines() {
    let filled = |length: usize| {
        let mut line = b"A 1 0".to_vec();
        line.resize(length, b'0');
        line
    };
    let numbers = |count: usize| [b"A 1 0".as_slice(), &b" 7".repeat(count)].concat();
    assert_eq!(numbers(8189).len() + 1, LONGEST_LINE);
    let input = |line: &[u8]| [b"B\n", line, b"\nC 1\n"].concat();
    // The lot is then a long number that is 0.
    assert_eq!(printed(&input(&filled(LONGEST_LINE))), "B 0 1\nA 0 0\nC 0 1 0\n");
    assert_eq!(printed(&input(&filled(LONGEST_LINE + 1))), "B 0 1\n?\nC 0 1 0\n");
    assert_eq!(printed(&input(&filled(LONGEST_LINE + 2))), "B 0 1\n?\nC 0 1 0\n");
    assert_eq!(printed(&input(&filled(1_000_000))), "B 0 1\n?\nC 0 1 0\n");
    assert_eq!(printed(&filled(1_000_000)), "?\n");
    assert_eq!(printed(&input(&numbers(512))), "B 0 1\nA 0 512\nC 0 1 0\n");
    assert_eq!(printed(&input(&numbers(513))), "B 0 1\nA 8\nC 0 1 0\n");
    assert_eq!(printed(&input(&numbers(8189))), "B 0 1\nA 8\nC 0 1 0\n");
    assert_eq!(printed(&input(&numbers(8190))), "B 0 1\n?\nC 0 1 0\n");
    assert_eq!(printed(&numbers(8189)), "A 2\n");
}
