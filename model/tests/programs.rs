//! The programs as they are run: the line program and the printer of random lines (01, "A session"; 02, (i), (ii)).

use model::histories::PROFILES;
use model::session::Session;
use std::io::Write;
use std::process::{Command, Stdio};

/// What the line program prints for these bytes on its standard input.
fn session(input: Vec<u8>) -> Vec<u8> {
    let mut program = Command::new(env!("CARGO_BIN_EXE_session"))
        .stdin(Stdio::piped())
        .stdout(Stdio::piped())
        .spawn()
        .expect("the program starts");
    let mut stdin = program.stdin.take().expect("its input");
    let writer = std::thread::spawn(move || stdin.write_all(&input));
    let output = program.wait_with_output().expect("the program ends");
    writer.join().expect("written").expect("all of it");
    assert!(output.status.success());
    output.stdout
}

fn random_lines(seed: &str, profile: &str, count: &str) -> Vec<u8> {
    let output = Command::new(env!("CARGO_BIN_EXE_histories"))
        .args([seed, profile, count])
        .output()
        .expect("the program runs");
    assert!(output.status.success());
    output.stdout
}

#[test]
fn worked_session() {
    let input = "B\nA 1 0 10 11\nB\nA 2 0 20\nC 1\nR 0\nD 2 0\nS l2 0\nC 2\nS p1 0\nR 0\nS p2 0\nL 2\nE 1\n\
                 L 0\nP 0\nA 2 0 5\n";
    let output = "B 0 1\nA 0 2\nB 0 2\nA 0 3\nC 0 1 2\nR 0 1\nD 0 3\nS 0\nC 0 2 0\nS 0 10 11\nR 0 2\n\
                  S 0\nL 10\nE 0 1\nL 0 2\nP 0 1\nA 2\n";
    assert_eq!(String::from_utf8_lossy(&session(input.into())), output);
}

#[test]
fn random_lines_through_the_program() {
    for profile in PROFILES {
        let lines = random_lines("11", profile.name, "1000");
        assert_eq!(lines, random_lines("11", profile.name, "1000"));
        assert_ne!(lines, random_lines("12", profile.name, "1000"));
        let mut expected = Vec::new();
        let mut in_memory = Session::default();
        let split: Vec<&[u8]> =
            lines.strip_suffix(b"\n").unwrap_or(&lines).split(|&byte| byte == b'\n').collect();
        assert_eq!(split.len(), 1000);
        for line in split {
            expected.extend(in_memory.answer(line).bytes().chain([b'\n']));
        }
        assert!(session(lines) == expected, "{}", profile.name);
    }
}

#[test]
fn wrong_arguments_are_refused() {
    for args in [&["1", "none", "5"] as &[&str], &["x", "mixed", "5"], &["1", "mixed"], &[]] {
        let output = Command::new(env!("CARGO_BIN_EXE_histories")).args(args).output().expect("it runs");
        assert_eq!(output.status.code(), Some(2));
        assert!(output.stdout.is_empty());
    }
}
