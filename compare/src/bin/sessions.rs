//! Runs a session program beside the model on random histories, and prints the first difference cut down to a short one.
//! sessions PROGRAM [LINES]: so many lines for each profile and seed (01, "A session").

use model::histories::{Lines, PROFILES};
use model::random::Rng;
use model::session::Session;
use std::io::Write;
use std::process::{Command, ExitCode, Stdio};

/// Lines for each profile and seed, if no other number is given.
const LINES: usize = 4_000;
const SEEDS: [u64; 8] = [1, 2, 3, 5, 8, 13, 21, 34];
/// Runs of the program that cutting a history down may take.
const CUTS: usize = 2_000;

/// The program's output for these bytes. They are handed over in pieces, so that lines come in any chunks.
fn output_of(program: &str, input: Vec<u8>, seed: u64) -> std::io::Result<Vec<u8>> {
    let mut child = Command::new(program).stdin(Stdio::piped()).stdout(Stdio::piped()).spawn()?;
    let mut stdin = child.stdin.take().ok_or(std::io::ErrorKind::BrokenPipe)?;
    let writer = std::thread::spawn(move || {
        let mut rng = Rng::new(seed);
        let mut rest = input.as_slice();
        while !rest.is_empty() {
            let (piece, more) = rest.split_at((rng.within(1, 40_000) as usize).min(rest.len()));
            if stdin.write_all(piece).is_err() {
                return;
            }
            rest = more;
        }
    });
    let output = child.wait_with_output()?;
    let _ = writer.join();
    if !output.status.success() {
        return Err(std::io::Error::other(format!("{program} ended with {}", output.status)));
    }
    Ok(output.stdout)
}

/// The lines as a program reads them. The last of every second history has no line end.
fn joined(lines: &[Vec<u8>], seed: u64) -> Vec<u8> {
    let mut input = lines.join(&b'\n');
    if seed % 2 == 0 || lines.last().is_some_and(|line| line.is_empty()) {
        input.push(b'\n');
    }
    input
}

struct Difference {
    /// The first line that is answered otherwise.
    at: usize,
    program: String,
    model: String,
}

fn first_difference(program: &str, lines: &[Vec<u8>], seed: u64) -> std::io::Result<Option<Difference>> {
    if lines.is_empty() {
        return Ok(None);
    }
    let output = output_of(program, joined(lines, seed), seed)?;
    let mut answers = output.split(|&byte| byte == b'\n');
    let mut model = Session::default();
    for (at, line) in lines.iter().enumerate() {
        let expected = model.answer(line);
        let answer = answers.next().unwrap_or(b"(no line)");
        if answer != expected.as_bytes() {
            return Ok(Some(Difference { at, program: String::from_utf8_lossy(answer).into(), model: expected }));
        }
    }
    let rest: Vec<u8> = answers.collect::<Vec<_>>().join(&b'\n');
    if !rest.is_empty() || output.last() != Some(&b'\n') {
        let program = String::from_utf8_lossy(&rest).into();
        return Ok(Some(Difference { at: lines.len(), program, model: "(no line)".to_string() }));
    }
    Ok(None)
}

/// Leaves out whatever is not needed for a difference, in smaller and smaller parts.
fn cut_down(program: &str, mut lines: Vec<Vec<u8>>, seed: u64) -> std::io::Result<Vec<Vec<u8>>> {
    let mut part = lines.len().div_ceil(2);
    let mut left = CUTS;
    while part > 0 && left > 0 {
        let (mut from, before) = (0, lines.len());
        while from < lines.len() && left > 0 {
            left -= 1;
            let mut fewer = lines.clone();
            fewer.drain(from..(from + part).min(lines.len()));
            match first_difference(program, &fewer, seed)? {
                Some(found) => {
                    fewer.truncate(found.at + 1);
                    lines = fewer;
                }
                None => from += part,
            }
        }
        part = match part {
            1 if lines.len() < before => 1,
            1 => 0,
            _ => part.div_ceil(2),
        };
    }
    Ok(lines)
}

fn report(program: &str, lines: Vec<Vec<u8>>, seed: u64) -> std::io::Result<()> {
    let short = cut_down(program, lines, seed)?;
    for line in &short {
        let line = String::from_utf8_lossy(line);
        println!("  {}", line.chars().take(200).collect::<String>());
    }
    if let Some(found) = first_difference(program, &short, seed)? {
        println!("line {} is answered\n  {}\nand by the model\n  {}", found.at + 1, found.program, found.model);
    }
    Ok(())
}

fn compared(program: &str, count: usize) -> std::io::Result<bool> {
    let mut all = 0;
    for profile in PROFILES {
        for seed in SEEDS {
            let mut made = Lines::new(seed, profile);
            let mut lines: Vec<Vec<u8>> = (0..count).map(|_| made.next_line()).collect();
            if let Some(found) = first_difference(program, &lines, seed)? {
                println!("profile {}, seed {seed}, line {}: cut down to", profile.name, found.at + 1);
                lines.truncate(found.at + 1);
                report(program, lines, seed)?;
                return Ok(false);
            }
            all += count;
        }
    }
    println!("sessions: {all} lines over {} profiles agree", PROFILES.len());
    Ok(true)
}

fn main() -> ExitCode {
    let mut args = std::env::args().skip(1);
    let Some(program) = args.next() else {
        eprintln!("usage: sessions PROGRAM [LINES]");
        return ExitCode::from(2);
    };
    let count = args.next().and_then(|word| word.parse().ok()).unwrap_or(LINES);
    match compared(&program, count) {
        Ok(true) => ExitCode::SUCCESS,
        Ok(false) => ExitCode::FAILURE,
        Err(error) => {
            println!("sessions: {error}");
            ExitCode::FAILURE
        }
    }
}
