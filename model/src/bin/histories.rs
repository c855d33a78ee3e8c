//! Prints random session lines by seed and profile, for comparing programs (01, "A session").

use model::histories::{profile, Lines, PROFILES};
use std::io::{self, BufWriter, Write};
use std::process::ExitCode;

fn main() -> ExitCode {
    let args: Vec<String> = std::env::args().skip(1).collect();
    let parsed = match args.as_slice() {
        [seed, name, lines] => match (seed.parse(), profile(name), lines.parse()) {
            (Ok(seed), Some(profile), Ok(lines)) => Some((seed, profile, lines)),
            _ => None,
        },
        _ => None,
    };
    let Some((seed, profile, lines)) = parsed else {
        let names: Vec<&str> = PROFILES.iter().map(|profile| profile.name).collect();
        eprintln!("usage: histories SEED PROFILE LINES\nprofiles: {}", names.join(" "));
        return ExitCode::from(2);
    };
    match print_lines(seed, profile, lines) {
        Ok(()) => ExitCode::SUCCESS,
        Err(error) if error.kind() == io::ErrorKind::BrokenPipe => ExitCode::SUCCESS,
        Err(error) => {
            eprintln!("{error}");
            ExitCode::FAILURE
        }
    }
}

fn print_lines(seed: u64, profile: model::histories::Profile, count: u64) -> io::Result<()> {
    let mut output = BufWriter::with_capacity(1 << 16, io::stdout().lock());
    let mut lines = Lines::new(seed, profile);
    for _ in 0..count {
        output.write_all(&lines.next_line())?;
        output.write_all(b"\n")?;
    }
    output.flush()
}
