//! Times the store beside the plain Rust model, SQLite and LMDB: the same lists of calls on each, in one run. It prints
//! a table; given the folder of the documents, it puts the table into BENCHMARKS.md there and the plot beside it.
//! `benchmarks [--rounds N] [--docs FOLDER] [--only ENGINE]`. Status 1: an engine handed out other rows than the
//! others, or a file failed.

mod books;
mod database;
mod engine;
mod lmdb;
mod measure;
mod ours;
mod plain;
mod plot;
mod report;
mod sqlite;
mod workload;

use database::Landing::{EachCall, EachLoad, Never};
use database::{Database, Lots};
use engine::Engine;
use measure::measure;
use report::Report;
use std::path::{Path, PathBuf};
use std::process::ExitCode;
use workload::Workload;

/// Rounds of what is in the table, and of what was tried.
const ROUNDS: usize = 61;
const TRIED: usize = 21;
/// Bytes of a page of SQLite's for batches.
const PAGE: u32 = 65536;
/// The part of BENCHMARKS.md between these two lines is made here.
const FROM: &str = "<!-- what follows is made by tools/benchmarks -->\n";
const UNTIL: &str = "<!-- what tools/benchmarks makes ends here -->\n";

fn database<L: Lots + 'static>(lots: L) -> Box<dyn Engine> {
    Box::new(Database::new(lots))
}

/// The engines of the table and the plot, ours first.
fn engines() -> Vec<Box<dyn Engine>> {
    vec![
        Box::new(ours::Ours::new()),
        Box::new(plain::Model::new("model", false)),
        database(sqlite::Rows::new("SQLite rows", EachLoad, true)),
        database(sqlite::Batches::new("SQLite batches", EachLoad, PAGE)),
        database(lmdb::Rows::new("LMDB rows", EachLoad)),
        database(lmdb::Batches::new("LMDB batches", EachLoad)),
    ]
}

/// Other ways to use them that were tried, beside ours.
fn tried() -> Vec<Box<dyn Engine>> {
    vec![
        Box::new(ours::Ours::new()),
        Box::new(plain::Model::new("model, not testing whether it is sound", true)),
        database(sqlite::Rows::new("SQLite rows, committed by each call", EachCall, true)),
        database(sqlite::Rows::new("SQLite rows, never committed", Never, true)),
        database(sqlite::Rows::new("SQLite rows, a row a statement", EachLoad, false)),
        database(sqlite::Batches::new("SQLite batches, committed by each call", EachCall, PAGE)),
        database(sqlite::Batches::new("SQLite batches, never committed", Never, PAGE)),
        database(sqlite::Batches::new("SQLite batches, pages of 4 KB", EachLoad, 4096)),
        database(sqlite::Batches::new("SQLite batches, pages of 16 KB", EachLoad, 16384)),
        database(lmdb::Rows::new("LMDB rows, committed by each call", EachCall)),
        database(lmdb::Rows::new("LMDB rows, never committed", Never)),
        database(lmdb::Batches::new("LMDB batches, committed by each call", EachCall)),
        database(lmdb::Batches::new("LMDB batches, never committed", Never)),
    ]
}

fn machine() -> String {
    let info = std::fs::read_to_string("/proc/cpuinfo").unwrap_or_default();
    let model = info.lines().find_map(|line| line.strip_prefix("model name")).unwrap_or("");
    let cores = std::thread::available_parallelism().map_or(1, usize::from);
    let model = model.trim_start_matches([' ', '\t', ':']);
    format!("{model}, {cores} cores; SQLite {}, LMDB {}", sqlite::version(), lmdb::version())
}

/// Puts the table between the two lines of BENCHMARKS.md and the plot beside it.
fn write(docs: &Path, table: &str, plot: &str) -> Result<(), String> {
    let page = docs.join("BENCHMARKS.md");
    let failed = |error: std::io::Error| format!("{}: {error}", page.display());
    let text = std::fs::read_to_string(&page).map_err(failed)?;
    let parts = text.split_once(FROM).and_then(|(before, rest)| Some((before, rest.split_once(UNTIL)?.1)));
    let (before, after) = parts.ok_or_else(|| format!("{}: no part for the table", page.display()))?;
    std::fs::write(&page, format!("{before}{FROM}```\n{}\n```\n{UNTIL}{after}", table.trim_end())).map_err(failed)?;
    std::fs::write(docs.join("benchmarks.svg"), plot).map_err(failed)
}

/// What the engines need for the workloads.
fn report<'a>(
    mut engines: Vec<Box<dyn Engine>>,
    workloads: &'a [Workload],
    rounds: usize,
) -> Result<Report<'a>, String> {
    let mut results = Vec::new();
    for workload in workloads {
        eprintln!("{rounds} rounds of {}", workload.name);
        results.push((workload, measure(workload, &mut engines, rounds)?));
    }
    Ok(Report { engines: engines.iter().map(|engine| engine.name()).collect(), rounds, results })
}

fn run() -> Result<(), String> {
    let (mut rounds, mut tries, mut docs, mut only) = (ROUNDS, TRIED, None, None);
    let mut arguments = std::env::args().skip(1);
    while let Some(argument) = arguments.next() {
        match (argument.as_str(), arguments.next()) {
            ("--rounds", Some(count)) => {
                rounds = count.parse().ok().filter(|&count| count > 0).ok_or("how many rounds?")?;
                tries = rounds;
            }
            ("--docs", Some(folder)) => docs = Some(PathBuf::from(folder)),
            ("--only", Some(name)) => only = Some(name),
            _ => return Err("benchmarks [--rounds N] [--docs FOLDER] [--only ENGINE]".to_string()),
        }
    }
    let workloads = workload::all();
    if let Some(name) = only {
        let mut engines: Vec<_> = engines().into_iter().chain(tried().into_iter().skip(1)).collect();
        engines.retain(|engine| engine.name() == name);
        if engines.is_empty() {
            return Err(format!("no engine {name}"));
        }
        print!("{}", report(engines, &workloads, rounds)?.table());
        return Ok(());
    }
    let made = report(engines(), &workloads, rounds)?;
    let tried = report(tried(), &workloads, tries)?;
    let text = format!("{}\n\n{}\n{}\n{}", machine(), made.table(), tried.tried(), made.kinds());
    print!("{text}");
    docs.map_or(Ok(()), |docs| write(&docs, &text, &made.plot()))
}

fn main() -> ExitCode {
    match run() {
        Ok(()) => ExitCode::SUCCESS,
        Err(error) => {
            eprintln!("benchmarks: {error}");
            ExitCode::FAILURE
        }
    }
}
