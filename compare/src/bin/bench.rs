//! Times the proved store beside the model: each call, by the static library, on an empty store, on one that is all
//! but full with short entries, and on one with long entries; a save of eight full lots and its recovery, beside a plain
//! copy of the same bytes, too; and the session program. All calls are accepted ones. The same input, both built for
//! release, one thread, caches warm; each figure is the best of fifty runs, nine of the session, that of the model in turn
//! with that of the proved one, the cost of reading the clock included. The ratio is how many times as fast as the model
//! (or as the plain copy) the proved store is; the last line is the worst beside the model.

use compare::prepared::{append, copy_plainly, each_call, empty, laden, landed, one_more, recover, save, scan, LOAD};
use compare::{books_of, by_library, measured, numbers, told, Areas};
use model::call::Call;
use model::histories::{profile, Lines};
use model::store::Store;
use model::visible::Reader;
use std::hint::black_box;
use std::io::Write;
use std::process::{Command, Stdio};
use std::time::{Duration, Instant};

const RUNS: usize = 50;
const TURNS: u32 = 400;
const SESSIONS: usize = 9;
const LINES: usize = 200_000;

/// What a call writes to, and is put back.
trait Undo {
    fn undo(&mut self, before: &Self);
}

impl Undo for Store {
    fn undo(&mut self, before: &Store) {
        self.manager = before.manager;
        self.rows.copy_from_slice(&before.rows);
        self.entries.copy_from_slice(&before.entries);
    }
}

impl Undo for Areas {
    fn undo(&mut self, before: &Areas) {
        self.rows.copy_from_slice(&before.rows);
        self.entries.copy_from_slice(&before.entries);
    }
}

impl Undo for Vec<u8> {
    fn undo(&mut self, before: &Vec<u8>) {
        self.copy_from_slice(before);
    }
}

/// The mean of a call in nanoseconds, each on the store as it was: what the call before wrote is undone, untimed.
fn mean<T: Undo>(used: &mut T, before: &T, mut call: impl FnMut(&mut T)) -> f64 {
    let mut spent = Duration::ZERO;
    for _ in 0..TURNS {
        used.undo(before);
        let start = Instant::now();
        call(used);
        spent += start.elapsed();
    }
    spent.as_nanos() as f64 / f64::from(TURNS)
}

/// The proved call and the model's, in nanoseconds: the least of their means, taken in turn so that both meet the same
/// moments of the machine. Both accept the call and leave the same store.
fn timed(store: &Store, one: &Call) -> (f64, f64) {
    let (books, areas) = (books_of(&store.manager), Areas::of(store));
    let mut bitmap = one.lent_bytes();
    let (mut proved, mut plain) = (store.clone(), store.clone());
    assert_eq!(told(&by_library(one, &mut proved, &mut bitmap)), numbers(&one.run(&mut plain, &mut bitmap)));
    assert_eq!((numbers(&one.run(&mut store.clone(), &mut bitmap)).0, proved == plain), (0, true), "{one:?}");
    let mut lent = areas.clone();
    let (mut by_proof, mut by_model) = (f64::MAX, f64::MAX);
    for _ in 0..RUNS {
        by_proof = by_proof.min(mean(&mut lent, &areas, |used| {
            black_box(measured(black_box(one), black_box(&books), used.lend(&mut bitmap)));
        }));
        by_model = by_model.min(mean(&mut plain, store, |used| {
            black_box(numbers(&black_box(one).run(used, &mut bitmap)));
        }));
    }
    (by_proof, by_model)
}

/// A plain copy of so many bytes, in nanoseconds: the least of the means.
fn copied(length: usize) -> f64 {
    let (from, blank) = (vec![1; length], vec![0; length]);
    let mut to = blank.clone();
    let means = (0..RUNS).map(|_| mean(&mut to, &blank, |used| copy_plainly(&from, used)));
    means.fold(f64::MAX, f64::min)
}

/// The worst ratio so far, and of what.
struct Worst {
    ratio: f64,
    what: String,
}

impl Worst {
    fn line(&mut self, name: &str, what: &str, unit: &str, proved: f64, model: f64) {
        let ratio = line(what, unit, proved, model);
        if ratio < self.ratio {
            *self = Worst { ratio, what: format!("{name}: {what}") };
        }
    }
}

/// Prints a line, and answers its ratio.
fn line(what: &str, unit: &str, proved: f64, other: f64) -> f64 {
    let ratio = other / proved;
    println!("  {what:<42} {proved:>9.0} {unit} {other:>9.0} {unit} {ratio:>9.2}");
    ratio
}

fn head(name: &str, other: &str) {
    println!("{name:<44} {:>12} {other:>12} {:>9}", "proved", "ratio");
}

fn title(one: &Call) -> String {
    let mut title = match one {
        Call::Recover { file } => format!("Recover {{ file: {} bytes }}", file.len()),
        _ => format!("{one:?}"),
    };
    title.truncate(42);
    title
}

/// Times the calls beside the model. Answers what the proved ones take.
fn calls(name: &str, on: &Store, list: &[Call], worst: &mut Worst) -> Vec<f64> {
    head(name, "model");
    let mut all = Vec::new();
    for one in list {
        let (proved, model) = timed(on, one);
        worst.line(name, &title(one), "ns", proved, model);
        all.push(proved);
    }
    all
}

/// A save of all rows and the recovery of what it writes, beside the model and beside a plain copy of these bytes.
fn saved(name: &str, on: &Store, worst: &mut Worst) {
    let list = [save(LOAD), recover(on, LOAD)];
    let proved = calls(name, on, &list, worst);
    head("the same, beside a plain copy", "copy");
    let copy = copied(on.round_at(LOAD).length());
    for (one, proved) in list.iter().zip(proved) {
        line(&title(one), "ns", proved, copy);
    }
}

/// Milliseconds that a program takes for these lines.
fn session(program: &str, input: &[u8]) -> std::io::Result<f64> {
    let start = Instant::now();
    let mut child = Command::new(program).stdin(Stdio::piped()).stdout(Stdio::null()).spawn()?;
    if let Some(mut stdin) = child.stdin.take() {
        stdin.write_all(input)?;
    }
    child.wait()?;
    Ok(start.elapsed().as_secs_f64() * 1e3)
}

fn main() -> std::io::Result<()> {
    let last = [scan(Reader::Rw(35)), Call::Commit { epoch: 35 }, Call::Rollback { epoch: 35 }];
    let mut worst = Worst { ratio: f64::MAX, what: String::new() };
    calls("an empty store", &empty(), &each_call(&empty()), &mut worst);
    calls("an empty store, a full batch", &empty(), &[append(512)], &mut worst);
    let (short, long) = (laden(63, 8), laden(3, 168));
    calls("a full store, 64 short entries a lot", &short, &each_call(&short), &mut worst);
    calls("the same, by its last load, of 30 deps", &short, &last, &mut worst);
    calls("the same and one load more, of 31 deps", &one_more(&short), &[scan(Reader::Rw(36))], &mut worst);
    calls("a full store, 4 long entries a lot", &long, &each_call(&long), &mut worst);
    saved("eight full lots, short entries, all landed", &landed(63, 8), &mut worst);
    saved("eight full lots, long entries, all landed", &landed(3, 168), &mut worst);

    let Some(mixed) = profile("mixed") else { return Ok(()) };
    let mut made = Lines::new(1, mixed);
    let mut input = Vec::new();
    for _ in 0..LINES {
        input.extend(made.next_line());
        input.push(b'\n');
    }
    let name = "the session program";
    head(name, "model");
    let (mut proved, mut model) = (f64::MAX, f64::MAX);
    for _ in 0..SESSIONS {
        proved = proved.min(session("crates/session/out/session", &input)?);
        model = model.min(session("target/bench/release/session", &input)?);
    }
    worst.line(name, &format!("{LINES} lines"), "ms", proved, model);
    println!("worst ratio {:.2}: {}", worst.ratio, worst.what);
    Ok(())
}
