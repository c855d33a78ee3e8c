//! The cases at the edges: session lines, and lines of small letters that do what no session can (01, "At the edges", the
//! refusals; 02, (iii), (v)). Each small letter has at least two numbers.
//!
//! - `n s _`: made new at s.
//! - `w field value`: a word of the store is overwritten (see `field`). Prints nothing.
//! - `t who id lot bytes`: a scan by a load (0) or a page (1), lent so many of eight bytes of 165; prints all eight.
//! - `p lot _`: a purge; `r` and the rows that it answers, after their count, are a line of their own.
//! - `k epoch bytes`: a save, lent so many of 128 bytes of 165; prints the bytes it answers, then all that it was lent.
//! - `v count byte ..`: recovery of a file of so many bytes, at most 128.
//! - `g rows _`: begin, lent so many rows.
//! - `f load lot count`: an append of so many rows, each 7.
//! - `b count _`, `q count _`, `d load lot count`: so many begins, pages at 0, clearings; prints the last answer.
//! - A line that starts with `#` is printed as it is.

use model::call::{number_of, Answer, Call, LENT_FILL};
use model::refusal::Refusal;
use model::session::{Session, LONGEST_LINE};
use model::store::Store;
use model::visible::Reader;
use std::io::{self, BufRead, Write};

/// Bytes that a case's bitmap has, lent or not.
const BYTES: usize = 8;
/// Bytes that a file or an output may have.
const FILE_MAX: u64 = 128;
/// The rows of a filled batch.
const ROW: u64 = 7;

/// The word of the store that a number names.
fn field(store: &mut Store, at: u64) -> Option<&mut u64> {
    let books = &mut store.manager;
    let lot = (at % 10) as usize;
    Some(match at {
        0 => &mut books.clock.ec,
        1 => &mut books.clock.lce,
        2 => &mut books.clock.lse,
        3 => &mut books.ro.next,
        4 => &mut books.rw.count,
        5 => &mut books.ro.count,
        6 => &mut books.partitions.spare,
        10..=17 => &mut books.partitions.at[lot].area,
        20..=27 => &mut books.partitions.at[lot].rows,
        30..=37 => &mut books.partitions.at[lot].entries,
        40 => &mut books.rw.at[0].epoch,
        41 => &mut books.rw.at[0].waiting,
        42 => &mut books.rw.at[0].deps_count,
        43 => &mut books.rw.at[0].deps[0],
        44 => &mut books.rw.at[31].epoch,
        45 => &mut books.rw.at[0].deps[30],
        50 => &mut books.ro.at[0].ticket,
        51 => &mut books.ro.at[0].epoch,
        52 => &mut books.ro.at[31].ticket,
        60 => &mut store.entries[0].epoch,
        61 => &mut store.entries[0].end,
        62 => &mut store.entries[0].mark,
        63 => &mut store.entries[1].epoch,
        64 => &mut store.entries[1].end,
        65 => &mut store.entries[1].mark,
        70..=77 => &mut books.totals[lot],
        80..=89 => &mut store.rows[lot],
        _ => return None,
    })
}

/// The answer's number, and its value where it has one.
fn numbers(answer: &Result<Answer, Refusal>) -> Vec<u64> {
    let mut all = vec![number_of(answer)];
    if let Ok(Answer::Value(value)) = answer {
        all.push(*value);
    }
    all
}

/// The same call so many times; the last answer.
fn repeated(store: &mut Store, call: &Call, count: u64) -> Vec<u64> {
    let mut last = Vec::new();
    for _ in 0..count {
        last = numbers(&call.run(store, &mut []));
    }
    last
}

/// A printed line: a letter and numbers.
type Line = (u8, Vec<u64>);

/// What a line of a small letter prints.
fn edge(store: &mut Store, letter: u8, words: &[u64]) -> Vec<Line> {
    let all = match (letter, words) {
        (b'n', [start, _]) => vec![number_of(&store.make_new(*start))],
        (b'w', [at, value]) => {
            if let Some(word) = field(store, *at) {
                *word = *value;
            }
            return Vec::new();
        }
        (b't', [who, id, lot, bytes]) => {
            let mut bitmap = [LENT_FILL; BYTES];
            let lent = &mut bitmap[..(*bytes as usize).min(BYTES)];
            let reader = if *who == 0 { Reader::Rw(*id) } else { Reader::Ro(*id) };
            let answer = store.scan(reader, *lot, lent);
            let (rows, ones) = answer.map_or((0, 0), |scanned| (scanned.rows, scanned.ones));
            let mut all = vec![number_of(&answer), rows, ones];
            all.extend(bitmap.iter().map(|&byte| u64::from(byte)));
            all
        }
        (b'p', [lot, _]) => {
            let answer = store.purge(*lot);
            let number = number_of(&answer);
            let (rewritten, part) = answer.map_or((false, &[][..]), |purged| {
                let from = purged.live.place as usize;
                (purged.rewritten, &store.rows[from..from + purged.live.count as usize])
            });
            let mut rows = vec![part.len() as u64];
            rows.extend(part);
            return vec![(letter, vec![number, u64::from(rewritten)]), (b'r', rows)];
        }
        (b'k', [epoch, bytes]) if *bytes <= FILE_MAX => {
            let mut out = vec![LENT_FILL; *bytes as usize];
            let answer = store.save(*epoch, &mut out);
            let mut all = vec![number_of(&answer), answer.unwrap_or(0)];
            all.extend(out.iter().map(|&byte| u64::from(byte)));
            all
        }
        (b'v', [count, bytes @ ..]) if *count <= FILE_MAX => {
            let file: Vec<u8> = bytes[..*count as usize].iter().map(|&byte| byte as u8).collect();
            vec![number_of(&store.recover(&file))]
        }
        (b'g', [rows, _]) => {
            let kept = store.rows.clone();
            store.rows.resize(*rows as usize, 0);
            let all = vec![number_of(&store.begin())];
            store.rows = kept;
            all
        }
        (b'f', [epoch, partition, count]) => {
            let call =
                Call::Append { epoch: *epoch, partition: *partition, rows: vec![ROW; *count as usize] };
            repeated(store, &call, 1)
        }
        (b'b', [count, _]) => repeated(store, &Call::Begin, *count),
        (b'q', [count, _]) => repeated(store, &Call::Open { epoch: 0 }, *count),
        (b'd', [epoch, partition, count]) => {
            repeated(store, &Call::Clear { epoch: *epoch, partition: *partition }, *count)
        }
        _ => return Vec::new(),
    };
    // A call that is made no times has no answer.
    if all.is_empty() {
        return Vec::new();
    }
    vec![(letter, all)]
}

fn main() -> io::Result<()> {
    let mut output = io::stdout().lock();
    let mut session = Session::default();
    for line in io::stdin().lock().split(b'\n') {
        let line = line?;
        assert!(line.len() <= LONGEST_LINE, "a case is a short line");
        match line.first() {
            Some(b'#') => {
                output.write_all(&line)?;
                output.write_all(b"\n")?;
            }
            Some(letter @ b'a'..=b'z') => {
                let text = String::from_utf8_lossy(&line[1..]);
                let words: Vec<u64> = text.split_whitespace().filter_map(|word| word.parse().ok()).collect();
                for (letter, numbers) in edge(&mut session.store, *letter, &words) {
                    write!(output, "{}", letter as char)?;
                    for number in numbers {
                        write!(output, " {number}")?;
                    }
                    output.write_all(b"\n")?;
                }
            }
            _ => writeln!(output, "{}", session.answer(&line))?,
        }
    }
    output.flush()
}
