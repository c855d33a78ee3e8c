//! The line program: its grammar, its answers, and the reading of lines (01, "A session"; 02, (i)).

use crate::call::{number_of, Answer, Call};
use crate::partition::rows_of;
use crate::refusal::Refusal;
use crate::store::Store;
use crate::visible::Reader;
use std::io::{self, BufRead, BufReader, Read, Write};

/// The longest line, without its line end.
pub const LONGEST_LINE: usize = 16_384;
/// The bitmap that a session's scan lends: enough for any lot.
pub const SESSION_BITMAP: usize = 64;

pub struct Session {
    pub store: Store,
}

impl Default for Session {
    fn default() -> Session {
        Session { store: Store::new(1) }
    }
}

/// The call that a line is, if it is one. The line is given without its line end.
pub fn parse(line: &[u8]) -> Option<Call> {
    if line.len() > LONGEST_LINE {
        return None;
    }
    let words: Vec<&[u8]> = line.split(|&byte| byte == b' ').collect();
    let call = match words.as_slice() {
        [b"B"] => Call::Begin,
        [b"A", epoch, partition, rows @ ..] => {
            let rows = rows.iter().map(|row| number(row)).collect::<Option<_>>()?;
            Call::Append { epoch: number(epoch)?, partition: number(partition)?, rows }
        }
        [b"D", epoch, partition] => Call::Clear { epoch: number(epoch)?, partition: number(partition)? },
        [b"C", epoch] => Call::Commit { epoch: number(epoch)? },
        [b"X", epoch] => Call::Rollback { epoch: number(epoch)? },
        [b"R", epoch] => Call::Open { epoch: number(epoch)? },
        [b"E", ticket] => Call::Close { ticket: number(ticket)? },
        [b"L", target] => Call::MoveLse { target: number(target)? },
        [b"P", partition] => Call::Purge { partition: number(partition)? },
        [b"S", [b'l', epoch @ ..], partition] => {
            let reader = Reader::Rw(number(epoch)?);
            Call::Scan { reader, partition: number(partition)?, lent: SESSION_BITMAP }
        }
        [b"S", [b'p', ticket @ ..], partition] => {
            let reader = Reader::Ro(number(ticket)?);
            Call::Scan { reader, partition: number(partition)?, lent: SESSION_BITMAP }
        }
        _ => return None,
    };
    Some(call)
}

/// One or more decimal digits whose value fits 64 bits.
fn number(word: &[u8]) -> Option<u64> {
    if word.is_empty() {
        return None;
    }
    let mut value: u64 = 0;
    for byte in word {
        if !byte.is_ascii_digit() {
            return None;
        }
        value = value.checked_mul(10)?.checked_add(u64::from(byte - b'0'))?;
    }
    Some(value)
}

/// The line of a call; making new, saving and recovery have none.
pub fn line_of(call: &Call) -> Option<String> {
    let line = match call {
        Call::New { .. } | Call::Save { .. } | Call::Recover { .. } => return None,
        Call::Begin => "B".to_string(),
        Call::Append { epoch, partition, rows } => {
            let mut line = format!("A {epoch} {partition}");
            for row in rows {
                line.push_str(&format!(" {row}"));
            }
            line
        }
        Call::Clear { epoch, partition } => format!("D {epoch} {partition}"),
        Call::Commit { epoch } => format!("C {epoch}"),
        Call::Rollback { epoch } => format!("X {epoch}"),
        Call::Open { epoch } => format!("R {epoch}"),
        Call::Close { ticket } => format!("E {ticket}"),
        Call::MoveLse { target } => format!("L {target}"),
        Call::Purge { partition } => format!("P {partition}"),
        Call::Scan { reader: Reader::Rw(epoch), partition, .. } => format!("S l{epoch} {partition}"),
        Call::Scan { reader: Reader::Ro(ticket), partition, .. } => format!("S p{ticket} {partition}"),
    };
    Some(line)
}

/// The printed line of an answer, without its line end.
pub fn print(call: &Call, answer: &Result<Answer, Refusal>, store: &Store, bitmap: &[u8]) -> String {
    let letter = match call {
        Call::New { .. } => 'N',
        Call::Begin => 'B',
        Call::Append { .. } => 'A',
        Call::Clear { .. } => 'D',
        Call::Commit { .. } => 'C',
        Call::Rollback { .. } => 'X',
        Call::Open { .. } => 'R',
        Call::Close { .. } => 'E',
        Call::MoveLse { .. } => 'L',
        Call::Purge { .. } => 'P',
        Call::Scan { .. } => 'S',
        Call::Save { .. } => 'K',
        Call::Recover { .. } => 'V',
    };
    let mut line = format!("{letter} {}", number_of(answer));
    match (call, answer) {
        (_, Ok(Answer::Value(value))) => line.push_str(&format!(" {value}")),
        (_, Ok(Answer::Closed(closed))) => line.push_str(&format!(" {} {}", closed.lce, closed.oldest)),
        (_, Ok(Answer::Purged(purged))) => line.push_str(if purged.rewritten { " 1" } else { " 0" }),
        (Call::Scan { partition, .. }, Ok(Answer::Scanned(_))) => {
            let rows = rows_of(&store.manager.partitions.at[*partition as usize], &store.rows);
            for (at, row) in rows.iter().enumerate() {
                if bitmap[at / 8] >> (at % 8) & 1 == 1 {
                    line.push_str(&format!(" {row}"));
                }
            }
        }
        _ => {}
    }
    line
}

impl Session {
    /// Answers one line, given without its line end; so is the answer.
    pub fn answer(&mut self, line: &[u8]) -> String {
        let Some(call) = parse(line) else {
            return "?".to_string();
        };
        let mut bitmap = [0; SESSION_BITMAP];
        let answer = call.run(&mut self.store, &mut bitmap);
        print(&call, &answer, &self.store, &bitmap)
    }

    /// Answers line after line. Answers are passed on whenever no input is at hand.
    pub fn run<R: Read, W: Write>(&mut self, input: &mut BufReader<R>, output: &mut W) -> io::Result<()> {
        let mut line = Vec::new();
        while read_line(input, &mut line)? {
            output.write_all(self.answer(&line).as_bytes())?;
            output.write_all(b"\n")?;
            if input.buffer().is_empty() {
                output.flush()?;
            }
        }
        output.flush()
    }
}

/// Reads up to the next LF or the end. Of a line that is too long, one byte more than fits is kept.
/// Answers false where there is no line any more.
fn read_line(input: &mut impl BufRead, line: &mut Vec<u8>) -> io::Result<bool> {
    line.clear();
    let mut any = false;
    loop {
        let bytes = match input.fill_buf() {
            Ok(bytes) => bytes,
            Err(error) if error.kind() == io::ErrorKind::Interrupted => continue,
            Err(error) => return Err(error),
        };
        if bytes.is_empty() {
            return Ok(any);
        }
        any = true;
        let line_end = bytes.iter().position(|&byte| byte == b'\n');
        let part = line_end.unwrap_or(bytes.len());
        let room = LONGEST_LINE + 1 - line.len();
        line.extend_from_slice(&bytes[..part.min(room)]);
        input.consume(line_end.map_or(part, |at| at + 1));
        if line_end.is_some() {
            return Ok(true);
        }
    }
}
