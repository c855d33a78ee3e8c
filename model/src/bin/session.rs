//! The line program on standard input and output (01, "A session").

use model::session::Session;
use std::io::{self, BufReader, BufWriter};

fn main() -> io::Result<()> {
    let mut input = BufReader::with_capacity(1 << 16, io::stdin().lock());
    let mut output = BufWriter::with_capacity(1 << 16, io::stdout().lock());
    Session::default().run(&mut input, &mut output)
}
