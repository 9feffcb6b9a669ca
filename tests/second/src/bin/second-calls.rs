//! Answers the call script on standard input, on standard output.

use std::io::{self, BufWriter};

fn main() -> io::Result<()> {
    second::script::run(io::stdin().lock(), BufWriter::new(io::stdout().lock()))
}
