//! Document 01, "Session lines": answers the session on standard input, on standard output.

use std::io::{self, BufWriter};

fn main() -> io::Result<()> {
    second::session::run(io::stdin().lock(), BufWriter::new(io::stdout().lock()))
}
