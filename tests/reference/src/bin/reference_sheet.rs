//! The program: frames on standard input, answers on standard output.

use std::io::{self, BufWriter};

fn main() -> io::Result<()> {
    reference::frames::run(io::stdin().lock(), BufWriter::new(io::stdout().lock()))
}
