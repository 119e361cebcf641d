//! Reads the clip program's input from standard input and prints what the program must print.

use std::io::{self, BufWriter, Write};

fn main() -> io::Result<()> {
    let mut output = BufWriter::new(io::stdout().lock());
    compare::program::answer_all(io::stdin().lock(), &mut output)?;
    output.flush()
}
