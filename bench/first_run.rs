//! The yardstick of the first run: a plain program that writes the same report, on std alone.
//!
//! `first_run_plain FILE ARGUMENT..` reads the file whole, parses its numbers once, and for each argument counts the
//! numbers below it and writes them through one buffered writer.

use std::io::{BufWriter, Write};
use std::{env, fs, io};

fn main() -> io::Result<()> {
    let mut words = env::args().skip(1);
    let file = words.next().expect("a file");
    let arguments: Vec<i64> = words.map(|word| word.parse().expect("a number")).collect();

    let text = fs::read_to_string(&file)?;
    let mut lines = text.lines();
    let column = lines.next().expect("a header");
    let values: Vec<i64> = lines.map(|line| line.parse().expect("a number")).collect();

    let mut out = BufWriter::new(io::stdout().lock());
    writeln!(out, "1 loaded t rows {} columns 1", values.len())?;
    assert_eq!(column, "v");
    writeln!(out, "2 prepared q tables 1 predicates 1 parameters 1")?;
    for (i, argument) in arguments.iter().enumerate() {
        let count = values.iter().filter(|value| *value < argument).count();
        writeln!(out, "{} ran q execution {}", i + 3, i + 1)?;
        writeln!(out, "plan rows(seq(t))")?;
        let cost = (values.len().max(1) as u128) << 40;
        writeln!(out, "cost {cost}")?;
        writeln!(out, "at {}", count.max(1))?;
        writeln!(
            out,
            r#"cert {{"kind":"optimum","least":"{cost}","table":[{{"any":"{cost}","set":1,"sorted":null}}]}}"#
        )?;
        for value in values.iter().filter(|value| *value < argument) {
            writeln!(out, "row {value}")?;
        }
        writeln!(out, "end {count}")?;
    }
    out.flush()
}
