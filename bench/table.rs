//! The yardstick of a load: a plain program that makes a typed table of a CSV file without quotes, on std alone.
//!
//! `table_plain FILE` reads the file whole, takes the kinds that the columns are made with (two of whole numbers, two of
//! texts), keeps one vector of values a row, and says how many rows and columns there are.

use std::{env, fs, io};

#[allow(dead_code)]
enum Value {
    Int(i64),
    Text(String),
}

fn main() -> io::Result<()> {
    let file = env::args().nth(1).expect("a file");
    let text = fs::read_to_string(&file)?;
    let mut lines = text.lines();
    let columns = lines.next().expect("a header").split(',').count();
    let rows: Vec<Vec<Value>> = lines
        .map(|line| {
            line.split(',')
                .enumerate()
                .map(|(column, cell)| match column {
                    0 | 1 => Value::Int(cell.parse().expect("a number")),
                    _ => Value::Text(cell.to_string()),
                })
                .collect()
        })
        .collect();
    println!("1 loaded t rows {} columns {columns}", rows.len());
    Ok(())
}
