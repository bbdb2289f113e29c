//! The yardstick of many runs: a plain program that reads the script and writes the same report, on std alone.
//!
//! `runs_plain FILE SCRIPT` reads a file of whole numbers and a script that prepares `SELECT c0 FROM t WHERE ..` with one
//! of the two conditions below, which it knows by heart, and whose other lines run it. Over the one column, which is
//! indexed, a run takes a range of the rows in the order of their numbers; over three columns it counts the rows that meet
//! each predicate and those that meet all, in one pass over the rows.

use std::io::{BufWriter, Write};
use std::{env, fs, io};

/// Which of three predicates on three columns a row meets, and whether all.
fn meets(row: &[i64], args: &[i64]) -> ([bool; 3], bool) {
    let each = [
        row[0] < args[0],
        row[1] >= args[1],
        args[2] <= row[2] && row[2] <= args[3],
    ];
    (each, each[0] && each[1] && each[2])
}

fn main() -> io::Result<()> {
    let mut words = env::args().skip(1);
    let text = fs::read_to_string(words.next().expect("a file"))?;
    let script = fs::read_to_string(words.next().expect("a script"))?;
    let mut lines = text.lines();
    let columns = lines.next().expect("a header").split(',').count();
    let mut cells: Vec<i64> = Vec::new();
    for line in lines {
        for cell in line.split(',') {
            cells.push(cell.parse().expect("a number"));
        }
    }
    let row_count = cells.len() / columns;

    let mut out = BufWriter::new(io::stdout().lock());
    writeln!(out, "1 loaded t rows {row_count} columns {columns}")?;
    let is_indexed = columns == 1;
    let mut in_order: Vec<usize> = Vec::new();
    if is_indexed {
        in_order = (0..row_count).collect();
        in_order.sort_by_key(|row| cells[*row]);
        writeln!(out, "2 indexed t c0")?;
    }
    let first_run = if is_indexed { 4 } else { 3 };
    let predicates = if is_indexed { 1 } else { 3 };
    writeln!(
        out,
        "{} prepared q tables 1 predicates {predicates} parameters {}",
        first_run - 1,
        predicates + 1
    )?;
    let mut found: Vec<i64> = Vec::new();
    for (i, line) in script.lines().skip(first_run - 1).enumerate() {
        let args: Vec<i64> = line
            .split(' ')
            .skip(2)
            .map(|word| word.parse().expect("a number"))
            .collect();
        let mut counts = [0_u64; 3];
        found.clear();
        if is_indexed {
            let low = in_order.partition_point(|row| cells[*row] < args[0]);
            let high = in_order.partition_point(|row| cells[*row] <= args[1]);
            let mut rows = in_order[low..high.max(low)].to_vec();
            rows.sort_unstable();
            counts[0] = rows.len() as u64;
            found.extend(rows.iter().map(|row| cells[*row]));
        } else {
            for row in cells.chunks_exact(columns) {
                let (each, all) = meets(row, &args);
                for (count, met) in counts.iter_mut().zip(each) {
                    *count += u64::from(met);
                }
                if all {
                    found.push(row[0]);
                }
            }
        }
        writeln!(out, "{} ran q execution {}", i + first_run, i + 1)?;
        // Reading all rows costs 1 for each; a range costs 1 for each binary digit of their number and 2 for each found.
        let all = row_count.max(1) as u128;
        let range = u128::from(row_count.max(1).ilog2() + 1) + 2 * u128::from(counts[0].max(1));
        let is_range = is_indexed && range < all;
        let cost = (if is_range { range } else { all }) << 40;
        let plan = if is_range { "range(t.c0,1)" } else { "seq(t)" };
        writeln!(out, "plan rows({plan})\ncost {cost}")?;
        write!(out, "at")?;
        for count in &counts[..predicates] {
            write!(out, " {}", count.max(&1))?;
        }
        writeln!(
            out,
            "\ncert {{\"kind\":\"optimum\",\"least\":\"{cost}\",\"table\":[{{\"any\":\"{cost}\",\"set\":1,\"sorted\":null}}]}}"
        )?;
        for value in &found {
            writeln!(out, "row {value}")?;
        }
        writeln!(out, "end {}", found.len())?;
    }
    out.flush()
}
