//! The yardstick of joins: a plain program that reads three tables and a script and writes the row lines, on std alone.
//!
//! `joins_plain sales SCRIPT` and `joins_plain zones SCRIPT` read the tables of one of the two statements below in their
//! folder; the lines `run q ..` of the script execute it. The program knows both by heart: its maps are made once, and each
//! run goes over the rows of the largest table.

use std::collections::{BTreeMap, HashMap};
use std::io::{BufWriter, Write};
use std::{env, fs, io};

/// The cells of a file, row by row, without its header.
fn rows(file: &str) -> io::Result<Vec<Vec<String>>> {
    let text = fs::read_to_string(file)?;
    Ok(text
        .lines()
        .skip(1)
        .map(|line| line.split(',').map(String::from).collect())
        .collect())
}

fn number(cell: &str) -> i64 {
    cell.parse().expect("a number")
}

/// The numbers of a file, row by row.
fn numbers<const N: usize>(file: &str) -> io::Result<Vec<[i64; N]>> {
    Ok(rows(file)?
        .iter()
        .map(|row| std::array::from_fn(|column| number(&row[column])))
        .collect())
}

/// The arguments of each run of a script.
fn runs(script: &str) -> impl Iterator<Item = Vec<i64>> + '_ {
    script
        .lines()
        .filter(|line| line.starts_with("run "))
        .map(|line| line.split(' ').skip(2).map(number).collect())
}

/// Writes the groups of a run: a key as it is shown, a count and a sum.
fn write_groups<K: Ord>(
    out: &mut impl Write,
    groups: &BTreeMap<K, (i64, i64)>,
    shown: impl Fn(&K) -> String,
) -> io::Result<()> {
    for (key, (count, sum)) in groups {
        writeln!(out, "row {},{count},{sum}", shown(key))?;
    }
    writeln!(out, "end {}", groups.len())
}

/// `SELECT c.region, COUNT(*), SUM(i.qty) FROM customers c JOIN orders o ON c.id = o.cid JOIN items i ON o.id = i.oid
/// WHERE o.day BETWEEN ? AND ? AND i.ship BETWEEN ? AND ? GROUP BY c.region ORDER BY c.region`
fn sales(script: &str, out: &mut impl Write) -> io::Result<()> {
    let regions: HashMap<i64, String> = rows("customers.csv")?
        .into_iter()
        .map(|row| (number(&row[0]), row[1].clone()))
        .collect();
    let orders = numbers::<3>("orders.csv")?;
    let items = numbers::<3>("items.csv")?;
    for args in runs(script) {
        let kept: HashMap<i64, i64> = orders
            .iter()
            .filter(|[_, _, day]| args[0] <= *day && *day <= args[1])
            .map(|[id, cid, _]| (*id, *cid))
            .collect();
        let mut groups: BTreeMap<&str, (i64, i64)> = BTreeMap::new();
        for [oid, qty, ship] in &items {
            if args[2] <= *ship && *ship <= args[3] {
                if let Some(region) = kept.get(oid).and_then(|cid| regions.get(cid)) {
                    let group = groups.entry(region).or_default();
                    group.0 += 1;
                    group.1 += qty;
                }
            }
        }
        write_groups(out, &groups, |region| format!("\"{region}\""))?;
    }
    Ok(())
}

/// `SELECT a.zone, COUNT(*), SUM(c.qty) FROM a, b, c WHERE a.id = b.aid AND b.id = c.bid AND b.day BETWEEN ? AND ? AND
/// c.qty < ? GROUP BY a.zone ORDER BY a.zone`
fn zones(script: &str, out: &mut impl Write) -> io::Result<()> {
    let zones: HashMap<i64, i64> = numbers::<2>("a.csv")?.into_iter().map(|[id, zone]| (id, zone)).collect();
    let b = numbers::<3>("b.csv")?;
    let c = numbers::<2>("c.csv")?;
    for args in runs(script) {
        let kept: HashMap<i64, i64> = b
            .iter()
            .filter(|[_, _, day]| args[0] <= *day && *day <= args[1])
            .map(|[id, aid, _]| (*id, *aid))
            .collect();
        let mut groups: BTreeMap<i64, (i64, i64)> = BTreeMap::new();
        for [bid, qty] in &c {
            if *qty < args[2] {
                if let Some(zone) = kept.get(bid).and_then(|aid| zones.get(aid)) {
                    let group = groups.entry(*zone).or_default();
                    group.0 += 1;
                    group.1 += qty;
                }
            }
        }
        write_groups(out, &groups, |zone| zone.to_string())?;
    }
    Ok(())
}

fn main() -> io::Result<()> {
    let mut words = env::args().skip(1);
    let statement = words.next().expect("a statement");
    let script = fs::read_to_string(words.next().expect("a script"))?;
    let mut out = BufWriter::new(io::stdout().lock());
    if statement == "sales" {
        sales(&script, &mut out)?;
    } else {
        zones(&script, &mut out)?;
    }
    out.flush()
}
