//! What `bench_operators` measures, in plain Rust on std alone. The words are those of `crates/bench_operators`.
use std::cmp::Reverse;
use std::collections::HashMap;
use std::env;
use std::hint::black_box;

const MILLION: u64 = 1_000_000;

/// A table of three columns of numbers, packed.
struct Table {
    columns: [Vec<i64>; 3],
}

impl Table {
    fn len(&self) -> usize {
        self.columns[0].len()
    }
}

/// The table of a CSV text; its columns are known to be numbers.
fn read(text: &str) -> Table {
    let mut columns = [Vec::new(), Vec::new(), Vec::new()];
    for line in text.lines().skip(1) {
        for (column, cell) in columns.iter_mut().zip(line.split(',')) {
            column.push(cell.parse().expect("a number"));
        }
    }
    Table { columns }
}

/// A cell that may be of either kind, as a table of any columns keeps it.
enum Cell {
    Int(i64),
    Text(Box<str>),
}

/// The cells of a CSV text behind its header, row after row; a cell that is no number is a text.
fn cells(text: &str) -> Vec<Cell> {
    let mut cells = Vec::new();
    for line in text.lines().skip(1) {
        for cell in line.split(',') {
            cells.push(match cell.parse() {
                Ok(number) => Cell::Int(number),
                Err(_) => Cell::Text(cell.into()),
            });
        }
    }
    cells
}

/// How many rows of three cells there are; the first of each is looked at.
fn rows_of_cells(cells: &[Cell]) -> u64 {
    let is_filled = |row: &&[Cell]| match &row[0] {
        Cell::Int(number) => *number >= 0,
        Cell::Text(text) => !text.is_empty(),
    };
    cells.chunks(3).filter(is_filled).count() as u64
}

fn customers() -> Vec<i64> {
    (1..1501).collect()
}

fn orders() -> Table {
    let (ids, days) = ((1..15001).collect(), (1..15001).map(|k| k % 1000).collect());
    Table { columns: [ids, (1..15001).map(|k| 7 * k % 1500 + 1).collect(), days] }
}

fn items() -> Table {
    let (orders, days) = ((0..60000).map(|k| k / 4 + 1).collect(), (0..60000).map(|k| (k + 1) % 1000).collect());
    Table { columns: [orders, (0..60000).map(|k| (k + 1) % 10 + 1).collect(), days] }
}

fn numbers(rows: u64) -> String {
    let mut text = String::from("a,b,c\n");
    for k in 0..rows {
        text.push_str(&format!("{},{},{}\n", k * 643 % MILLION, k * 40503 % MILLION, k * 7919 % MILLION));
    }
    text
}

fn groups() -> String {
    let mut text = String::from("g,h,v\n");
    for k in 0..MILLION {
        text.push_str(&format!("{},{},{}\n", k % 10, k * 7919 % 500_000, k * 643 % MILLION));
    }
    text
}

/// The rows of each key, of the rows whose day is in range.
fn by_key(keys: &[i64], days: &[i64], low: i64, high: i64) -> HashMap<i64, Vec<u32>> {
    let mut map: HashMap<i64, Vec<u32>> = HashMap::new();
    for (row, (key, day)) in keys.iter().zip(days).enumerate() {
        if low <= *day && *day <= high {
            map.entry(*key).or_default().push(row as u32);
        }
    }
    map
}

/// Customers with their orders and items, by two hash joins.
fn join(customers: &[i64], orders: &Table, items: &Table, low: i64, high: i64) -> Vec<[u32; 3]> {
    let orders_of = by_key(&orders.columns[1], &orders.columns[2], low, high);
    let mut pairs = Vec::new();
    for (customer, id) in customers.iter().enumerate() {
        for order in orders_of.get(id).into_iter().flatten() {
            pairs.push([customer as u32, *order]);
        }
    }
    let items_of = by_key(&items.columns[0], &items.columns[2], low, high);
    let mut combos = Vec::new();
    for [customer, order] in pairs {
        for item in items_of.get(&orders.columns[0][order as usize]).into_iter().flatten() {
            combos.push([customer, order, *item]);
        }
    }
    combos
}

/// How many customers there are with their orders and items, counted one at a time.
fn pulled_join(customers: &[i64], orders: &Table, items: &Table, low: i64, high: i64) -> u64 {
    let orders_of = by_key(&orders.columns[1], &orders.columns[2], low, high);
    let items_of = by_key(&items.columns[0], &items.columns[2], low, high);
    let mut count = 0;
    for id in customers {
        for order in orders_of.get(id).into_iter().flatten() {
            for item in items_of.get(&orders.columns[0][*order as usize]).into_iter().flatten() {
                count += u64::from(black_box(*item) < u32::MAX);
            }
        }
    }
    count
}

/// Half a million keys, and the group of each.
fn two_groups() -> (Vec<i64>, Vec<i64>) {
    ((1..500_001).collect(), (1..500_001).map(|k| k % 2).collect())
}

/// Pairs of equal keys, counted for each group, by a hash map or else by rows in the order of their keys.
fn counted_pairs(keys: &[i64], groups: &[i64], by_keys: &[u32], is_hashed: bool) -> Vec<(i64, u64)> {
    let rows_of = if is_hashed { by_key(keys, keys, i64::MIN, i64::MAX) } else { HashMap::new() };
    let mut counts: HashMap<i64, u64> = HashMap::new();
    for (key, group) in keys.iter().zip(groups) {
        let found = if is_hashed {
            rows_of.get(key).map_or(0, Vec::len)
        } else {
            let start = by_keys.partition_point(|row| keys[*row as usize] < *key);
            by_keys[start..].iter().take_while(|row| keys[**row as usize] == *key).count()
        };
        for _ in 0..found {
            *counts.entry(*group).or_default() += 1;
        }
    }
    let mut all: Vec<(i64, u64)> = counts.into_iter().collect();
    all.sort_unstable();
    all
}

/// The arguments of the statement of three predicates, as the compiler can't know them.
fn arguments() -> [i64; 4] {
    black_box([800000, 100000, 900000, 250000])
}

/// How many rows meet each of three predicates.
fn vector(t: &Table) -> u64 {
    let [below, low, high, least] = arguments();
    let [a, b, c] = &t.columns;
    let first = a.iter().filter(|v| **v < below).count();
    let second = b.iter().filter(|v| low <= **v && **v <= high).count();
    let third = c.iter().filter(|v| **v >= least).count();
    (first.max(1) + second.max(1) + third.max(1)) as u64
}

/// The same by the rows of three indexes.
fn vector_by_index(t: &Table, indexes: &[Vec<u32>; 3]) -> u64 {
    let [below, low, high, least] = arguments();
    let [a, b, c] = &t.columns;
    let [by_a, by_b, by_c] = indexes;
    let first = by_a.partition_point(|row| a[*row as usize] < below);
    let start = by_b.partition_point(|row| b[*row as usize] < low);
    let end = by_b.partition_point(|row| b[*row as usize] <= high);
    let third = by_c.len() - by_c.partition_point(|row| c[*row as usize] < least);
    (first.max(1) + (end - start).max(1) + third.max(1)) as u64
}

/// The rows that meet all three predicates.
fn scan(t: &Table) -> Vec<u32> {
    let [below, low, high, least] = arguments();
    let [a, b, c] = &t.columns;
    let meets = |row: &u32| {
        let row = *row as usize;
        a[row] < below && low <= b[row] && b[row] <= high && c[row] >= least
    };
    (0..t.len() as u32).filter(meets).collect()
}

/// The rows in the order of a column, by std's sort of pairs.
fn index(column: &[i64]) -> Vec<u32> {
    let mut pairs: Vec<(i64, u32)> = column.iter().enumerate().map(|(row, value)| (*value, row as u32)).collect();
    pairs.sort_unstable();
    pairs.into_iter().map(|(_, row)| row).collect()
}

/// For each value of a column in order: the value, how many rows have it, and their sum in another.
fn grouped(rows: &[u32], keys: &[i64], values: &[i64]) -> Vec<(i64, u64, i128)> {
    let mut map: HashMap<i64, (u64, i128)> = HashMap::new();
    for row in rows {
        let row = *row as usize;
        let (count, sum) = map.entry(keys[row]).or_default();
        *count += 1;
        *sum += i128::from(values[row]);
    }
    let mut all: Vec<(i64, u64, i128)> = map.into_iter().map(|(key, (count, sum))| (key, count, sum)).collect();
    all.sort_unstable();
    all
}

/// The rows by one column rising, then by another falling, then by their numbers.
fn sorted(rows: &[u32], first: &[i64], second: &[i64]) -> Vec<u32> {
    let mut rows = rows.to_vec();
    rows.sort_unstable_by_key(|row| (first[*row as usize], Reverse(second[*row as usize]), *row));
    rows
}

/// The sum of so many rounds.
fn rounds(count: u64, mut round: impl FnMut() -> u64) -> u64 {
    (0..count).fold(0, |sum: u64, _| sum.wrapping_add(black_box(round())))
}

fn measured(what: &str, count: u64) -> Option<u64> {
    Some(match what {
        "join" => {
            let (customers, orders, items) = (customers(), orders(), items());
            rounds(count, || join(&customers, &orders, &items, black_box(0), black_box(999)).len() as u64)
        }
        "pull" => {
            let (customers, orders, items) = (customers(), orders(), items());
            rounds(count, || pulled_join(&customers, &orders, &items, black_box(0), black_box(999)))
        }
        "hash_groups" | "pull_hash_groups" | "probe_groups" | "pull_probe_groups" => {
            let (keys, groups) = two_groups();
            let by_keys = index(&keys);
            let is_hashed = what.ends_with("hash_groups");
            rounds(count, || counted_pairs(&keys, &groups, &by_keys, is_hashed).len() as u64)
        }
        "vector" => {
            let t = read(&numbers(60_000));
            rounds(count, || vector(&t))
        }
        "vector_by_index" => {
            let t = read(&numbers(60_000));
            let indexes = [0, 1, 2].map(|column| index(&t.columns[column]));
            rounds(count, || vector_by_index(&t, &indexes))
        }
        "index" => {
            let t = read(&numbers(MILLION));
            rounds(count, || u64::from(index(&t.columns[1])[1]))
        }
        "load" => {
            let text = numbers(MILLION);
            rounds(count, || rows_of_cells(&cells(&text)))
        }
        "scan" => {
            let t = read(&numbers(MILLION));
            rounds(count, || scan(&t).len() as u64)
        }
        "count" => {
            let t = read(&numbers(MILLION));
            rounds(count, || vector(&t))
        }
        "all" | "few_groups" | "many_groups" | "sort" => {
            let t = read(&groups());
            let [g, h, v] = &t.columns;
            rounds(count, || {
                let rows: Vec<u32> = (0..t.len() as u32).collect();
                let shown = match what {
                    "all" => rows.len(),
                    "few_groups" => grouped(&rows, g, v).len(),
                    "many_groups" => grouped(&rows, h, v).len(),
                    _ => sorted(&rows, g, v).len(),
                };
                shown as u64
            })
        }
        _ => return None,
    })
}

fn main() {
    let words: Vec<String> = env::args().skip(1).collect();
    let [what, count] = words.as_slice() else {
        return println!("what is measured, and how often");
    };
    let count = count.parse().unwrap_or(0);
    match measured(what, count) {
        Some(sum) => println!("{what} {count} times: {sum}"),
        None => println!("nothing to measure"),
    }
}
