//! What the bench's queries take in plain Rust: the file is read whole, its rows are parsed into a list, and the list is
//! filtered, or sorted and cut.
use std::fmt::Write;

struct Row {
    id: i32,
    /// In hundredths.
    amount: i64,
    name: String,
}

fn amount(text: &str) -> i64 {
    let (whole, part) = text.split_once('.').unwrap_or((text, "0"));
    whole.parse::<i64>().unwrap() * 100 + part.parse::<i64>().unwrap()
}

fn row(line: &str) -> Row {
    let mut fields = line.split(',');
    Row {
        id: fields.next().unwrap().parse().unwrap(),
        amount: amount(fields.next().unwrap()),
        name: fields.next().unwrap().to_string(),
    }
}

fn filter(rows: &[Row]) {
    let mut text = String::from("id,name\n");
    for row in rows.iter().filter(|row| row.amount < 5_000_000) {
        writeln!(text, "{},{}", row.id, row.name).unwrap();
    }
    println!("{text}");
}

fn order(rows: &mut [Row]) {
    rows.sort_by(|a, b| b.amount.cmp(&a.amount).then(a.id.cmp(&b.id)));
    let mut text = String::from("id,amount,name\n");
    for row in rows.iter().take(1000) {
        let (whole, part) = (row.amount / 100, row.amount % 100);
        writeln!(text, "{},{whole}.{part:02},{}", row.id, row.name).unwrap();
    }
    println!("{text}");
}

fn main() {
    let text = std::fs::read_to_string("t.csv").unwrap();
    let mut rows: Vec<Row> = text.lines().skip(1).map(row).collect();
    match std::env::args().nth(1).as_deref() {
        Some("filter") => filter(&rows),
        Some("order") => order(&mut rows),
        _ => {}
    }
}
