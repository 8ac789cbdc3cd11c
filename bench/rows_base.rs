//! What `row_figures` does, in plain Rust over bytes of the same layout: rows of 57 bytes (a mask, a hash, two numbers of 8
//! bytes and two texts of 16), whose long texts lie in other bytes. `rows_base COLUMN ROUNDS` reads a column of 4,000 rows so
//! often; `rows_base write ROUNDS` writes 50,000 rows of 41 bytes, `rows_base copy ROUNDS` copies them one by one, and
//! `rows_base pages ROUNDS` copies their pages.
use std::hint::black_box;

const PAGE: usize = 262144;

fn word(bytes: &[u8], at: usize) -> u64 {
    u64::from_le_bytes(bytes[at..at + 8].try_into().unwrap())
}

fn length(bytes: &[u8], at: usize) -> usize {
    u32::from_le_bytes(bytes[at..at + 4].try_into().unwrap()) as usize
}

fn read(rows: &[u8], heap: &[u8], column: u64) -> u64 {
    let mut sum = 0u64;
    for row in 0..4000 {
        let at = 128 + row * 57 + 9;
        if rows[at - 9] >> column & 1 == 1 {
            continue;
        }
        sum = sum.wrapping_add(match column {
            0 => word(rows, at),
            1 => word(rows, at + 8),
            2 => {
                let text = &rows[at + 20..at + 20 + length(rows, at + 16)];
                u64::from(text[text.len() - 1])
            }
            _ => {
                let from = word(rows, at + 40) as usize;
                let text = &heap[from..from + length(rows, at + 32)];
                u64::from(text[text.len() - 1])
            }
        });
    }
    sum
}

enum Value {
    Number { digits: i128, scale: u8 },
    Text(Vec<u8>),
}

fn row_of(digits: u32) -> Vec<Value> {
    let digits = i128::from(digits);
    vec![
        Value::Number { digits, scale: 0 },
        Value::Number { digits, scale: 2 },
        Value::Text(b"abcdefgh".to_vec()),
    ]
}

const WIDTH: usize = 41;
const ON_PAGE: usize = (PAGE - 128) / WIDTH;

// The place of the next row, on a new page where the last one is full.
fn next_place(pages: &mut Vec<Vec<u8>>, count: usize) -> &mut [u8] {
    let on_page = count % ON_PAGE;
    if on_page == 0 {
        pages.push(vec![0u8; PAGE]);
    }
    let at = 128 + on_page * WIDTH;
    &mut pages.last_mut().unwrap()[at..at + WIDTH]
}

// A mask, a hash, and a cell for each value: numbers of the column's scale, and texts of at most 12 bytes.
fn write_row(place: &mut [u8], scales: &[u8], row: &[Value], hash: u64) -> bool {
    place[1..9].copy_from_slice(&hash.to_le_bytes());
    let mut at = 9;
    for (value, wanted) in row.iter().zip(scales) {
        match value {
            Value::Number { digits, scale } => {
                let Ok(number) = i64::try_from(*digits) else {
                    return false;
                };
                if scale != wanted {
                    return false;
                }
                place[at..at + 8].copy_from_slice(&number.to_le_bytes());
                at += 8;
            }
            Value::Text(text) => {
                if text.len() > 12 {
                    return false;
                }
                place[at..at + 4].copy_from_slice(&(text.len() as u32).to_le_bytes());
                place[at + 4..at + 4 + text.len()].copy_from_slice(text);
                at += 16;
            }
        }
    }
    true
}

fn write(rows: &[Vec<Value>]) -> Vec<Vec<u8>> {
    let mut pages = Vec::new();
    let scales = black_box([0, 2, 0]);
    for (count, row) in rows.iter().enumerate() {
        if !write_row(next_place(&mut pages, count), &scales, row, count as u64) {
            return pages;
        }
    }
    pages
}

fn copy(set: &[Vec<u8>], rows: usize) -> Vec<Vec<u8>> {
    let mut pages = Vec::new();
    for count in 0..rows {
        let at = 128 + count % ON_PAGE * WIDTH;
        next_place(&mut pages, count).copy_from_slice(&set[count / ON_PAGE][at..at + WIDTH]);
    }
    pages
}

// How many pages so many rounds make.
fn make(rounds: u32, one: impl Fn() -> Vec<Vec<u8>>) -> u64 {
    (0..rounds).map(|_| black_box(one()).len() as u64).sum()
}

fn main() {
    let words: Vec<String> = std::env::args().collect();
    let rounds: u32 = words[2].parse().unwrap();
    let mut rows = vec![0u8; PAGE];
    let mut heap = vec![0u8; PAGE];
    for row in 0..4000usize {
        let at = 128 + row * 57 + 9;
        rows[at..at + 8].copy_from_slice(&(row as u64).to_le_bytes());
        rows[at + 8..at + 16].copy_from_slice(&(row as u64).to_le_bytes());
        rows[at + 16] = 8;
        rows[at + 20..at + 28].copy_from_slice(b"abcdefgh");
        rows[at + 32] = 24;
        let from = 64 + row * 24;
        rows[at + 40..at + 48].copy_from_slice(&(from as u64).to_le_bytes());
        heap[from..from + 24].copy_from_slice(b"abcdefghijklmnopqrstuvwx");
    }
    let mut sum = 0u64;
    if let Ok(column) = words[1].parse() {
        for _ in 0..rounds {
            sum = sum.wrapping_add(read(black_box(&rows), black_box(&heap), column));
        }
    } else {
        let values: Vec<Vec<Value>> = (0..50000).map(row_of).collect();
        let set = write(&values);
        sum = match words[1].as_str() {
            "write" => make(rounds, || write(black_box(&values))),
            "copy" => make(rounds, || copy(black_box(&set), 50000)),
            _ => make(rounds, || black_box(&set).clone()),
        };
    }
    println!("{sum}");
}
