//! The tables of times.

use crate::cases::Plan;
use crate::marks::{Row, MAKERS};
use crate::timing::{Cell, COLUMNS};
use crate::{nettle, ocb};

/// The columns, and the place of each among the times: the candidates, and then OCB with hardware.
const SHOWN: [(&str, usize); COLUMNS] = [
    ("us", 0),
    ("OCB", 1),
    ("OCB hw", 4),
    ("nettle", 2),
    ("tables", 3),
];

/// Three digits or so.
fn shown(x: f64) -> String {
    let digits = if x < 10.0 { 2 } else { usize::from(x < 100.0) };
    format!("{x:.digits$}")
}

/// A case's columns: nanoseconds a byte, or a message where it has none, and us beside OCB without hardware.
fn columns(cell: &Cell) -> Vec<String> {
    let times = cell.times();
    let bytes = cell.case.size.max(1) as f64;
    let each = SHOWN.iter().map(|(_, place)| shown(times[*place] / bytes));
    let mut words: Vec<String> = each.collect();
    words.push(format!("{:.2}", times[0] / times[1]));
    words
}

fn line(head: [&str; 2], columns: &[String]) {
    let columns: String = columns.iter().map(|c| format!(" {c:>8} |")).collect();
    println!("| {:>3} | {:>6} |{columns}", head[0], head[1]);
}

fn heading() {
    let mut words = Vec::new();
    for act in ["seal: ", "open: "] {
        words.extend(SHOWN.iter().map(|(name, _)| name.to_string()));
        words.push("us/OCB".to_string());
        let first = words.len() - SHOWN.len() - 1;
        words[first].insert_str(0, act);
    }
    line(["set", "bytes"], &words);
    println!("|{}", "---:|".repeat(2 + words.len()));
}

pub fn print(plan: &Plan, cells: &[Cell], features: &str) {
    println!("libgcrypt {}, nettle {}", ocb::version(), nettle::version());
    println!("hardware features of OCB hw: {features}\n");
    println!("OCB: libgcrypt without hardware. nettle, tables: only the block cipher.");
    println!("Nanoseconds a byte; of a message of 0 bytes, nanoseconds a message.");
    println!(
        "{} rounds; the median of the faster half of the samples.\n",
        plan.rounds
    );
    heading();
    for row in cells.chunks_exact(2) {
        let case = row[0].case;
        let words: Vec<String> = row.iter().flat_map(columns).collect();
        line(
            [&case.set.number.to_string(), &case.size.to_string()],
            &words,
        );
    }
}

fn mark_line(columns: &[String]) {
    let columns: String = columns.iter().map(|c| format!(" {c:>9} |")).collect();
    println!("|{columns}");
}

/// Nanoseconds a byte of each maker, and us beside each of the others.
fn mark_columns(row: &Row) -> Vec<String> {
    let (times, bytes) = (row.times(), row.size as f64);
    let mut words = vec![row.bits.to_string(), row.size.to_string()];
    words.extend(times.iter().map(|time| shown(time / bytes)));
    let beside = |time| format!("{:.2}", times[0] / time);
    words.extend(times[1..].iter().map(beside));
    words
}

pub fn print_marks(rows: &[Row]) {
    println!("\nMarks of 16 bytes by AES-CMAC; libgcrypt and nettle without hardware.");
    println!("Nanoseconds a byte of the log; rounds and samples as above.\n");
    let mut words = vec!["AES".to_string(), "bytes".to_string()];
    words.extend(MAKERS.iter().map(|maker| maker.name.to_string()));
    words.extend(MAKERS[1..].iter().map(|maker| format!("us/{}", maker.name)));
    mark_line(&words);
    println!("|{}", "---:|".repeat(words.len()));
    for row in rows {
        mark_line(&mark_columns(row));
    }
}
