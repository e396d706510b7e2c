//! Test rows: calls, inputs and expected results, separated by tabs.
use std::collections::BTreeSet;
use std::fs::read_to_string;
use std::panic::{catch_unwind, resume_unwind, AssertUnwindSafe};

/// The octets that a field spells: `%` and two hexadecimal digits are an octet.
pub fn octets_of(field: &str) -> Vec<u8> {
    let mut parts = field.split('%');
    let mut octets = parts.next().unwrap_or("").as_bytes().to_vec();
    for part in parts {
        octets.push(u8::from_str_radix(&part[..2], 16).unwrap());
        octets.extend_from_slice(&part.as_bytes()[2..]);
    }
    octets
}

/// Returns the rows of a crate's files, each with its file and line.
pub fn rows_of(folder: &str, names: &[&str]) -> Vec<(String, String)> {
    let top = env!("CARGO_MANIFEST_DIR");
    let mut rows = Vec::new();
    for name in names {
        let path = format!("crates/{folder}/{name}");
        let text = read_to_string(format!("{top}/../../{path}")).unwrap();
        for (number, line) in text.lines().enumerate() {
            if !line.is_empty() && !line.starts_with('#') {
                rows.push((format!("{path}:{}", number + 1), line.to_owned()));
            }
        }
    }
    rows
}

/// Checks a row. Prints file and line of a row that differs before the test fails.
fn judged(place: &str, line: &str, judge: impl FnOnce() -> bool) -> bool {
    catch_unwind(AssertUnwindSafe(judge)).unwrap_or_else(|why| {
        eprintln!("differs: {place}\n  row:    {line}");
        resume_unwind(why)
    })
}

/// Checks the rows of a crate, of its files `stdin` and `rows`. Prints the names of the calls that `judge` does not answer, and file and
/// line of each answered row if `LIST_ROWS` is set.
#[allow(dead_code)]
pub fn each_row(folder: &str, least: usize, mut judge: impl FnMut(&[&str]) -> bool) {
    let lists = std::env::var_os("LIST_ROWS").is_some();
    let mut count = 0;
    let mut others = BTreeSet::new();
    for (place, line) in rows_of(folder, &["stdin", "rows"]) {
        let fields: Vec<&str> = line.split('\t').collect();
        if judged(&place, &line, || judge(&fields)) {
            count += 1;
            if lists {
                println!("answered: {place}");
            }
        } else {
            others.insert(fields[0].to_owned());
        }
    }
    println!(
        "{count} rows agree; calls that are not the crate's, or not for all inputs: {others:?}"
    );
    assert!(count >= least, "{count} rows");
}
