//! The tables, in plain text and in markdown.
use crate::memory::Peak;
use crate::rows::Row;
use std::fmt::Write;

/// Returns a number of octets, in words.
fn size(octets: usize) -> String {
    match octets {
        0..=9_999 => octets.to_string(),
        10_000..=9_999_999 => format!("{}k", octets / 1000),
        _ => format!("{}M", octets / 1_000_000),
    }
}

/// Returns a number with about two figures.
fn short(number: f64) -> String {
    match number {
        n if n < 9.995 => format!("{n:.2}"),
        n if n < 99.95 => format!("{n:.1}"),
        n => format!("{n:.0}"),
    }
}

pub fn plain(rows: &[Row]) -> String {
    let mut text = String::new();
    for row in rows {
        let name = format!("{}: {}", row.group, row.name);
        write!(text, "{name:<50}").unwrap();
        for place in 0..3 {
            let ratio = row.ours[place] / row.plain[place];
            let (ours, plain) = (short(row.ours[place]), short(row.plain[place]));
            let octets = size(row.octets[place]);
            write!(text, " | {octets:>7} {ours:>6} {plain:>6} {ratio:.2}").unwrap();
        }
        text.push('\n');
    }
    text
}

/// Returns three figures, one for each size.
fn slashed(figures: [String; 3]) -> String {
    figures.join("/")
}

pub fn markdown(rows: &[Row]) -> String {
    let mut text = String::from(
        "| Operation | octets | ns an octet | of the plain |\n\
         |---|---|---|---|\n",
    );
    let mut group = "";
    for row in rows {
        if row.group != group {
            group = row.group;
            writeln!(text, "| **{group}** | | | |").unwrap();
        }
        writeln!(
            text,
            "| {} | {} | {} | {} |",
            row.name,
            slashed(row.octets.map(size)),
            slashed(row.ours.map(short)),
            slashed(row.ratios().map(short)),
        )
        .unwrap();
    }
    text
}

/// Returns the texts that are split, as further rows of the same table: the time of the iterator
/// and of `split`.
pub fn texts(texts: &[(String, [f64; 3])]) -> String {
    let mut text = String::from("| **Zone text by kind: cursor/`split`** | | | |\n");
    for (name, [cursor, split, plain]) in texts {
        let (one, other) = (cursor / plain, split / plain);
        let (cursor, split) = (short(*cursor), short(*split));
        writeln!(
            text,
            "| {name} | | {cursor}/{split} | {one:.2}/{other:.2} |"
        )
        .unwrap();
    }
    text
}

pub fn memory(peaks: &[Peak]) -> String {
    let mut text = String::from("\n| Memory | text | peak beyond the text |\n|---|---|---|\n");
    for peak in peaks {
        let thousands = peak.beyond / 1000;
        writeln!(
            text,
            "| {} | {} | {} kB |",
            peak.name,
            size(peak.octets),
            thousands
        )
        .unwrap();
    }
    text
}
