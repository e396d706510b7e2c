//! Times the RDATA of a type, from presentation format to octets and back.
mod digits;
mod entries;
mod identifiers;
mod lines;
mod places;
mod printer;
mod reader;
mod services;
mod types;
mod words;
mod zones;

use crate::rows::{Case, Rows};

mod library {
    extern "C" {
        pub fn bench_data_read(text: *const u8, length: usize, code: u16) -> usize;
        pub fn bench_data_print(octets: *const u8, length: usize, code: u16) -> usize;
        pub fn bench_zone_read(text: *const u8, length: usize) -> usize;
    }
}

/// Returns the sum of octets.
fn sum_of(octets: &[u8]) -> usize {
    octets.iter().map(|octet| usize::from(*octet)).sum()
}

/// Parses the RDATA in the lines of a text, and appends each after its length in two octets.
fn read(code: u16, text: &[u8]) -> Option<Vec<u8>> {
    let text = std::str::from_utf8(text).ok()?;
    let (mut tokens, mut octets) = (Vec::new(), Vec::new());
    let mut at = 0;
    while at < text.len() {
        at = entries::entry(text, at, &mut tokens)?;
        if tokens.is_empty() {
            continue;
        }
        let begun = octets.len();
        octets.extend([0, 0]);
        types::read(code, &tokens, &mut octets)?;
        let length = u16::try_from(octets.len() - begun - 2).ok()?;
        octets[begun..begun + 2].copy_from_slice(&length.to_be_bytes());
    }
    Some(octets)
}

/// Prints RDATA, each of which follows its length, as lines.
fn print(code: u16, octets: &[u8]) -> Option<String> {
    let mut text = String::new();
    let mut rest = octets;
    while let [high, low, behind @ ..] = rest {
        let length = usize::from(u16::from_be_bytes([*high, *low]));
        let (octets, after) = behind.split_at_checked(length)?;
        types::print(code, octets, &mut text)?;
        text.push('\n');
        rest = after;
    }
    Some(text)
}

pub fn add(rows: &mut Rows) {
    for kind in &lines::KINDS {
        let code = kind.code;
        let texts = [1, 100, 10_000].map(|count| kind.lines(count));
        let octets = texts
            .each_ref()
            .map(|text| read(code, text).expect(kind.name));
        rows.add(
            "Record data",
            &format!("{}, text to octets", kind.name),
            || {
                texts.each_ref().map(|text| {
                    let call = library::bench_data_read;
                    Case::new(
                        text.len(),
                        move || unsafe { call(text.as_ptr(), text.len(), code) },
                        move || read(code, text).map_or(0, |octets| sum_of(&octets)),
                    )
                })
            },
        );
        rows.add(
            "Record data",
            &format!("{}, octets to text", kind.name),
            || {
                octets.each_ref().map(|octets| {
                    let call = library::bench_data_print;
                    Case::new(
                        octets.len(),
                        move || unsafe { call(octets.as_ptr(), octets.len(), code) },
                        move || print(code, octets).map_or(0, |text| sum_of(text.as_bytes())),
                    )
                })
            },
        );
    }
    let texts = [1, 100, 10_000].map(zones::text);
    rows.add("Record data", "a zone file, text to records", || {
        texts.each_ref().map(|text| {
            let call = library::bench_zone_read;
            Case::new(
                text.len(),
                move || unsafe { call(text.as_ptr(), text.len()) },
                move || zones::read(text).unwrap_or(0),
            )
        })
    });
}
