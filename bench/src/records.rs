//! Times entry lines, and MX records from text to values and back.
use crate::codecs::plain as encodings;
use crate::names::plain as names;
use crate::rows::{Case, Rows};
use crate::splitting::plain as split;
use crate::strings::plain as strings;
use crate::symbols::plain::of_word;
use crate::texts;

mod library {
    extern "C" {
        pub fn bench_line(octets: *const u8, length: usize) -> usize;
        pub fn bench_mx(text: *const u8, length: usize) -> usize;
    }
}

/// Prints a line of a number, octets in base 16 and base 64, and a word.
fn line(octets: &[u8]) -> usize {
    let hex = encodings::encode_string(&encodings::Encoding::encoding16(), octets);
    let base64 = encodings::encode_string(&encodings::Encoding::encoding64(), octets);
    let text = strings::Shown {
        octets: &octets[..octets.len().min(255)],
        symbol: of_word,
        mark: "",
    };
    format!("{} {hex} {base64} {text}", octets.len().min(65_535)).len()
}

struct Exchange {
    preference: u16,
    name: Vec<u8>,
}

impl Exchange {
    fn read(tokens: &[String]) -> Option<Exchange> {
        let [preference, name] = tokens else {
            return None;
        };
        Some(Exchange {
            preference: preference.parse().ok()?,
            name: names::read(name).filter(|name| name.last() == Some(&0))?,
        })
    }
}

impl std::fmt::Display for Exchange {
    fn fmt(&self, f: &mut std::fmt::Formatter<'_>) -> std::fmt::Result {
        let name = names::Shown {
            octets: &self.name,
            symbol: names::zone,
            dot: true,
        };
        write!(f, "{} {name}", self.preference)
    }
}

fn exchanges(text: &[u8]) -> usize {
    let text = std::str::from_utf8(text).expect("text");
    let entries = split(text).expect("the text is of the grammar");
    let records = entries.iter().filter(|tokens| !tokens.is_empty());
    let len = |tokens: &Vec<String>| Exchange::read(tokens).expect("MX").to_string().len();
    records.map(len).sum()
}

pub fn add(rows: &mut Rows) {
    let octets = [16, 1024, 1 << 20].map(texts::random);
    rows.add("Records", "entry lines", || {
        octets.each_ref().map(|octets| {
            let call = library::bench_line;
            Case::new(
                octets.len(),
                move || unsafe { call(octets.as_ptr(), octets.len()) },
                move || line(octets),
            )
        })
    });
    let texts = [1, 100, 10_000].map(texts::exchanges);
    rows.add("Records", "MX from text to values and back", || {
        texts.each_ref().map(|text| {
            let call = library::bench_mx;
            Case::new(
                text.len(),
                move || unsafe { call(text.as_ptr(), text.len()) },
                move || exchanges(text),
            )
        })
    });
}
