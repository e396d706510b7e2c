//! Times names, parsed from presentation format and printed from wire format; and numbers, parsed
//! from tokens.
use crate::rows::{Case, Rows};
use crate::symbols::plain::Symbol;
use crate::texts;

mod library {
    extern "C" {
        pub fn dnstext_name_read(text: *const u8, length: usize) -> usize;
        pub fn dnstext_name_print(octets: *const u8, length: usize) -> usize;
        pub fn dnstext_name_print_dotted(octets: *const u8, length: usize) -> usize;
        pub fn dnstext_name_print_zone(octets: *const u8, length: usize) -> usize;
        pub fn dns_numbers_scan(text: *const u8, length: usize) -> usize;
    }
}

type Call = unsafe extern "C" fn(*const u8, usize) -> usize;

pub mod plain {
    //! Names label by label, and their octets one symbol after another through the formatter.
    use crate::symbols::plain::Symbol;
    use std::fmt;

    /// Parses a decimal number, a symbol at a time.
    pub fn number(text: &str) -> Option<u32> {
        let mut chars = text.chars();
        let mut value = 0u32;
        while let Some(symbol) = Symbol::next(&mut chars).ok()? {
            let digit = symbol.char()?.to_digit(10)?;
            value = value.checked_mul(10)?.checked_add(digit)?;
        }
        Some(value)
    }

    /// Returns the wire format of an absolute or a relative name.
    pub fn read(text: &str) -> Option<Vec<u8>> {
        if text == "." {
            return Some(vec![0]);
        }
        let mut octets = vec![0];
        let mut start = 0;
        let mut chars = text.chars();
        while let Some(symbol) = Symbol::next(&mut chars).ok()? {
            if let Symbol::Char('.') = symbol {
                let len = octets.len() - start - 1;
                if len == 0 {
                    return None;
                }
                start = octets.len();
                octets.push(0);
                continue;
            }
            octets.push(symbol.octet()?);
            octets[start] += 1;
            if octets[start] > 63 || octets.len() > 255 {
                return None;
            }
        }
        (octets.len() <= 255).then_some(octets)
    }

    pub fn label(octet: u8) -> Symbol {
        match octet {
            b' ' | b'.' | b'\\' => Symbol::SimpleEscape(octet),
            0x20..=0x7e => Symbol::Char(octet as char),
            _ => Symbol::DecimalEscape(octet),
        }
    }

    pub fn zone(octet: u8) -> Symbol {
        match octet {
            b'"' | b'$' | b'(' | b')' | b'.' | b';' | b'@' | b'\\' => Symbol::SimpleEscape(octet),
            b'!'..=b'~' => Symbol::Char(octet as char),
            _ => Symbol::DecimalEscape(octet),
        }
    }

    /// A name that ends in the root, for printing.
    pub struct Shown<'a> {
        pub octets: &'a [u8],
        pub symbol: fn(u8) -> Symbol,
        pub dot: bool,
    }

    impl fmt::Display for Shown<'_> {
        fn fmt(&self, f: &mut fmt::Formatter<'_>) -> fmt::Result {
            if self.octets == [0] {
                return f.write_str(".");
            }
            let mut rest = self.octets;
            while let [len, after @ ..] = rest {
                let (label, after) = after.split_at(usize::from(*len));
                let first = rest.len() == self.octets.len();
                if !first && (!label.is_empty() || self.dot) {
                    f.write_str(".")?;
                }
                for octet in label {
                    fmt::Display::fmt(&(self.symbol)(*octet), f)?;
                }
                rest = after;
            }
            Ok(())
        }
    }
}

fn read(text: &[u8]) -> usize {
    let text = std::str::from_utf8(text).expect("text");
    plain::read(text).map_or(0, |octets| octets.len())
}

/// Returns labels of `label` octets, and the root, at most `octets` in total.
fn wire(octets: usize, label: usize, make: fn(usize) -> Vec<u8>) -> Vec<u8> {
    let mut wire = Vec::new();
    let letters = make(octets);
    for label in letters[..octets - 1 - octets / (label + 1)].chunks(label) {
        wire.push(label.len() as u8);
        wire.extend_from_slice(label);
    }
    wire.push(0);
    wire.truncate(255);
    wire
}

fn text_of(wire: &[u8]) -> Vec<u8> {
    let shown = plain::Shown {
        octets: wire,
        symbol: plain::label,
        dot: true,
    };
    shown.to_string().into_bytes()
}

fn printed(
    rows: &mut Rows,
    name: &str,
    names: &[Vec<u8>; 3],
    call: Call,
    symbol: fn(u8) -> Symbol,
    dot: bool,
) {
    rows.add("Names", name, || {
        names.each_ref().map(|octets| {
            Case::new(
                octets.len(),
                move || unsafe { call(octets.as_ptr(), octets.len()) },
                move || {
                    let shown = plain::Shown {
                        octets,
                        symbol,
                        dot,
                    };
                    shown.to_string().len()
                },
            )
        })
    });
}

pub fn add(rows: &mut Rows) {
    let kinds = [
        ("host names", 7, texts::letters as fn(usize) -> Vec<u8>),
        ("labels of one letter", 1, texts::letters),
        ("random", 7, texts::random),
    ];
    for (kind, label, make) in kinds {
        let names = [16, 64, 254].map(|octets| wire(octets, label, make));
        let texts = names.each_ref().map(|it| text_of(it));
        rows.add("Names", &format!("from text, {kind}"), || {
            texts.each_ref().map(|text| {
                let call = library::dnstext_name_read;
                Case::new(
                    text.len(),
                    move || unsafe { call(text.as_ptr(), text.len()) },
                    move || read(text),
                )
            })
        });
        let name = |form: &str| format!("{form}, {kind}");
        let call = library::dnstext_name_print;
        printed(rows, &name("printed"), &names, call, plain::label, false);
        let call = library::dnstext_name_print_dotted;
        printed(
            rows,
            &name("printed with dot"),
            &names,
            call,
            plain::label,
            true,
        );
        let call = library::dnstext_name_print_zone;
        printed(
            rows,
            &name("printed for zone text"),
            &names,
            call,
            plain::zone,
            true,
        );
    }
    let numbers = [2, 100, 100_000].map(texts::numbers);
    rows.add("Numbers", "scanned, one a token", || {
        numbers.each_ref().map(|text| {
            let call = library::dns_numbers_scan;
            Case::new(
                text.len(),
                move || unsafe { call(text.as_ptr(), text.len()) },
                move || {
                    let text = std::str::from_utf8(text).expect("text");
                    let number = |line: &str| plain::number(line).expect("a number") as usize;
                    text.lines().map(number).sum()
                },
            )
        })
    });
}
