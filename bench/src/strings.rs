//! Times character strings, parsed from text, and printed in three forms.
//!
//! 1 KiB and more are strings of 255 octets, one after another.
use crate::rows::{Case, Rows};
use crate::symbols::plain::Symbol;
use crate::texts;

mod library {
    extern "C" {
        pub fn dnstext_charstr_read(text: *const u8, length: usize) -> usize;
        pub fn dns_charstr_plain(octets: *const u8, length: usize) -> usize;
        pub fn dns_charstr_quoted(octets: *const u8, length: usize) -> usize;
        pub fn dns_charstr_unquoted(octets: *const u8, length: usize) -> usize;
    }
}

type Call = unsafe extern "C" fn(*const u8, usize) -> usize;

pub mod plain {
    //! A symbol for each octet, and each symbol through the formatter.
    use crate::symbols::plain::Symbol;
    use std::fmt;

    pub fn plain(octet: u8) -> Symbol {
        match octet {
            b'\\' => Symbol::SimpleEscape(octet),
            0x20..=0x7e => Symbol::Char(octet as char),
            _ => Symbol::DecimalEscape(octet),
        }
    }

    pub fn quoted(octet: u8) -> Symbol {
        match octet {
            b'"' | b'\\' => Symbol::SimpleEscape(octet),
            0x20..=0x7e => Symbol::Char(octet as char),
            _ => Symbol::DecimalEscape(octet),
        }
    }

    pub struct Shown<'a, S> {
        pub octets: &'a [u8],
        pub symbol: S,
        pub mark: &'static str,
    }

    impl<S: Fn(u8) -> Symbol> fmt::Display for Shown<'_, S> {
        fn fmt(&self, f: &mut fmt::Formatter<'_>) -> fmt::Result {
            f.write_str(self.mark)?;
            for octet in self.octets {
                fmt::Display::fmt(&(self.symbol)(*octet), f)?;
            }
            f.write_str(self.mark)
        }
    }

    /// Returns the octets of a text, if it has at most 255.
    pub fn read(text: &str) -> Option<Vec<u8>> {
        let mut chars = text.chars();
        let mut octets = Vec::new();
        while let Some(symbol) = Symbol::next(&mut chars).ok()? {
            octets.push(symbol.octet()?);
        }
        (octets.len() <= 255).then_some(octets)
    }
}

fn read(text: &[u8]) -> usize {
    let text = std::str::from_utf8(text).expect("text");
    plain::read(text).map_or(0, |octets| octets.len())
}

/// A row over strings of at most 255 octets.
fn printed(
    rows: &mut Rows,
    name: &str,
    octets: &[Vec<u8>; 3],
    call: Call,
    symbol: fn(u8) -> Symbol,
    mark: &'static str,
) {
    rows.add("Character strings", name, || {
        octets.each_ref().map(|octets| {
            let strings = || octets.chunks(255);
            Case::new(
                octets.len(),
                move || {
                    strings()
                        .map(|it| unsafe { call(it.as_ptr(), it.len()) })
                        .sum()
                },
                move || {
                    let shown = |octets| plain::Shown {
                        octets,
                        symbol,
                        mark,
                    };
                    strings().map(|it| shown(it).to_string().len()).sum()
                },
            )
        })
    });
}

pub fn add(rows: &mut Rows) {
    let sizes = [16, 1024, 1 << 20];
    for (kind, make) in [
        ("text", texts::words as fn(usize) -> Vec<u8>),
        ("random", texts::random),
    ] {
        let octets = sizes.map(make);
        let texts: [Vec<Vec<u8>>; 3] = octets
            .each_ref()
            .map(|octets| octets.chunks(255).map(texts::spelled).collect());
        rows.add("Character strings", &format!("from text, {kind}"), || {
            texts.each_ref().map(|texts| {
                let call = library::dnstext_charstr_read;
                Case::new(
                    texts.iter().map(Vec::len).sum(),
                    move || {
                        texts
                            .iter()
                            .map(|it| unsafe { call(it.as_ptr(), it.len()) })
                            .sum()
                    },
                    move || texts.iter().map(|it| read(it)).sum(),
                )
            })
        });
        let name = |form: &str| format!("{form}, {kind}");
        let call = library::dns_charstr_plain;
        printed(
            rows,
            &name("printed plain"),
            &octets,
            call,
            plain::plain,
            "",
        );
        let call = library::dns_charstr_quoted;
        printed(
            rows,
            &name("printed quoted"),
            &octets,
            call,
            plain::quoted,
            "\"",
        );
        let call = library::dns_charstr_unquoted;
        let word = crate::symbols::plain::of_word;
        printed(rows, &name("printed as words"), &octets, call, word, "");
    }
}
