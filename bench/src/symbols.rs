//! Times symbols: parsing a text, and printing octets symbol by symbol.
use crate::rows::{Case, Rows};
use crate::texts;

mod library {
    extern "C" {
        pub fn dns_symbols_read(text: *const u8, length: usize) -> usize;
        pub fn dns_symbols_print(octets: *const u8, length: usize) -> usize;
    }
}

pub mod plain {
    //! A symbol at a time, each through the formatter.
    use std::fmt::{self, Write};

    #[derive(Clone, Copy)]
    pub enum Symbol {
        Char(char),
        SimpleEscape(u8),
        DecimalEscape(u8),
    }

    impl fmt::Display for Symbol {
        fn fmt(&self, f: &mut fmt::Formatter<'_>) -> fmt::Result {
            match *self {
                Symbol::Char(c) => write!(f, "{c}"),
                Symbol::SimpleEscape(octet) => write!(f, "\\{}", octet as char),
                Symbol::DecimalEscape(octet) => write!(f, "\\{octet:03}"),
            }
        }
    }

    impl Symbol {
        /// Returns the next symbol of some characters, `None` at their end, or an error for a bad
        /// escape.
        pub fn next(chars: &mut std::str::Chars) -> Result<Option<Symbol>, ()> {
            let Some(first) = chars.next() else {
                return Ok(None);
            };
            if first != '\\' {
                return Ok(Some(Symbol::Char(first)));
            }
            match chars.next().ok_or(())? {
                digit @ '0'..='9' => {
                    let mut value = digit as u32 - '0' as u32;
                    for _ in 0..2 {
                        let digit = chars.next().and_then(|c| c.to_digit(10)).ok_or(())?;
                        value = value * 10 + digit;
                    }
                    let octet = u8::try_from(value).map_err(|_| ())?;
                    Ok(Some(Symbol::DecimalEscape(octet)))
                }
                c @ ' '..='~' => Ok(Some(Symbol::SimpleEscape(c as u8))),
                _ => Err(()),
            }
        }

        pub fn octet(self) -> Option<u8> {
            match self {
                Symbol::Char(c @ ' '..='~') => Some(c as u8),
                Symbol::Char(_) => None,
                Symbol::SimpleEscape(octet) | Symbol::DecimalEscape(octet) => Some(octet),
            }
        }

        pub fn char(self) -> Option<char> {
            match self {
                Symbol::Char(c) => Some(c),
                Symbol::SimpleEscape(octet) => Some(octet as char),
                Symbol::DecimalEscape(_) => None,
            }
        }
    }

    pub fn of_word(octet: u8) -> Symbol {
        match octet {
            b' ' | b'"' | b'\\' | b';' | b'(' | b')' => Symbol::SimpleEscape(octet),
            0x20..=0x7e => Symbol::Char(octet as char),
            _ => Symbol::DecimalEscape(octet),
        }
    }

    pub fn read(text: &[u8]) -> usize {
        let mut chars = std::str::from_utf8(text).expect("text").chars();
        let mut sum = 0;
        while let Ok(Some(symbol)) = Symbol::next(&mut chars) {
            sum += symbol.octet().map_or(0, usize::from);
        }
        sum
    }

    pub fn print(octets: &[u8]) -> usize {
        let mut text = String::new();
        for octet in octets {
            write!(text, "{}", of_word(*octet)).expect("a string takes all");
        }
        text.len()
    }
}

pub fn add(rows: &mut Rows) {
    let sizes = [16, 1024, 1 << 20];
    for (kind, make) in [
        ("text", texts::words as fn(usize) -> Vec<u8>),
        ("random", texts::random),
    ] {
        let octets = sizes.map(make);
        let spelled = octets.each_ref().map(|octets| texts::spelled(octets));
        rows.add("Symbols", &format!("read, {kind}"), || {
            spelled.each_ref().map(|text| {
                Case::new(
                    text.len(),
                    || unsafe { library::dns_symbols_read(text.as_ptr(), text.len()) },
                    || plain::read(text),
                )
            })
        });
        rows.add("Symbols", &format!("printed one by one, {kind}"), || {
            octets.each_ref().map(|octets| {
                Case::new(
                    octets.len(),
                    || unsafe { library::dns_symbols_print(octets.as_ptr(), octets.len()) },
                    || plain::print(octets),
                )
            })
        });
    }
}
