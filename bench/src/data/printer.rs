//! Prints the fields of RDATA from octets, as one would write it by hand.
use super::words::type_text;
use crate::codecs::plain::{encode_string, Encoding};
use crate::symbols::plain::Symbol;
use crate::{names, strings};
use std::fmt::{Display, Write};
use std::net::{Ipv4Addr, Ipv6Addr};

/// The remaining octets, and the text of those that were printed.
pub struct Printer<'a> {
    pub rest: &'a [u8],
    pub text: &'a mut String,
}

fn of_label(octet: u8) -> Symbol {
    match octet {
        b'"' | b'$' | b'(' | b')' | b'.' | b';' | b'@' | b'\\' => Symbol::SimpleEscape(octet),
        b'!'..=b'~' => Symbol::Char(octet as char),
        _ => Symbol::DecimalEscape(octet),
    }
}

impl<'a> Printer<'a> {
    pub fn take(&mut self, count: usize) -> Option<&'a [u8]> {
        let (front, rest) = self.rest.split_at_checked(count)?;
        self.rest = rest;
        Some(front)
    }

    /// Returns the octets of an array.
    pub fn array<const COUNT: usize>(&mut self) -> Option<[u8; COUNT]> {
        self.take(COUNT)?.try_into().ok()
    }

    /// Returns octets after their length.
    pub fn short(&mut self) -> Option<&'a [u8]> {
        let [length] = self.array()?;
        self.take(usize::from(length))
    }

    pub fn put(&mut self, value: impl Display) -> Option<()> {
        write!(self.text, "{value}").ok()
    }

    /// Prints a value and a blank.
    pub fn part(&mut self, value: impl Display) -> Option<()> {
        write!(self.text, "{value} ").ok()
    }

    pub fn number8(&mut self) -> Option<()> {
        let [value] = self.array()?;
        self.part(value)
    }

    pub fn number16(&mut self) -> Option<()> {
        let value = u16::from_be_bytes(self.array()?);
        self.part(value)
    }

    pub fn number32(&mut self) -> Option<()> {
        let value = u32::from_be_bytes(self.array()?);
        self.part(value)
    }

    pub fn ipv4(&mut self) -> Option<()> {
        let address = Ipv4Addr::from(self.array::<4>()?);
        self.put(address)
    }

    pub fn ipv6(&mut self) -> Option<()> {
        let address = Ipv6Addr::from(self.array::<16>()?);
        self.put(address)
    }

    pub fn name(&mut self) -> Option<()> {
        let mut width = 0;
        loop {
            let length = *self.rest.get(width)?;
            width += 1 + usize::from(length);
            if length > 63 || width > 255 || width > self.rest.len() {
                return None;
            }
            if length == 0 {
                break;
            }
        }
        let octets = self.take(width)?;
        let symbol = of_label;
        let dot = true;
        self.put(names::plain::Shown {
            octets,
            symbol,
            dot,
        })
    }

    pub fn quoted(&mut self, octets: &[u8]) -> Option<()> {
        let symbol = strings::plain::quoted;
        let mark = "\"";
        self.put(strings::plain::Shown {
            octets,
            symbol,
            mark,
        })
    }

    pub fn string(&mut self) -> Option<()> {
        let string = self.short()?;
        self.quoted(string)
    }

    /// Prints octets in an encoding up to the end, at least one.
    pub fn digits(&mut self, encoding: &Encoding) -> Option<()> {
        let octets = std::mem::take(&mut self.rest);
        self.put(encode_string(encoding, octets))?;
        (!octets.is_empty()).then_some(())
    }

    /// Prints types, each after a blank.
    pub fn types(&mut self) -> Option<()> {
        while !self.rest.is_empty() {
            let [window] = self.array()?;
            for (place, octet) in self.short()?.iter().enumerate() {
                for bit in (0..8).filter(|bit| octet & 128 >> bit != 0) {
                    let code = usize::from(window) * 256 + place * 8 + bit;
                    self.put(" ")?;
                    self.put(type_text(code as u16))?;
                }
            }
        }
        Some(())
    }
}
