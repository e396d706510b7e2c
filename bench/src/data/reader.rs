//! Parses the fields of RDATA from tokens, as one would write it by hand.
use super::digits::HEX;
use super::entries::Token;
use super::words::{algorithm, number, type_code};
use crate::codecs::plain::{decode_vec, Encoding};
use crate::symbols::plain::Symbol;
use crate::{names, strings};
use std::net::{Ipv4Addr, Ipv6Addr};
use std::slice;

/// Returns the octets that a text spells.
pub fn spelled(text: &str) -> Option<Vec<u8>> {
    let mut chars = text.chars();
    let mut octets = Vec::new();
    while let Some(symbol) = Symbol::next(&mut chars).ok()? {
        octets.push(symbol.octet()?);
    }
    Some(octets)
}

/// The remaining tokens, and the octets of those that were parsed.
pub struct Reader<'a, 't> {
    pub tokens: slice::Iter<'a, Token<'t>>,
    pub octets: &'a mut Vec<u8>,
}

impl<'t> Reader<'_, 't> {
    pub fn token(&mut self) -> Option<Token<'t>> {
        self.tokens.next().copied()
    }

    pub fn word(&mut self) -> Option<&'t str> {
        self.token().filter(|it| !it.quoted).map(|it| it.text)
    }

    pub fn number8(&mut self) -> Option<u8> {
        let value = number(self.word()?)?;
        self.octets.push(value);
        Some(value)
    }

    /// Parses a word that is a number of 16 bits.
    pub fn word16(&mut self, read: fn(&str) -> Option<u16>) -> Option<()> {
        let value = read(self.word()?)?;
        self.octets.extend(value.to_be_bytes());
        Some(())
    }

    pub fn number16(&mut self) -> Option<()> {
        self.word16(number)
    }

    /// Parses a word that is a number of 32 bits.
    pub fn word32(&mut self, read: fn(&str) -> Option<u32>) -> Option<()> {
        let value = read(self.word()?)?;
        self.octets.extend(value.to_be_bytes());
        Some(())
    }

    /// Parses a word of `COUNT` octets.
    pub fn array<const COUNT: usize>(
        &mut self,
        read: fn(&str) -> Option<[u8; COUNT]>,
    ) -> Option<()> {
        let octets = read(self.word()?)?;
        self.octets.extend(octets);
        Some(())
    }

    pub fn ipv4(&mut self) -> Option<()> {
        let address: Ipv4Addr = self.word()?.parse().ok()?;
        self.octets.extend(address.octets());
        Some(())
    }

    pub fn ipv6(&mut self) -> Option<()> {
        let address: Ipv6Addr = self.word()?.parse().ok()?;
        self.octets.extend(address.octets());
        Some(())
    }

    pub fn algorithm(&mut self) -> Option<()> {
        let value = algorithm(self.word()?)?;
        self.octets.push(value);
        Some(())
    }

    pub fn name(&mut self) -> Option<()> {
        let name = names::plain::read(self.word()?)?;
        self.octets.extend(&name);
        (name.last() == Some(&0)).then_some(())
    }

    pub fn string(&mut self) -> Option<()> {
        let string = strings::plain::read(self.token()?.text)?;
        self.octets.push(string.len() as u8);
        self.octets.extend(&string);
        Some(())
    }

    pub fn tag(&mut self) -> Option<()> {
        let tag = self.word()?.as_bytes();
        if tag.is_empty() || tag.len() > 255 || !tag.iter().all(u8::is_ascii_alphanumeric) {
            return None;
        }
        self.octets.push(tag.len() as u8);
        self.octets.extend(tag);
        Some(())
    }

    /// Appends the octets of an encoding, after their length.
    pub fn short(&mut self, encoding: &Encoding, word: &str) -> Option<()> {
        let octets = decode_vec(encoding, word)?;
        self.octets.push(u8::try_from(octets.len()).ok()?);
        self.octets.extend(&octets);
        Some(())
    }

    pub fn salt(&mut self) -> Option<()> {
        match self.word()? {
            "-" => {
                self.octets.push(0);
                Some(())
            }
            word => self.short(&HEX, word),
        }
    }

    /// Parses octets in an encoding up to the end, at least one.
    pub fn digits(&mut self, encoding: &Encoding) -> Option<usize> {
        let first = self.word()?;
        let octets = if self.tokens.len() == 0 {
            decode_vec(encoding, first)?
        } else {
            let mut joined = first.to_string();
            while self.tokens.len() > 0 {
                joined.push_str(self.word()?);
            }
            decode_vec(encoding, &joined)?
        };
        self.octets.extend(&octets);
        Some(octets.len()).filter(|count| *count > 0)
    }

    /// Parses a number, and the digest of that algorithm, whose length must fit.
    pub fn digest(&mut self, fits: fn(u8, usize) -> bool) -> Option<()> {
        let number = self.number8()?;
        let count = self.digits(&HEX)?;
        fits(number, count).then_some(())
    }

    pub fn types(&mut self) -> Option<()> {
        let mut codes = Vec::new();
        while self.tokens.len() > 0 {
            codes.push(type_code(self.word()?).filter(|code| *code > 0)?);
        }
        codes.sort_unstable();
        let mut rest = &codes[..];
        while let Some(first) = rest.first() {
            let window = first >> 8;
            let count = rest.iter().take_while(|code| *code >> 8 == window).count();
            let mut bits = [0u8; 32];
            for code in &rest[..count] {
                bits[usize::from(code & 255) / 8] |= 128 >> (code & 7);
            }
            let used = usize::from(rest[count - 1] & 255) / 8 + 1;
            self.octets.extend([window as u8, used as u8]);
            self.octets.extend(&bits[..used]);
            rest = &rest[count..];
        }
        Some(())
    }
}
