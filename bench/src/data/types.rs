//! Parses and prints the RDATA of each type, as one would write it by hand.
use super::digits::{BASE32HEX, BASE64, HEX};
use super::entries::Token;
use super::identifiers::{put_dashed, put_groups, read_dashed, read_groups};
use super::places::{print_location, print_prefix, read_location, read_prefix};
use super::printer::Printer;
use super::reader::{spelled, Reader};
use super::services::{print_params, read_params};
use super::words::{algorithm_text, certificate, certificate_text};
use super::words::{interval, number, time, time_text, type_code, type_text};
use crate::codecs::plain::encode_string;

impl Reader<'_, '_> {
    fn soa(&mut self) -> Option<()> {
        self.name()?;
        self.name()?;
        self.word32(number)?;
        (0..4).try_for_each(|_| self.word32(interval))
    }

    fn strings(&mut self) -> Option<()> {
        self.string()?;
        while self.tokens.len() > 0 {
            self.string()?;
        }
        Some(())
    }

    fn location(&mut self) -> Option<()> {
        let quoted = self.tokens.as_slice().iter().any(|it| it.quoted);
        let words = self.tokens.by_ref().map(|it| it.text);
        read_location(words, self.octets).filter(|()| !quoted)
    }

    fn naming(&mut self) -> Option<()> {
        self.number16()?;
        self.number16()?;
        (0..3).try_for_each(|_| self.string())?;
        self.name()
    }

    fn ds(&mut self) -> Option<()> {
        self.number16()?;
        self.algorithm()?;
        self.digest(|number, count| match number {
            1 => count == 20,
            2 => count == 32,
            4 => count == 48,
            _ => true,
        })
    }

    fn fingerprint(&mut self) -> Option<()> {
        self.number8()?;
        self.digest(|number, count| match number {
            1 => count == 20,
            2 => count == 32,
            _ => true,
        })
    }

    fn zone_set(&mut self) -> Option<()> {
        self.word32(number)?;
        self.number8()?;
        self.digest(|number, count| match number {
            1 => count == 48,
            2 => count == 64,
            _ => count >= 12,
        })
    }

    fn certificate(&mut self) -> Option<()> {
        self.word16(certificate)?;
        self.number16()?;
        self.algorithm()?;
        self.digits(&BASE64).map(|_| ())
    }

    fn gateway(&mut self) -> Option<()> {
        self.number8()?;
        let kind = self.number8()?;
        self.number8()?;
        match kind {
            0 => self.word().filter(|word| *word == ".").map(|_| ())?,
            1 => self.ipv4()?,
            2 => self.ipv6()?,
            3 => self.name()?,
            _ => return None,
        }
        self.digits(&BASE64).map(|_| ())
    }

    fn signature(&mut self) -> Option<()> {
        self.word16(type_code)?;
        self.algorithm()?;
        self.number8()?;
        self.word32(number)?;
        self.word32(time)?;
        self.word32(time)?;
        self.number16()?;
        self.name()?;
        self.digits(&BASE64).map(|_| ())
    }

    fn key(&mut self) -> Option<()> {
        self.number16()?;
        self.number8()?;
        self.algorithm()?;
        self.digits(&BASE64).map(|_| ())
    }

    /// Parses the parameters of the hash of names. Returns the algorithm.
    fn hashing(&mut self) -> Option<u8> {
        let algorithm = self.number8()?;
        self.number8()?;
        self.number16()?;
        self.salt()?;
        Some(algorithm)
    }

    fn hashed(&mut self) -> Option<()> {
        let algorithm = self.hashing()?;
        let at = self.octets.len();
        let word = self.word()?;
        self.short(&BASE32HEX, word)?;
        if algorithm == 1 && self.octets[at] != 20 {
            return None;
        }
        self.types()
    }

    fn association(&mut self) -> Option<()> {
        for _ in 0..3 {
            self.number8()?;
        }
        self.digits(&HEX).map(|_| ())
    }

    fn data(&mut self, code: u16) -> Option<()> {
        match code {
            1 => self.ipv4()?,
            2 | 5 | 7..=9 | 12 | 39 => self.name()?,
            6 => self.soa()?,
            13 => {
                self.string()?;
                self.string()?;
            }
            14 | 17 => {
                self.name()?;
                self.name()?;
            }
            15 | 18 | 21 | 36 | 107 => {
                self.number16()?;
                self.name()?;
            }
            16 | 99 => self.strings()?,
            25 | 48 | 60 => self.key()?,
            28 => self.ipv6()?,
            29 => self.location()?,
            33 => {
                (0..3).try_for_each(|_| self.number16())?;
                self.name()?;
            }
            35 => self.naming()?,
            37 => self.certificate()?,
            42 => {
                while self.tokens.len() > 0 {
                    read_prefix(self.word()?, self.octets)?;
                }
            }
            43 | 59 | 32_769 => self.ds()?,
            44 => self.fingerprint()?,
            45 => self.gateway()?,
            46 => self.signature()?,
            47 => {
                self.name()?;
                if self.tokens.len() == 0 {
                    return None;
                }
                self.types()?;
            }
            49 | 61 => self.digits(&BASE64).map(|_| ())?,
            50 => self.hashed()?,
            51 => self.hashing().map(|_| ())?,
            52 | 53 => self.association()?,
            62 => {
                self.word32(number)?;
                self.number16()?;
                self.types()?;
            }
            63 => self.zone_set()?,
            64 | 65 => {
                self.number16()?;
                self.name()?;
                read_params(&mut self.tokens, self.octets)?;
            }
            104 | 106 => {
                self.number16()?;
                self.array(read_groups)?;
            }
            105 => {
                self.number16()?;
                self.ipv4()?;
            }
            108 => self.array(read_dashed::<6>)?,
            109 => self.array(read_dashed::<8>)?,
            256 => {
                self.number16()?;
                self.number16()?;
                let target = self.token().filter(|it| it.quoted)?;
                self.octets.extend(spelled(target.text)?);
            }
            257 => {
                self.number8()?;
                self.tag()?;
                let value = spelled(self.token()?.text)?;
                self.octets.extend(&value);
            }
            _ => return None,
        }
        (self.tokens.len() == 0).then_some(())
    }
}

/// Appends the RDATA of a type that tokens spell.
pub fn read(code: u16, tokens: &[Token], octets: &mut Vec<u8>) -> Option<()> {
    let tokens = tokens.iter();
    Reader { tokens, octets }.data(code)
}

impl Printer<'_> {
    fn soa(&mut self) -> Option<()> {
        self.name()?;
        self.put(" ")?;
        self.name()?;
        for _ in 0..5 {
            let value = u32::from_be_bytes(self.array()?);
            self.put(format_args!(" {value}"))?;
        }
        Some(())
    }

    fn strings(&mut self) -> Option<()> {
        self.string()?;
        while !self.rest.is_empty() {
            self.put(" ")?;
            self.string()?;
        }
        Some(())
    }

    fn prefixes(&mut self) -> Option<()> {
        while !self.rest.is_empty() {
            self.rest = print_prefix(self.rest, self.text)?;
            if !self.rest.is_empty() {
                self.put(" ")?;
            }
        }
        Some(())
    }

    fn naming(&mut self) -> Option<()> {
        self.number16()?;
        self.number16()?;
        for _ in 0..3 {
            self.string()?;
            self.put(" ")?;
        }
        self.name()
    }

    fn certificate(&mut self) -> Option<()> {
        let kind = u16::from_be_bytes(self.array()?);
        match certificate_text(kind) {
            Some(name) => self.part(name)?,
            None => self.part(kind)?,
        }
        self.number16()?;
        let [algorithm] = self.array()?;
        match algorithm_text(algorithm) {
            Some(name) => self.part(name)?,
            None => self.part(algorithm)?,
        }
        self.digits(&BASE64)
    }

    fn gateway(&mut self) -> Option<()> {
        self.number8()?;
        let kind = *self.rest.first()?;
        self.number8()?;
        self.number8()?;
        match kind {
            0 => self.put(".")?,
            1 => self.ipv4()?,
            2 => self.ipv6()?,
            3 => self.name()?,
            _ => return None,
        }
        self.put(" ")?;
        self.digits(&BASE64)
    }

    fn signature(&mut self) -> Option<()> {
        let covered = u16::from_be_bytes(self.array()?);
        self.part(type_text(covered))?;
        self.number8()?;
        self.number8()?;
        self.number32()?;
        for _ in 0..2 {
            let time = u32::from_be_bytes(self.array()?);
            self.part(time_text(time))?;
        }
        self.number16()?;
        self.name()?;
        self.put(" ")?;
        self.digits(&BASE64)
    }

    fn key(&mut self) -> Option<()> {
        self.number16()?;
        self.number8()?;
        self.number8()?;
        self.digits(&BASE64)
    }

    fn hashing(&mut self) -> Option<()> {
        self.number8()?;
        self.number8()?;
        self.number16()?;
        match self.short()? {
            [] => self.put("-"),
            salt => self.put(encode_string(&HEX, salt)),
        }
    }

    fn hashed(&mut self) -> Option<()> {
        self.hashing()?;
        self.put(" ")?;
        let hash = self.short()?;
        self.put(encode_string(&BASE32HEX, hash))?;
        self.types()
    }

    fn data(&mut self, code: u16) -> Option<()> {
        match code {
            1 => self.ipv4()?,
            2 | 5 | 7..=9 | 12 | 39 => self.name()?,
            6 => self.soa()?,
            13 => {
                self.string()?;
                self.put(" ")?;
                self.string()?;
            }
            14 | 17 => {
                self.name()?;
                self.put(" ")?;
                self.name()?;
            }
            15 | 18 | 21 | 36 | 107 => {
                self.number16()?;
                self.name()?;
            }
            16 | 99 => self.strings()?,
            25 | 48 | 60 => self.key()?,
            28 => self.ipv6()?,
            29 => print_location(std::mem::take(&mut self.rest), self.text)?,
            33 => {
                (0..3).try_for_each(|_| self.number16())?;
                self.name()?;
            }
            35 => self.naming()?,
            37 => self.certificate()?,
            42 => self.prefixes()?,
            43 | 59 | 32_769 => {
                self.number16()?;
                self.number8()?;
                self.number8()?;
                self.digits(&HEX)?;
            }
            44 => {
                self.number8()?;
                self.number8()?;
                self.digits(&HEX)?;
            }
            45 => self.gateway()?,
            46 => self.signature()?,
            47 => {
                self.name()?;
                self.types()?;
            }
            49 | 61 => self.digits(&BASE64)?,
            50 => self.hashed()?,
            51 => self.hashing()?,
            52 | 53 => {
                (0..3).try_for_each(|_| self.number8())?;
                self.digits(&HEX)?;
            }
            62 => {
                self.number32()?;
                let flags = u16::from_be_bytes(self.array()?);
                self.put(flags)?;
                self.types()?;
            }
            63 => {
                self.number32()?;
                self.number8()?;
                self.number8()?;
                self.digits(&HEX)?;
            }
            64 | 65 => {
                self.number16()?;
                self.name()?;
                print_params(std::mem::take(&mut self.rest), self.text)?;
            }
            104 | 106 => {
                self.number16()?;
                put_groups(self.array()?, self.text)?;
            }
            105 => {
                self.number16()?;
                self.ipv4()?;
            }
            108 => put_dashed(&self.array::<6>()?, self.text)?,
            109 => put_dashed(&self.array::<8>()?, self.text)?,
            256 => {
                self.number16()?;
                self.number16()?;
                let target = std::mem::take(&mut self.rest);
                self.quoted(target)?;
            }
            257 => {
                self.number8()?;
                let tag = std::str::from_utf8(self.short()?).ok()?;
                self.part(tag)?;
                let value = std::mem::take(&mut self.rest);
                self.quoted(value)?;
            }
            _ => return None,
        }
        self.rest.is_empty().then_some(())
    }
}

/// Appends the RDATA of a type in presentation format.
pub fn print(code: u16, octets: &[u8], text: &mut String) -> Option<()> {
    let rest = octets;
    Printer { rest, text }.data(code)
}
