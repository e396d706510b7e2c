//! Times the encodings, against plain table-driven ones.
use crate::rows::{Case, Rows};
use crate::texts;
use std::cell::RefCell;

mod library {
    use super::{Call, Slices};

    extern "C" {
        fn bench_base16_encode(from: *const u8, len: usize, to: *mut u8, room: usize) -> usize;
        fn bench_base16_decode(from: *const u8, len: usize, to: *mut u8, room: usize) -> usize;
        fn bench_base16_encode_string(from: *const u8, len: usize) -> usize;
        fn bench_base16_decode_vec(from: *const u8, len: usize) -> usize;
        fn bench_base16_scan(from: *const u8, len: usize) -> usize;
        fn bench_base32hex_encode(from: *const u8, len: usize, to: *mut u8, room: usize) -> usize;
        fn bench_base32hex_decode(from: *const u8, len: usize, to: *mut u8, room: usize) -> usize;
        fn bench_base32hex_encode_string(from: *const u8, len: usize) -> usize;
        fn bench_base32hex_decode_vec(from: *const u8, len: usize) -> usize;
        fn bench_base32hex_scan(from: *const u8, len: usize) -> usize;
        fn bench_base64_encode(from: *const u8, len: usize, to: *mut u8, room: usize) -> usize;
        fn bench_base64_decode(from: *const u8, len: usize, to: *mut u8, room: usize) -> usize;
        fn bench_base64_encode_string(from: *const u8, len: usize) -> usize;
        fn bench_base64_decode_vec(from: *const u8, len: usize) -> usize;
        fn bench_base64_scan(from: *const u8, len: usize) -> usize;
    }

    /// The calls of an encoding.
    pub struct Calls {
        pub encode: Slices,
        pub decode: Slices,
        pub encode_string: Call,
        pub decode_vec: Call,
        pub scan: Call,
    }

    pub const BASE16: Calls = Calls {
        encode: bench_base16_encode,
        decode: bench_base16_decode,
        encode_string: bench_base16_encode_string,
        decode_vec: bench_base16_decode_vec,
        scan: bench_base16_scan,
    };

    pub const BASE32HEX: Calls = Calls {
        encode: bench_base32hex_encode,
        decode: bench_base32hex_decode,
        encode_string: bench_base32hex_encode_string,
        decode_vec: bench_base32hex_decode_vec,
        scan: bench_base32hex_scan,
    };

    pub const BASE64: Calls = Calls {
        encode: bench_base64_encode,
        decode: bench_base64_decode,
        encode_string: bench_base64_encode_string,
        decode_vec: bench_base64_decode_vec,
        scan: bench_base64_scan,
    };
}

pub mod plain {
    //! Table-driven encodings, a group at a time.
    use crate::symbols::plain::Symbol;

    pub struct Encoding {
        names: &'static [u8],
        values: [u8; 256],
        bits: usize,
        padded: bool,
    }

    const NONE: u8 = 255;

    impl Encoding {
        fn new(names: &'static [u8], folds_case: bool, padded: bool) -> Self {
            let mut values = [NONE; 256];
            for (value, name) in names.iter().enumerate() {
                values[*name as usize] = value as u8;
                if folds_case {
                    values[name.to_ascii_lowercase() as usize] = value as u8;
                }
            }
            let bits = names.len().trailing_zeros() as usize;
            Encoding {
                names,
                values,
                bits,
                padded,
            }
        }

        pub fn encoding16() -> Self {
            Encoding::new(b"0123456789ABCDEF", true, false)
        }

        pub fn encoding32hex() -> Self {
            Encoding::new(b"0123456789ABCDEFGHIJKLMNOPQRSTUV", true, false)
        }

        pub fn encoding64() -> Self {
            Encoding::new(
                b"ABCDEFGHIJKLMNOPQRSTUVWXYZabcdefghijklmnopqrstuvwxyz0123456789+/",
                false,
                true,
            )
        }
    }

    // The widths are constants, so that a group's loops are unrolled.
    #[inline(always)]
    fn encode_groups<const BITS: usize, const OCTETS: usize, const CHARS: usize>(
        e: &Encoding,
        octets: &[u8],
        text: &mut [u8],
    ) -> usize {
        let mask = (1u64 << BITS) - 1;
        let mut groups = octets.chunks_exact(OCTETS);
        let mut at = 0;
        for (group, out) in (&mut groups).zip(text.chunks_exact_mut(CHARS)) {
            let number = group.iter().fold(0u64, |n, octet| n << 8 | *octet as u64);
            for (place, c) in out.iter_mut().enumerate() {
                *c = e.names[(number >> (BITS * (CHARS - 1 - place)) & mask) as usize];
            }
            at += CHARS;
        }
        let rest = groups.remainder();
        if rest.is_empty() {
            return at;
        }
        let number = rest.iter().fold(0u64, |n, octet| n << 8 | *octet as u64);
        let count = (rest.len() * 8).div_ceil(BITS);
        let number = number << (count * BITS - rest.len() * 8);
        for place in 0..count {
            text[at] = e.names[(number >> (BITS * (count - 1 - place)) & mask) as usize];
            at += 1;
        }
        while e.padded && at % CHARS != 0 {
            text[at] = b'=';
            at += 1;
        }
        at
    }

    pub fn encode(e: &Encoding, octets: &[u8], text: &mut [u8]) -> usize {
        match e.bits {
            4 => encode_groups::<4, 1, 2>(e, octets, text),
            5 => encode_groups::<5, 5, 8>(e, octets, text),
            _ => encode_groups::<6, 3, 4>(e, octets, text),
        }
    }

    #[inline(always)]
    fn decode_groups<const BITS: usize, const OCTETS: usize, const CHARS: usize>(
        e: &Encoding,
        text: &[u8],
        octets: &mut [u8],
    ) -> Option<usize> {
        let text = match (e.padded, text) {
            (true, [front @ .., b'=', b'=']) if text.len().is_multiple_of(CHARS) => front,
            (true, [front @ .., b'=']) if text.len().is_multiple_of(CHARS) => front,
            (true, _) if !text.len().is_multiple_of(CHARS) => return None,
            _ => text,
        };
        let mut groups = text.chunks_exact(CHARS);
        let mut at = 0;
        for (group, out) in (&mut groups).zip(octets.chunks_exact_mut(OCTETS)) {
            let mut number = 0u64;
            let mut seen = 0;
            for c in group {
                let value = e.values[*c as usize];
                seen |= value;
                number = number << BITS | value as u64;
            }
            if seen == NONE {
                return None;
            }
            for (place, octet) in out.iter_mut().enumerate() {
                *octet = (number >> (8 * (OCTETS - 1 - place))) as u8;
            }
            at += OCTETS;
        }
        let rest = groups.remainder();
        let mut number = 0u64;
        for c in rest {
            let value = e.values[*c as usize];
            if value == NONE {
                return None;
            }
            number = number << BITS | value as u64;
        }
        let count = rest.len() * BITS / 8;
        let spare = rest.len() * BITS % 8;
        if spare >= BITS {
            return None;
        }
        let number = number >> spare;
        for place in 0..count {
            octets[at] = (number >> (8 * (count - 1 - place))) as u8;
            at += 1;
        }
        Some(at)
    }

    pub fn decode(e: &Encoding, text: &[u8], octets: &mut [u8]) -> Option<usize> {
        match e.bits {
            4 => decode_groups::<4, 1, 2>(e, text, octets),
            5 => decode_groups::<5, 5, 8>(e, text, octets),
            _ => decode_groups::<6, 3, 4>(e, text, octets),
        }
    }

    /// Returns the number of characters of the text of `octets` octets.
    fn length(e: &Encoding, octets: usize) -> usize {
        let chars = (octets * 8).div_ceil(e.bits);
        if e.padded {
            chars.next_multiple_of(4)
        } else {
            chars
        }
    }

    pub fn encode_string(e: &Encoding, octets: &[u8]) -> String {
        let mut text = vec![0; length(e, octets.len())];
        let len = encode(e, octets, &mut text);
        assert_eq!(len, text.len());
        String::from_utf8(text).expect("ASCII")
    }

    pub fn decode_vec(e: &Encoding, text: &str) -> Option<Vec<u8>> {
        let mut octets = vec![0; text.len() * e.bits / 8 + 8];
        let len = decode(e, text.as_bytes(), &mut octets)?;
        octets.truncate(len);
        Some(octets)
    }

    /// Decodes a token symbol by symbol: each has a character, and each group of characters its
    /// octets.
    pub fn scan(e: &Encoding, token: &str) -> Option<Vec<u8>> {
        let mut chars = token.chars();
        let mut octets = Vec::new();
        let (mut number, mut bits, mut padding) = (0u32, 0, 0);
        while let Some(symbol) = Symbol::next(&mut chars).ok()? {
            let c = symbol.char().filter(char::is_ascii)? as u8;
            if e.padded && c == b'=' {
                padding += 1;
                continue;
            }
            let value = e.values[c as usize];
            if value == NONE || padding > 0 {
                return None;
            }
            number = number << e.bits | u32::from(value);
            bits += e.bits;
            if bits >= 8 {
                bits -= 8;
                octets.push((number >> bits) as u8);
            }
        }
        let whole = !e.padded || (bits + padding * 6) % 8 == 0;
        (whole && bits < 8 && padding < 3).then_some(octets)
    }
}

type Slices = unsafe extern "C" fn(*const u8, usize, *mut u8, usize) -> usize;

type Call = unsafe extern "C" fn(*const u8, usize) -> usize;

fn call(f: Slices, from: &[u8], to: &mut [u8]) -> usize {
    unsafe { f(from.as_ptr(), from.len(), to.as_mut_ptr(), to.len()) }
}

fn add_encoding(rows: &mut Rows, name: &str, e: &plain::Encoding, calls: &library::Calls) {
    let octets = [16, 1024, 1 << 20].map(texts::random);
    let spelled = octets.each_ref().map(|it| plain::encode_string(e, it));
    let room = RefCell::new(vec![0; (1 << 21) + 8]);
    let room = &room;
    let named = |what: &str| format!("{name}, {what}");
    rows.add("Encodings", &named("encode into a slice"), || {
        octets.each_ref().map(|octets| {
            Case::new(
                octets.len(),
                move || call(calls.encode, octets, &mut room.borrow_mut()),
                move || plain::encode(e, octets, &mut room.borrow_mut()),
            )
        })
    });
    rows.add("Encodings", &named("decode into a slice"), || {
        spelled.each_ref().map(|text| {
            Case::new(
                text.len(),
                move || call(calls.decode, text.as_bytes(), &mut room.borrow_mut()),
                move || plain::decode(e, text.as_bytes(), &mut room.borrow_mut()).unwrap_or(0),
            )
        })
    });
    rows.add("Encodings", &named("`encode_string`"), || {
        octets.each_ref().map(|octets| {
            Case::new(
                octets.len(),
                move || unsafe { (calls.encode_string)(octets.as_ptr(), octets.len()) },
                move || plain::encode_string(e, octets).len(),
            )
        })
    });
    rows.add("Encodings", &named("`decode` into a vector"), || {
        spelled.each_ref().map(|text| {
            Case::new(
                text.len(),
                move || unsafe { (calls.decode_vec)(text.as_ptr(), text.len()) },
                move || plain::decode_vec(e, text).map_or(0, |octets| octets.len()),
            )
        })
    });
    rows.add("Encodings", &named("scanned"), || {
        spelled.each_ref().map(|text| {
            Case::new(
                text.len(),
                move || unsafe { (calls.scan)(text.as_ptr(), text.len()) },
                move || plain::scan(e, text).map_or(0, |octets| octets.len()),
            )
        })
    });
}

pub fn add(rows: &mut Rows) {
    let base16 = plain::Encoding::encoding16();
    add_encoding(rows, "base 16", &base16, &library::BASE16);
    let base32hex = plain::Encoding::encoding32hex();
    add_encoding(rows, "base32hex", &base32hex, &library::BASE32HEX);
    let base64 = plain::Encoding::encoding64();
    add_encoding(rows, "base 64", &base64, &library::BASE64);
}
