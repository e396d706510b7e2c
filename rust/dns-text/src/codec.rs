//! Base 16, base32hex and base 64 (RFC 4648 sections 8, 7 and 4).
//!
//! ```
//! use dns_text::codec::{Encoding, BASE16, BASE32HEX, BASE64};
//!
//! assert_eq!(BASE16.print(b"foob"), "666F6F62");
//! assert_eq!(BASE32HEX.print(b"foob"), "CPNMUOG");
//! assert_eq!(BASE64.print(b"foob"), "Zm9vYg==");
//! assert_eq!(BASE64.read(b"Zm9vYg==")?, b"foob");
//! assert!(BASE16.read(b"66f").is_err());
//! # Ok::<(), dns_text::codec::BadEncoding>(())
//! ```
use crate::call::{give, print};
use crate::status::Status;
use dns_text_sys::{
    dnstext_base16_print, dnstext_base16_read, dnstext_base32hex_print, dnstext_base32hex_read,
    dnstext_base64_print, dnstext_base64_read, dnstext_call, DNSTEXT_BAD_ENCODING,
};
use std::error::Error;
use std::fmt;

/// An encoding.
#[derive(Clone, Copy)]
pub struct Encoding {
    print: dnstext_call,
    read: dnstext_call,
}

/// Base 16; digits of either case are accepted.
pub const BASE16: Encoding = Encoding {
    print: dnstext_base16_print,
    read: dnstext_base16_read,
};

/// Base 32 with the extended hex alphabet, without padding; digits of either case are accepted.
pub const BASE32HEX: Encoding = Encoding {
    print: dnstext_base32hex_print,
    read: dnstext_base32hex_read,
};

/// Base 64, with padding.
pub const BASE64: Encoding = Encoding {
    print: dnstext_base64_print,
    read: dnstext_base64_read,
};

impl Encoding {
    /// Returns the encoded octets.
    #[must_use]
    pub fn print(self, octets: &[u8]) -> String {
        print(self.print, octets, 2 * octets.len() + 4)
    }

    /// Returns the decoded octets. Fails if the text is not of the encoding.
    pub fn read(self, text: &[u8]) -> Result<Vec<u8>, BadEncoding> {
        give(self.read, text, text.len()).map_err(|_| BadEncoding)
    }
}

/// The error of a text that is not of the encoding.
#[derive(Clone, Copy, Debug, PartialEq, Eq)]
pub struct BadEncoding;

impl fmt::Display for BadEncoding {
    fn fmt(&self, f: &mut fmt::Formatter<'_>) -> fmt::Result {
        Status(DNSTEXT_BAD_ENCODING).fmt(f)
    }
}

impl Error for BadEncoding {}
