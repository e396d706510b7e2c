//! The functions of the library `dnstext`, as `c/include/dnstext.h` declares them.
//!
//! The crate `dns-text` has safe types over them.
#![no_std]
#![allow(non_camel_case_types)]

use core::ffi::c_char;

/// The version of these declarations.
pub const DNSTEXT_VERSION: &str = env!("CARGO_PKG_VERSION");

pub const DNSTEXT_OK: u32 = 0;
pub const DNSTEXT_END: u32 = 1;
pub const DNSTEXT_NO_ROOM: u32 = 2;
pub const DNSTEXT_BAD_ESCAPE: u32 = 3;
pub const DNSTEXT_SHORT_INPUT: u32 = 4;
pub const DNSTEXT_BAD_UTF8: u32 = 5;
pub const DNSTEXT_BAD_SYMBOL: u32 = 6;
pub const DNSTEXT_TOO_LONG: u32 = 7;
pub const DNSTEXT_BAD_ENCODING: u32 = 8;
pub const DNSTEXT_CLOSING: u32 = 9;
pub const DNSTEXT_OPEN_PARENTHESIS: u32 = 10;
pub const DNSTEXT_OPEN_QUOTE: u32 = 11;
pub const DNSTEXT_LONE_RETURN: u32 = 12;
pub const DNSTEXT_BAD_CURSOR: u32 = 13;
pub const DNSTEXT_EMPTY_LABEL: u32 = 14;
pub const DNSTEXT_LONG_LABEL: u32 = 15;
pub const DNSTEXT_BINARY_LABEL: u32 = 16;
pub const DNSTEXT_BAD_LABEL: u32 = 17;
pub const DNSTEXT_POINTER: u32 = 18;
pub const DNSTEXT_TRAILING_OCTETS: u32 = 19;
pub const DNSTEXT_NO_DIGIT: u32 = 20;
pub const DNSTEXT_TOO_GREAT: u32 = 21;
pub const DNSTEXT_BAD_PLACE: u32 = 22;
pub const DNSTEXT_BAD_TTL: u32 = 23;
pub const DNSTEXT_UNKNOWN_TYPE: u32 = 24;
pub const DNSTEXT_UNKNOWN_CLASS: u32 = 25;
pub const DNSTEXT_INCLUDE: u32 = 26;
pub const DNSTEXT_BAD_HEAD: u32 = 27;
pub const DNSTEXT_NOT_SUPPORTED: u32 = 28;
pub const DNSTEXT_BAD_NAME: u32 = 29;
pub const DNSTEXT_NO_ORIGIN: u32 = 30;
pub const DNSTEXT_NO_OWNER: u32 = 31;
pub const DNSTEXT_REFUSED_OWNER: u32 = 32;
pub const DNSTEXT_BAD_DATA: u32 = 33;
pub const DNSTEXT_NO_TTL: u32 = 34;
pub const DNSTEXT_RELATIVE_NAME: u32 = 35;
pub const DNSTEXT_GENERATE: u32 = 36;
pub const DNSTEXT_BAD_GENERATE: u32 = 37;

/// The result of a call beside its status.
#[repr(C)]
#[derive(Clone, Copy, Debug, Default, PartialEq, Eq)]
pub struct dnstext_outcome {
    pub length: usize,
    pub place: usize,
}

/// A token of a zone file: the octets from `start` to before `end`.
#[repr(C)]
#[derive(Clone, Copy, Debug, Default, PartialEq, Eq)]
pub struct dnstext_token {
    pub start: usize,
    pub end: usize,
    pub is_quoted: bool,
}

/// The state of reading entries. The default is the start of a text.
#[repr(C)]
#[derive(Clone, Copy, Debug, Default, PartialEq, Eq)]
pub struct dnstext_cursor {
    pub at: usize,
    pub begins_blank: bool,
    pub is_done: bool,
    pub opened: usize,
}

pub const DNSTEXT_WORD: usize = 0;
pub const DNSTEXT_QUOTED: usize = 1;
pub const DNSTEXT_COMMENT: usize = 2;
pub const DNSTEXT_ENTRY_END: usize = 3;

/// A piece of a zone file: the octets from `start` to before `end`.
#[repr(C)]
#[derive(Clone, Copy, Debug, Default, PartialEq, Eq)]
pub struct dnstext_piece {
    pub kind: usize,
    pub start: usize,
    pub end: usize,
    pub begins_blank: bool,
}

/// The state of reading pieces. The default is the start of a text.
#[repr(C)]
#[derive(Clone, Copy, Debug, Default, PartialEq, Eq)]
pub struct dnstext_lexer {
    pub at: usize,
    pub depth: usize,
    pub began: usize,
    pub is_done: bool,
}

/// An absolute name in wire format, if there is one: the first `length` octets.
#[repr(C)]
#[derive(Clone, Copy, Debug, PartialEq, Eq)]
pub struct dnstext_kept_name {
    pub length: usize,
    pub is_refused: bool,
    pub octets: [u8; 255],
}

/// The state of reading records. At the start of a zone file it has the class IN, and is otherwise the
/// default.
#[repr(C)]
#[derive(Clone, Copy, Debug, Default, PartialEq, Eq)]
pub struct dnstext_zone {
    pub class_code: u16,
    pub has_default_ttl: bool,
    pub has_last_ttl: bool,
    pub default_ttl: u32,
    pub last_ttl: u32,
    pub at: usize,
    pub origin: dnstext_kept_name,
    pub owner: dnstext_kept_name,
}

/// A record of a zone file, whose RDATA is in another buffer; or the origin of a file to include; or the
/// offsets of a `$GENERATE` directive.
#[repr(C)]
#[derive(Clone, Copy, Debug, Default, PartialEq, Eq)]
pub struct dnstext_record {
    pub place: usize,
    pub data: usize,
    pub end: usize,
    pub ttl: u32,
    pub class_code: u16,
    pub type_code: u16,
    pub name: dnstext_kept_name,
}

#[repr(C)]
#[derive(Clone, Copy, Debug, PartialEq, Eq)]
pub struct dnstext_position {
    pub offset: usize,
    pub line: usize,
    pub column: usize,
}

/// The position of the start of a text.
impl Default for dnstext_position {
    fn default() -> dnstext_position {
        dnstext_position {
            offset: 0,
            line: 1,
            column: 1,
        }
    }
}

impl Default for dnstext_kept_name {
    fn default() -> dnstext_kept_name {
        dnstext_kept_name {
            length: 0,
            is_refused: false,
            octets: [0; 255],
        }
    }
}

/// A call that converts octets to other octets.
pub type dnstext_call =
    unsafe extern "C" fn(*const u8, usize, *mut u8, usize, *mut dnstext_outcome) -> u32;

extern "C" {
    pub fn dnstext_charstr_read(
        text: *const u8,
        text_len: usize,
        octets: *mut u8,
        octets_len: usize,
        outcome: *mut dnstext_outcome,
    ) -> u32;
    pub fn dnstext_charstr_read_octets(
        text: *const u8,
        text_len: usize,
        octets: *mut u8,
        octets_len: usize,
        outcome: *mut dnstext_outcome,
    ) -> u32;
    pub fn dnstext_charstr_print(
        octets: *const u8,
        octets_len: usize,
        text: *mut u8,
        text_len: usize,
        outcome: *mut dnstext_outcome,
    ) -> u32;
    pub fn dnstext_charstr_print_quoted(
        octets: *const u8,
        octets_len: usize,
        text: *mut u8,
        text_len: usize,
        outcome: *mut dnstext_outcome,
    ) -> u32;
    pub fn dnstext_charstr_print_unquoted(
        octets: *const u8,
        octets_len: usize,
        text: *mut u8,
        text_len: usize,
        outcome: *mut dnstext_outcome,
    ) -> u32;
    pub fn dnstext_name_read(
        text: *const u8,
        text_len: usize,
        name: *mut u8,
        name_len: usize,
        is_absolute: *mut bool,
        outcome: *mut dnstext_outcome,
    ) -> u32;
    pub fn dnstext_name_print(
        name: *const u8,
        name_len: usize,
        text: *mut u8,
        text_len: usize,
        outcome: *mut dnstext_outcome,
    ) -> u32;
    pub fn dnstext_name_print_dotted(
        name: *const u8,
        name_len: usize,
        text: *mut u8,
        text_len: usize,
        outcome: *mut dnstext_outcome,
    ) -> u32;
    pub fn dnstext_name_print_zone(
        name: *const u8,
        name_len: usize,
        text: *mut u8,
        text_len: usize,
        outcome: *mut dnstext_outcome,
    ) -> u32;
    pub fn dnstext_name_read_octets(
        text: *const u8,
        text_len: usize,
        origin: *const u8,
        origin_len: usize,
        name: *mut u8,
        name_len: usize,
        outcome: *mut dnstext_outcome,
    ) -> u32;
    pub fn dnstext_name_canonical(
        name: *const u8,
        name_len: usize,
        form: *mut u8,
        form_len: usize,
        outcome: *mut dnstext_outcome,
    ) -> u32;
    pub fn dnstext_name_compare(
        a: *const u8,
        a_len: usize,
        b: *const u8,
        b_len: usize,
        order: *mut i32,
        outcome: *mut dnstext_outcome,
    ) -> u32;
    pub fn dnstext_name_ends_with(
        name: *const u8,
        name_len: usize,
        zone: *const u8,
        zone_len: usize,
        does: *mut bool,
        outcome: *mut dnstext_outcome,
    ) -> u32;
    pub fn dnstext_number_read(
        text: *const u8,
        text_len: usize,
        greatest: u64,
        number: *mut u64,
        outcome: *mut dnstext_outcome,
    ) -> u32;
    pub fn dnstext_ttl_read(
        text: *const u8,
        text_len: usize,
        seconds: *mut u32,
        outcome: *mut dnstext_outcome,
    ) -> u32;
    pub fn dnstext_type_read(
        text: *const u8,
        text_len: usize,
        code: *mut u16,
        outcome: *mut dnstext_outcome,
    ) -> u32;
    pub fn dnstext_type_print(
        code: u16,
        text: *mut u8,
        text_len: usize,
        outcome: *mut dnstext_outcome,
    ) -> u32;
    pub fn dnstext_class_read(
        text: *const u8,
        text_len: usize,
        code: *mut u16,
        outcome: *mut dnstext_outcome,
    ) -> u32;
    pub fn dnstext_class_print(
        code: u16,
        text: *mut u8,
        text_len: usize,
        outcome: *mut dnstext_outcome,
    ) -> u32;
    pub fn dnstext_data_print(
        code: u16,
        octets: *const u8,
        octets_len: usize,
        text: *mut u8,
        text_len: usize,
        outcome: *mut dnstext_outcome,
    ) -> u32;
    pub fn dnstext_data_read(
        code: u16,
        text: *const u8,
        text_len: usize,
        origin: *const u8,
        origin_len: usize,
        octets: *mut u8,
        octets_len: usize,
        outcome: *mut dnstext_outcome,
    ) -> u32;
    pub fn dnstext_text_data(
        octets: *const u8,
        octets_len: usize,
        data: *mut u8,
        data_len: usize,
        outcome: *mut dnstext_outcome,
    ) -> u32;
    pub fn dnstext_data_canonical(
        code: u16,
        octets: *const u8,
        octets_len: usize,
        form: *mut u8,
        form_len: usize,
        outcome: *mut dnstext_outcome,
    ) -> u32;
    pub fn dnstext_base16_print(
        octets: *const u8,
        octets_len: usize,
        text: *mut u8,
        text_len: usize,
        outcome: *mut dnstext_outcome,
    ) -> u32;
    pub fn dnstext_base32hex_print(
        octets: *const u8,
        octets_len: usize,
        text: *mut u8,
        text_len: usize,
        outcome: *mut dnstext_outcome,
    ) -> u32;
    pub fn dnstext_base64_print(
        octets: *const u8,
        octets_len: usize,
        text: *mut u8,
        text_len: usize,
        outcome: *mut dnstext_outcome,
    ) -> u32;
    pub fn dnstext_base16_read(
        text: *const u8,
        text_len: usize,
        octets: *mut u8,
        octets_len: usize,
        outcome: *mut dnstext_outcome,
    ) -> u32;
    pub fn dnstext_base32hex_read(
        text: *const u8,
        text_len: usize,
        octets: *mut u8,
        octets_len: usize,
        outcome: *mut dnstext_outcome,
    ) -> u32;
    pub fn dnstext_base64_read(
        text: *const u8,
        text_len: usize,
        octets: *mut u8,
        octets_len: usize,
        outcome: *mut dnstext_outcome,
    ) -> u32;
    pub fn dnstext_entry_next(
        text: *const u8,
        text_len: usize,
        cursor: *mut dnstext_cursor,
        tokens: *mut dnstext_token,
        tokens_len: usize,
        outcome: *mut dnstext_outcome,
    ) -> u32;
    pub fn dnstext_tokens_next(
        text: *const u8,
        text_len: usize,
        lexer: *mut dnstext_lexer,
        piece: *mut dnstext_piece,
        outcome: *mut dnstext_outcome,
    ) -> u32;
    pub fn dnstext_zone_init(zone: *mut dnstext_zone) -> u32;
    pub fn dnstext_zone_origin(
        zone: *mut dnstext_zone,
        name: *const u8,
        name_len: usize,
        outcome: *mut dnstext_outcome,
    ) -> u32;
    pub fn dnstext_record_next(
        text: *const u8,
        text_len: usize,
        zone: *mut dnstext_zone,
        record: *mut dnstext_record,
        octets: *mut u8,
        octets_len: usize,
        outcome: *mut dnstext_outcome,
    ) -> u32;
    pub fn dnstext_record_print(
        record: *const dnstext_record,
        data: *const u8,
        data_len: usize,
        text: *mut u8,
        text_len: usize,
        outcome: *mut dnstext_outcome,
    ) -> u32;
    pub fn dnstext_entries_len(text: *const u8, text_len: usize, whole: *mut usize) -> u32;
    pub fn dnstext_generate_entry(
        directive: *const u8,
        directive_len: usize,
        index: u64,
        number: *mut u32,
        text: *mut u8,
        text_len: usize,
        outcome: *mut dnstext_outcome,
    ) -> u32;
    pub fn dnstext_position(
        text: *const u8,
        text_len: usize,
        place: usize,
        line: *mut usize,
        column: *mut usize,
    ) -> u32;
    pub fn dnstext_position_move(
        text: *const u8,
        text_len: usize,
        position: *mut dnstext_position,
        offset: usize,
    ) -> u32;
    pub fn dnstext_status_text(
        status: u32,
        text: *mut u8,
        text_len: usize,
        outcome: *mut dnstext_outcome,
    ) -> u32;
    pub fn dnstext_status_message(status: u32) -> *const c_char;
    pub fn dnstext_status_name(status: u32) -> *const c_char;
    pub fn dnstext_version() -> *const c_char;
}
