//! Type bitmaps (RFC 4034 section 4.1.2).
use crate::RecordType;

/// Greatest length of the bitmap of a window, in octets.
const MOST: usize = 32;

/// Returns the types of a bitmap in order. Returns `None` if the octets are not one, or have the type 0.
pub(super) fn types_of(octets: &[u8]) -> Option<Vec<RecordType>> {
    let mut types = Vec::new();
    let mut rest = octets;
    let mut least = 0;
    while let Some((window, after)) = rest.split_first() {
        let (length, after) = after.split_first()?;
        let (bits, after) = after.split_at_checked((*length).into())?;
        let is_window = bits.len() <= MOST && bits.last().is_some_and(|last| *last != 0);
        if !is_window || u16::from(*window) < least {
            return None;
        }
        push_window(&mut types, *window, bits);
        least = u16::from(*window) + 1;
        rest = after;
    }
    (types.first() != Some(&RecordType(0))).then_some(types)
}

/// Appends the types of a window.
fn push_window(types: &mut Vec<RecordType>, window: u8, bits: &[u8]) {
    for (octet, low) in bits.iter().zip((0_u8..).step_by(8)) {
        for bit in 0..8 {
            if octet & (0x80 >> bit) != 0 {
                types.push(RecordType(u16::from_be_bytes([window, low + bit])));
            }
        }
    }
}

/// Returns the bitmap of types, which can be in any order.
pub(super) fn bitmap_of(types: &[RecordType]) -> Vec<u8> {
    let mut codes: Vec<[u8; 2]> = types.iter().map(|it| it.0.to_be_bytes()).collect();
    codes.sort_unstable();
    let mut octets = Vec::new();
    for window in codes.chunk_by(|left, right| left[0] == right[0]) {
        let mut bits = [0; MOST];
        let mut length = 0;
        for [_, low] in window {
            bits[usize::from(low / 8)] |= 0x80 >> (low % 8);
            length = low / 8 + 1;
        }
        octets.extend_from_slice(&[window[0][0], length]);
        octets.extend_from_slice(&bits[..length.into()]);
    }
    octets
}
