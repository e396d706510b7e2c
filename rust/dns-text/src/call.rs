//! Calls of the C library that convert octets to other octets.
use crate::{library, Status};
use dns_text_sys::{dnstext_call, dnstext_outcome, DNSTEXT_NO_ROOM, DNSTEXT_OK};

/// A status other than `DNSTEXT_OK`, and the offset of the error.
pub(crate) struct Refused {
    pub(crate) status: u32,
    pub(crate) place: usize,
}

/// Returns the output of a call. The buffer has `expected` octets first, and then the length that the
/// call needs.
pub(crate) fn give(call: dnstext_call, from: &[u8], expected: usize) -> Result<Vec<u8>, Refused> {
    library::check();
    let mut given = vec![0; expected];
    loop {
        let mut outcome = dnstext_outcome::default();
        // SAFETY: the pointers and lengths are those of two slices, and the call stays within them.
        let status = unsafe {
            call(
                from.as_ptr(),
                from.len(),
                given.as_mut_ptr(),
                given.len(),
                &mut outcome,
            )
        };
        match status {
            DNSTEXT_OK => {
                given.truncate(outcome.length);
                return Ok(given);
            }
            DNSTEXT_NO_ROOM if given.len() < outcome.length => given.resize(outcome.length, 0),
            status => {
                let place = outcome.place;
                return Err(Refused { status, place });
            }
        }
    }
}

/// Returns the text that a call prints for octets. It is proved that the library doesn't reject them.
pub(crate) fn print(call: dnstext_call, octets: &[u8], expected: usize) -> String {
    match give(call, octets, expected) {
        Ok(text) => String::from_utf8_lossy(&text).into_owned(),
        Err(refused) => panic!("printing was refused: {}", Status(refused.status)),
    }
}

/// Makes a call with a buffer of the size that it needs. Returns its status, outcome and output.
pub(crate) fn with_room(
    expected: usize,
    call: impl Fn(&mut [u8], &mut dnstext_outcome) -> u32,
) -> (u32, dnstext_outcome, Vec<u8>) {
    library::check();
    let mut given = vec![0; expected];
    loop {
        let mut outcome = dnstext_outcome::default();
        let status = call(&mut given, &mut outcome);
        if status != DNSTEXT_NO_ROOM || outcome.length <= given.len() {
            given.truncate(outcome.length);
            return (status, outcome, given);
        }
        given.resize(outcome.length, 0);
    }
}
