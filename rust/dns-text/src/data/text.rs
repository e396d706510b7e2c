//! RDATA from and to presentation format.
use super::compose::compose;
use super::{BadData, BadDataReason, RecordData};
use crate::call::{give, with_room};
use crate::codec::BASE16;
use crate::{Name, RecordFault, RecordFaultKind, RecordType};
use dns_text_sys::{
    dnstext_data_canonical, dnstext_data_print, dnstext_data_read, dnstext_text_data, DNSTEXT_OK,
};
use std::fmt;

impl RecordData {
    /// Returns RDATA of TXT whose strings are these octets: each has 255 of them, and the last one the rest.
    /// No octets are one empty string.
    ///
    /// A value that a user types is not in presentation format: parsed, this key would end before the semicolon,
    /// which begins a comment. Fails with `TooLong` if there are more than 65,279 octets.
    ///
    /// ```
    /// use dns_text::{BadDataReason, RecordData};
    ///
    /// let key = RecordData::txt(b"v=DKIM1; k=rsa")?;
    /// assert_eq!(key.to_text()?, r#""v=DKIM1; k=rsa""#);
    /// let RecordData::Txt(strings) = RecordData::txt(&[b'x'; 256])? else { panic!() };
    /// assert_eq!(strings.iter().map(|string| string.as_octets().len()).collect::<Vec<_>>(), [255, 1]);
    /// assert_eq!(RecordData::txt(&[b'x'; 65280]).unwrap_err().reason, BadDataReason::TooLong);
    /// # Ok::<(), dns_text::BadData>(())
    /// ```
    pub fn txt(octets: &[u8]) -> Result<RecordData, BadData> {
        let record_type = RecordType::TXT;
        match give(dnstext_text_data, octets, octets.len() + 1) {
            Ok(data) => Ok(RecordData::of_read(record_type, &data)),
            Err(_) => Err(BadData {
                record_type,
                field: None,
                reason: BadDataReason::TooLong,
            }),
        }
    }

    /// Parses RDATA of a type: the tokens that follow the type in a record, or `\#`, the number of
    /// octets, and these in hexadecimal (RFC 3597 section 5). The origin is appended to relative names;
    /// without one they are rejected, and so is a relative name as the origin.
    ///
    /// ```
    /// use dns_text::{RecordData, RecordType};
    ///
    /// let origin = "example.".parse()?;
    /// let data = RecordData::from_text(RecordType::MX, b"10 mail", Some(&origin))?;
    /// assert_eq!(data.to_text()?, "10 mail.example.");
    /// let fault = RecordData::from_text(RecordType::MX, b"10", None).unwrap_err();
    /// assert_eq!(fault.to_string(), "MX: exchange: unexpected end of entry at 2");
    /// # Ok::<(), Box<dyn std::error::Error>>(())
    /// ```
    pub fn from_text(
        record_type: RecordType,
        text: &[u8],
        origin: Option<&Name>,
    ) -> Result<RecordData, RecordFault> {
        if origin.is_some_and(|name| !name.is_absolute()) {
            return Err(RecordFault {
                kind: RecordFaultKind::RelativeOrigin,
                place: 0,
                reason: String::new(),
            });
        }
        let origin = origin.map(Name::as_octets).unwrap_or_default();
        let (status, outcome, octets) = with_room(512, |into, outcome| {
            // SAFETY: the pointers and lengths are those of slices, and the call stays within them.
            unsafe {
                dnstext_data_read(
                    record_type.0,
                    text.as_ptr(),
                    text.len(),
                    origin.as_ptr(),
                    origin.len(),
                    into.as_mut_ptr(),
                    into.len(),
                    outcome,
                )
            }
        });
        if status == DNSTEXT_OK {
            return Ok(RecordData::of_read(record_type, &octets));
        }
        Err(RecordFault {
            kind: RecordFaultKind::of(status),
            place: outcome.place,
            reason: String::from_utf8_lossy(&octets).into_owned(),
        })
    }

    /// Returns the RDATA in presentation format on one line: tokens separated by spaces, with absolute
    /// names. A type without a format of its own prints as `\#`, the number of octets, and these in
    /// hexadecimal (RFC 3597 section 5).
    ///
    /// Fails for values that the type does not allow, as [`to_octets`](RecordData::to_octets) does, and
    /// for a type that has no RDATA in zones, such as OPT.
    pub fn to_text(&self) -> Result<String, BadData> {
        let octets = self.to_octets()?;
        let (status, _, text) = with_room(4 * octets.len() + 16, |into, outcome| {
            // SAFETY: the pointers and lengths are those of slices, and the call stays within them.
            unsafe {
                dnstext_data_print(
                    self.record_type().0,
                    octets.as_ptr(),
                    octets.len(),
                    into.as_mut_ptr(),
                    into.len(),
                    outcome,
                )
            }
        });
        if status != DNSTEXT_OK {
            return Err(BadData {
                record_type: self.record_type(),
                field: None,
                reason: BadDataReason::Rejected,
            });
        }
        Ok(String::from_utf8_lossy(&text).into_owned())
    }
}

/// Returns the canonical form of octets, if they are RDATA of the type.
pub(super) fn canonical(record_type: RecordType, octets: &[u8]) -> Option<Vec<u8>> {
    let (status, _, form) = with_room(octets.len(), |into, outcome| {
        // SAFETY: the pointers and lengths are those of slices, and the call stays within them.
        unsafe {
            dnstext_data_canonical(
                record_type.0,
                octets.as_ptr(),
                octets.len(),
                into.as_mut_ptr(),
                into.len(),
                outcome,
            )
        }
    });
    (status == DNSTEXT_OK).then_some(form)
}

/// Displays the presentation format; for values without one `\#`, the number of octets, and these in
/// hexadecimal.
impl fmt::Display for RecordData {
    fn fmt(&self, f: &mut fmt::Formatter<'_>) -> fmt::Result {
        let generic = |_| {
            let octets = compose(self).octets;
            format!("\\# {} {}", octets.len(), BASE16.print(&octets))
        };
        f.pad(&self.to_text().unwrap_or_else(generic))
    }
}
