//! Statuses of the library.
use dns_text_sys::{dnstext_status_message, dnstext_status_name};
use std::ffi::{c_char, CStr};
use std::fmt;

/// A status of the library, by its number. It displays as its message.
///
/// ```
/// use dns_text::Name;
///
/// let status = Name::from_text(b"a..b").unwrap_err().kind.status();
/// assert_eq!(status.name(), "DNSTEXT_EMPTY_LABEL");
/// assert_eq!(status.to_string(), "label without octets");
/// ```
#[derive(Clone, Copy, Debug, PartialEq, Eq, Hash)]
pub struct Status(pub(crate) u32);

impl Status {
    /// Returns the number, as in `dnstext.h`.
    #[must_use]
    pub fn number(self) -> u32 {
        self.0
    }

    /// Returns the name, as in `dnstext.h`, or `unknown`.
    #[must_use]
    pub fn name(self) -> &'static str {
        // SAFETY: the call accepts any number, and returns a string that lives as long as the program.
        unsafe { string(dnstext_status_name(self.0)) }
    }

    /// Returns the message, or `unknown status`.
    #[must_use]
    pub fn message(self) -> &'static str {
        // SAFETY: as in `name`.
        unsafe { string(dnstext_status_message(self.0)) }
    }
}

impl fmt::Display for Status {
    fn fmt(&self, f: &mut fmt::Formatter<'_>) -> fmt::Result {
        f.pad(self.message())
    }
}

/// Returns a C string of the library.
///
/// # Safety
///
/// The string has a terminator, and lives as long as the program.
pub(crate) unsafe fn string(text: *const c_char) -> &'static str {
    unsafe { CStr::from_ptr(text) }.to_str().unwrap_or("?")
}

/// Declares an enum of error kinds, one for each of some statuses, and one for any other status.
macro_rules! reasons {
    ($(#[$about:meta])* $name:ident { $($(#[$says:meta])* $reason:ident = $status:ident,)* }) => {
        $(#[$about])*
        #[derive(Clone, Copy, Debug, PartialEq, Eq)]
        #[non_exhaustive]
        pub enum $name {
            $($(#[$says])* $reason,)*
            /// Another status, which the library of this version does not return.
            Unknown($crate::Status),
        }

        impl $name {
            pub(crate) fn of(status: u32) -> $name {
                match status {
                    $(dns_text_sys::$status => $name::$reason,)*
                    status => $name::Unknown($crate::Status(status)),
                }
            }

            /// Returns the status that the library returned.
            #[must_use]
            pub fn status(self) -> $crate::Status {
                match self {
                    $($name::$reason => $crate::Status(dns_text_sys::$status),)*
                    $name::Unknown(status) => status,
                }
            }
        }
    };
}

pub(crate) use reasons;

#[cfg(test)]
mod tests {
    use crate::{FaultKind, NameErrorKind};

    #[test]
    fn unknown_statuses_are_errors() {
        let unknown = FaultKind::of(99);
        assert_eq!(unknown.status().number(), 99);
        assert_eq!(unknown.status().to_string(), "unknown status");
        assert_eq!(unknown.status().name(), "unknown");
        assert_ne!(unknown, FaultKind::of(98));
        // A status of other calls is unknown too, and says what it says.
        let other = NameErrorKind::of(dns_text_sys::DNSTEXT_TOO_GREAT);
        assert_eq!(other.status().to_string(), "number too great");
    }
}
