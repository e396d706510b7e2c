//! The linked library and its version.
use crate::status::string;
use dns_text_sys::{dnstext_version, DNSTEXT_VERSION};
use std::sync::Once;

static CHECKED: Once = Once::new();

/// Returns the version of the linked library.
#[must_use]
pub fn version() -> &'static str {
    // SAFETY: the string has a terminator, and lives as long as the program.
    unsafe { string(dnstext_version()) }
}

/// Returns whether two versions have the same structs and calls: a patch release changes none.
fn serves(found: &str, wanted: &str) -> bool {
    let mut numbers = found.split('.').zip(wanted.split('.'));
    let mut same = || {
        numbers
            .next()
            .is_some_and(|(found, wanted)| found == wanted)
    };
    same() && same()
}

/// Panics if the library has another major or minor version than this crate, and so perhaps other
/// structs. Checks this once.
pub(crate) fn check() {
    CHECKED.call_once(|| {
        let found = version();
        assert!(
            serves(found, DNSTEXT_VERSION),
            "the library dnstext that is linked is {found}, and the crate dns-text {DNSTEXT_VERSION}"
        );
    });
}

#[cfg(test)]
mod tests {
    use super::{serves, version};
    use dns_text_sys::DNSTEXT_VERSION;

    #[test]
    fn patch_releases_serve() {
        assert!(serves("0.2.0", "0.2.0"));
        assert!(serves("0.2.7", "0.2.0") && serves("0.2.0", "0.2.7"));
        assert!(serves("0.2.0-rc.1", "0.2.0"));
        assert!(serves(version(), DNSTEXT_VERSION));
        for other in ["0.3.0", "1.2.0", "0.20.0", "0.1.9", "0", ""] {
            assert!(!serves(other, "0.2.0"), "{other}");
        }
    }
}
