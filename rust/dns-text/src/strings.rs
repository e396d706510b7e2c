//! `FromStr` and conversions from strings.

/// Implements `FromStr` by `from_text`.
macro_rules! reads_strings {
    ($($read:ty: $error:ty,)*) => {$(
        impl std::str::FromStr for $read {
            type Err = $error;

            fn from_str(text: &str) -> Result<$read, $error> {
                <$read>::from_text(text.as_bytes())
            }
        }

        impl TryFrom<&str> for $read {
            type Error = $error;

            fn try_from(text: &str) -> Result<$read, $error> {
                <$read>::from_text(text.as_bytes())
            }
        }
    )*};
}

pub(crate) use reads_strings;
