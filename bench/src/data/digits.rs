//! The encodings of RDATA, whose tables are built once.
use crate::codecs::plain::Encoding;
use std::sync::LazyLock;

pub static HEX: LazyLock<Encoding> = LazyLock::new(Encoding::encoding16);

pub static BASE32HEX: LazyLock<Encoding> = LazyLock::new(Encoding::encoding32hex);

pub static BASE64: LazyLock<Encoding> = LazyLock::new(Encoding::encoding64);
