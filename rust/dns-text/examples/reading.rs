//! Reads all records of a zone file, and prints their number and the microseconds of processor time:
//! `reading FILE` in chunks, and `reading --memory FILE` from memory.
use dns_text::{read_records, records, ZoneItem};
use std::error::Error;
use std::ffi::{c_long, OsString};
use std::fs::{self, File};
use std::io::BufReader;

extern "C" {
    /// Processor time, in microseconds on POSIX systems.
    fn clock() -> c_long;
}

fn now() -> c_long {
    // SAFETY: the call has no arguments, and writes to no memory.
    unsafe { clock() }
}

/// Returns the number of records, up to the first error.
fn count<E: Error + 'static>(
    items: impl Iterator<Item = Result<ZoneItem, E>>,
) -> Result<usize, Box<dyn Error>> {
    let mut count = 0;
    for item in items {
        if let ZoneItem::Record(_) = item? {
            count += 1;
        }
    }
    Ok(count)
}

fn main() -> Result<(), Box<dyn Error>> {
    let words: Vec<OsString> = std::env::args_os().skip(1).collect();
    let (begun, count) = match &words[..] {
        [path] => {
            let begun = now();
            (
                begun,
                count(read_records(BufReader::new(File::open(path)?)))?,
            )
        }
        [option, path] if option == "--memory" => {
            let text = fs::read(path)?;
            let begun = now();
            (begun, count(records(&text))?)
        }
        _ => return Err("reading [--memory] FILE".into()),
    };
    println!("{count} {}", now() - begun);
    Ok(())
}
