//! Times the proved library against plain Rust that we wrote for the comparison.
//!
//! `./make_library.sh` builds the library. `cargo run --release` prints the rows, with `--markdown`
//! as tables, and with `--svg` writes a bar chart into `../docs/speed.svg`. Arguments after these
//! select rows by a part of their names, and the tables of texts and of memory are then skipped.

mod chart;
mod codecs;
mod data;
mod documents;
mod heap;
mod measure;
mod memory;
mod names;
mod records;
mod rows;
mod splitting;
mod strings;
mod symbols;
mod table;
mod texts;

use rows::Rows;

fn main() {
    let words: Vec<String> = std::env::args().skip(1).collect();
    if let [first, operation, file] = &words[..] {
        if first == "--memory" {
            return memory::run(operation, file);
        }
    }
    let (options, wanted): (Vec<String>, Vec<String>) =
        words.into_iter().partition(|word| word.starts_with("--"));
    let all = wanted.is_empty();
    let mut rows = Rows::new(wanted);
    symbols::add(&mut rows);
    strings::add(&mut rows);
    names::add(&mut rows);
    codecs::add(&mut rows);
    splitting::add(&mut rows);
    documents::add(&mut rows);
    records::add(&mut rows);
    data::add(&mut rows);
    let has = |option: &str| options.iter().any(|it| it == option);
    if has("--markdown") {
        print!("{}", table::markdown(&rows.found));
        if all {
            print!("{}", table::texts(&splitting::each_text()));
            print!("{}", table::memory(&memory::rows()));
        }
    } else {
        print!("{}", table::plain(&rows.found));
    }
    if has("--svg") {
        let path = concat!(env!("CARGO_MANIFEST_DIR"), "/../docs/speed.svg");
        std::fs::write(path, chart::svg(&rows.found)).expect("the chart is written");
    }
}
