//! The rows of `crates/test_records` that the crate's own calls can answer: RDATA of each type, zone
//! files in memory and in chunks, and orders.
#[path = "../common/blocks.rs"]
mod blocks;
mod data;
mod entries;
mod orders;
#[path = "../common/table.rs"]
mod table;

use table::{each_row, octets_of};

/// The octets of the default origin of rows.
const EXAMPLE: &str = "%07example%00";

/// Checks a row. Returns `false` if the crate has no call for it.
fn judge(fields: &[&str]) -> bool {
    match fields {
        ["data", record_type, text, wanted] => data::read(record_type, text, EXAMPLE, wanted),
        ["data", record_type, text, origin, wanted] => {
            data::read(record_type, text, origin, wanted)
        }
        ["data.why", record_type, text, wanted] => data::refused(record_type, text, wanted),
        ["data.print", record_type, text, origin, wanted] => {
            data::print(record_type, text, origin, wanted)
        }
        ["record.print", "simple", record @ .., wanted] => data::line(record, wanted),
        ["record.wire", record_type, octets, wanted] => data::wire(record_type, octets, wanted),
        ["name.spell", text, wanted] => data::name(text, None, wanted),
        ["name.spell", text, origin, wanted] => data::name(text, Some(origin), wanted),
        ["string.spell", text, wanted] => data::string(text, wanted),
        ["string.print", octets, wanted] => data::quoted(octets, wanted),
        ["class.print", code, wanted] => data::class(code, wanted),
        ["zone.entries" | "zone.records" | "zone.blocks" | "zone.pieces", text, wanted] => {
            entries::read(&octets_of(text), None, wanted)
        }
        ["zone.entries" | "zone.records" | "zone.blocks" | "zone.pieces", text, origin, wanted] => {
            entries::read(&octets_of(text), Some(origin), wanted)
        }
        ["canonical.names", left, right, wanted] => orders::names(left, right, wanted),
        ["canonical.octets", left, right, wanted] => orders::octets(left, right, wanted),
        ["canonical.lower", octets, wanted] => orders::lower(octets, wanted),
        ["canonical.records", records @ .., wanted] => orders::octet_records(records, wanted),
        ["record.compare", records @ .., wanted] => orders::records(records, wanted),
        ["record.canonical", record @ .., wanted] => orders::canonical(record, wanted),
        _ => false,
    }
}

#[test]
fn rows_agree() {
    each_row("test_records", 1600, judge);
}
