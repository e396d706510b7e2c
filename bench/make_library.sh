#!/bin/sh
# Builds the static library that the benchmark times: one crate over all others, in a copy of the crates
# under target/, since it isn't proved and tested. Its arguments are passed to `rt lib`. The program
# `dnstext`, whose memory is measured, is built beside it.
set -e
cd "$(dirname "$0")"
space=target/library
mkdir -p $space/crates
for crate in ../crates/*/; do
    copy=$space/crates/$(basename "$crate")
    mkdir -p "$copy"
    [ -d "$copy/out" ] || [ ! -d "$crate/out" ] || cp -a "$crate/out" "$copy/"
    rm -rf "$copy/src" "$copy/specs" "$copy/proofs"
    for part in src specs proofs; do
        [ ! -d "$crate/$part" ] || cp -a "$crate/$part" "$copy/"
    done
done
bench=$space/crates/dns_bench_c
mkdir -p $bench/src $bench/specs $bench/proofs
for module in library/*.rt.in; do
    cp "$module" "$bench/src/$(basename "$module" .in)"
done
: > $bench/specs/Lib.antt
: > $bench/proofs/Lib.antt
cp ../HANDLES $space/
cp ../crates.txt $space/
echo "dns_bench_c staticlib: dns_text test_api custom_record zone_record zone_reader rdata dns_zone rdata_fields rdata_values dns_wire dns_lexer dns_charstr dns_symbol" >> $space/crates.txt
(cd $bench && rt lib "$@")
(cd $space/crates/dnstext && rt run "$@" -- print simple t:a)
