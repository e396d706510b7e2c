#!/bin/sh
# Builds the library, runs every row, and writes the table into results.md and the chart into ../docs. Run it
# on an idle computer. Its arguments are passed to `rt lib`.
set -e
cd "$(dirname "$0")"
./make_library.sh "$@"
cargo run --release -- --markdown --svg > target/tables.md
page=results.md
{
    sed '/^<!-- tables -->$/q' $page
    cat target/tables.md
    sed -n '/^<!-- end of tables -->$/,$p' $page
} > target/page.md
cp target/page.md $page
