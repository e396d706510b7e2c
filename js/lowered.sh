#!/bin/sh
# lowered.sh WIDE.wasm NARROW.wasm: checks that NARROW is WIDE, whose memory has addresses of 64 bits, and differs from
# it only by the kind of the memory, by the type of the offsets of its data, and by one i32.wrap_i64 for each address and
# each length that an instruction of memory uses. So both do the same, as long as WIDE uses only its own memory, which is
# below 4 GiB. Needs wasm-opt and wasm2wat.
set -eu
work=$(mktemp -d)
trap 'rm -rf "$work"' EXIT
features='--enable-memory64 --enable-bulk-memory --enable-sign-ext --enable-nontrapping-float-to-int
    --enable-multivalue --enable-mutable-globals'
# (wasm-opt writes both, so that they differ in nothing else)
# shellcheck disable=SC2086
wasm-opt $features "$1" -o "$work/wide.wasm" 2> "$work/said"
wasm2wat --enable-memory64 "$work/wide.wasm" > "$work/wide"
wasm2wat "$2" > "$work/narrow"
for it in wide narrow; do grep -vE '^ *i32\.wrap_i64$' "$work/$it" > "$work/$it.rest"; done
sed -E 's/^(  \(memory \(;0;\)) i64 /\1 /; s/^(  \(data \(;[0-9]+;\) \()i64/\1i32/' "$work/wide.rest" |
    cmp -s - "$work/narrow.rest" || { echo "lowered: $2 has other instructions than $1" >&2; exit 1; }
# count PATTERN FILE: the number of lines
count() { grep -cE "$1" "$2" || true; }
added=$(($(count '^ *i32\.wrap_i64$' "$work/narrow") - $(count '^ *i32\.wrap_i64$' "$work/wide")))
accesses=$(count '^ *[if](32|64)\.(load|store)' "$work/narrow")
fills=$(count '^ *memory\.fill\b' "$work/narrow")
copies=$(count '^ *memory\.copy\b' "$work/narrow")
wanted=$((accesses + 2 * fills + 3 * copies))
[ "$added" = "$wanted" ] || { echo "lowered: $added addresses are cut, and $wanted are used" >&2; exit 1; }
if grep -qE '^ *(memory\.(size|grow|init)|v128|.*atomic)' "$work/narrow"; then
    echo 'lowered: an instruction of memory that is not known here' >&2
    exit 1
fi
echo "lowered: the same but for $added addresses and lengths"
