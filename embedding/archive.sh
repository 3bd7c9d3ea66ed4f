#!/bin/sh
# Proves and builds the static library, crates/musseltwig, and leaves it as target/embedding/libmusseltwig.a.
cd "$(dirname "$0")/.." || exit 2
made=$PWD/target/embedding
mkdir -p "$made" || exit 2
rm -f "$made/libmusseltwig.a"
(cd crates/musseltwig && rt lib) >"$made/archive.log" 2>&1 || { cat "$made/archive.log"; exit 1; }
cp crates/musseltwig/out/libmusseltwig.a "$made/"
