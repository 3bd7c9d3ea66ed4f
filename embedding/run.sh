#!/bin/sh
# Everything of the library for C and Rust, from a fresh clone: proves and builds it, holds the declarations to the Rattle source, runs
# the vectors through C and Rust, the two examples, and README's own commands. It needs rt, Python 3, gcc and cargo, and no network.
set -e
cd "$(dirname "$0")/.."
made=target/embedding
python3 embedding/declarations.py --check
python3 embedding/exports.py --check
embedding/archive.sh
sanitize="-std=c11 -O1 -g -Wall -Wextra -Werror -fsanitize=address,undefined -I embedding/include"
gcc $sanitize embedding/c/vectors.c embedding/c/calls.c $made/libmusseltwig.a -pthread -o $made/vectors
$made/vectors crates/vectors_test/stdin
$made/vectors crates/vectors_test/stdin 4
gcc $sanitize embedding/c/example.c $made/libmusseltwig.a -o $made/example
export CARGO_TARGET_DIR="$PWD/$made/cargo"
cargo test --quiet --offline --release --manifest-path embedding/rust/Cargo.toml -- --nocapture
# README's section: its three commands as they are written, and the lines that it says each example prints
section=$(sed -n '/^## Use it from C or Rust/,/^## The files/s/^    //p' README.md)
commands=$(echo "$section" | grep -E '^(gcc -I|target/embedding/nine|cargo run --offline --manifest-path embedding/rust)' || :)
printed=$(echo "$section" | grep -vE '^(gcc|target|cargo|embedding)' || :)
[ "$(echo "$commands" | wc -l)" = 3 ] || { echo "README's section has other commands: $commands"; exit 1; }
told=$($made/example)
[ "$told" = "$printed" ] || { echo "the example printed: $told"; exit 1; }
told=$(sh -ec "$commands")
[ "$told" = "$printed
$printed" ] || { echo "README's commands printed: $told"; exit 1; }
echo "embedding: all of it runs"
