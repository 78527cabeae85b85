#!/usr/bin/env bash
# The benchmark from nothing: proves and builds the library and the program, builds both packages, prints the table.
set -eu
cd "$(dirname "$0")/.."
bash tools/build
cd reference
cargo build --release --offline --locked --bins
exec target/release/benchmark
