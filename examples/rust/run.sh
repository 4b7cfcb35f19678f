#!/bin/sh
# Proves and builds the static library (minutes the first time), builds the Rust example and runs it. Needs `cargo`.
set -e
cd "$(dirname "$0")/../.."
(cd crates/lotjudge_c && rt lib > /dev/null)
cargo run --quiet --release --offline --manifest-path examples/rust/Cargo.toml --target-dir target/examples
