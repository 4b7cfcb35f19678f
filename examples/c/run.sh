#!/bin/sh
# Proves and builds the static library (minutes the first time), builds the C example and runs it. Needs `cc`.
set -e
cd "$(dirname "$0")/../.."
(cd crates/lotjudge_c && rt lib > /dev/null)
mkdir -p target/examples
cc -O2 -Wall -Iinclude examples/c/example.c crates/lotjudge_c/out/liblotjudge_c.a -o target/examples/example_c
target/examples/example_c
