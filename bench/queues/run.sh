#!/bin/sh
# Proves and builds the verified queues as a static library, then times them.
set -e
cd "$(dirname "$0")"
(cd ../../crates/queue_bench_c && rt lib)
mkdir -p ../../target/staticlib
cp ../../crates/queue_bench_c/out/libqueue_bench_c.a ../../target/staticlib/libqueue_bench.a
cargo run --release
