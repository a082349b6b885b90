#!/bin/sh
# How long harvests take, in milliseconds: 1,048,576 pieces of work that do nothing, and 4,000 pieces of 100 microseconds
# each. Run it on a machine that does nothing else. It proves and builds the program first where that is wanted.
set -e
cd "$(dirname "$0")/../crates/pool_bench"
rt run -- answer 2 7 >/dev/null 2>&1
for workers in 1 2 4 64; do
    for _ in 1 2 3; do echo "empty, $workers workers: $(out/pool_bench empty "$workers" 1048576)"; done
done
for workers in 1 2 4; do
    for _ in 1 2 3; do echo "100 microseconds, $workers workers: $(out/pool_bench busy "$workers" 4000)"; done
done
