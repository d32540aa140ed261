#!/usr/bin/env bash
# Compiles the sample in C against the static libraries, and compares what it prints with document 01's answers, the
# counters that go with them, and the answers of calls on the known book.
set -euo pipefail
cd "$(dirname "$0")/../.."
mkdir -p target/c
cc -std=c99 -Wall -Wextra -Werror -Iinclude examples/c/sample.c target/staticlib/lib{export,lists,known}.a \
    -o target/c/sample
target/c/sample > target/c/sample.out
printf '%s\n' 0 0 0 0 '0 7 2 4 6 8 10 12 14' '0 1' 12 6 '0 1 0' '0 1 1' '0 1' '0 1' 0 | diff - target/c/sample.out
echo "c: the sample's eight answers, two counters and three answers of the known book agree"
