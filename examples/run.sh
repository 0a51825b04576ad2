#!/usr/bin/env bash
# Builds each C example, runs it, and holds what it prints to NAME.expected.
set -euo pipefail
cd "$(dirname "${BASH_SOURCE[0]}")"
out=../target/examples
mkdir -p "$out"
for source in *.c; do
    name=${source%.c}
    ../tools/build.sh "$out/$name" "$source" ../include/rfm_text.c
    echo "$name"
    "$out/$name" | tee "$out/$name.stdout"
    diff "$name.expected" "$out/$name.stdout"
done
