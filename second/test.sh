#!/usr/bin/env bash
# Builds and runs the test of the second program, plainly and under the sanitizers.
# Build products go to target/second/ at the repository root.
set -u
here=$(cd "$(dirname "${BASH_SOURCE[0]}")" && pwd) || exit 1
out=$here/../target/second
cc=${CC:-cc}
mkdir -p "$out" || exit 1

warnings="-std=c11 -Wall -Wextra -Werror"
sanitizers="-fsanitize=address,undefined -fno-sanitize-recover=all"
sources=("$here"/second.c "$here"/desk.c "$here"/desk_text.c "$here"/test*.c)
failed=0

# The calls themselves need no C library.
for calls in second desk; do
    $cc $warnings -O2 -ffreestanding -c "$here"/$calls.c -o "$out"/$calls-freestanding.o || failed=1
done

if $cc $warnings -O2 "${sources[@]}" -o "$out"/test; then
    "$out"/test || failed=1
else
    failed=1
fi

# Are the sanitizers there, and do their programs run?
printf 'int main(void) { return 0; }\n' > "$out"/trivial.c
if $cc $sanitizers "$out"/trivial.c -o "$out"/trivial > /dev/null 2>&1 &&
   "$out"/trivial > /dev/null 2>&1; then
    if $cc $warnings -O1 -g $sanitizers "${sources[@]}" -o "$out"/test-sanitized; then
        "$out"/test-sanitized || failed=1
    else
        failed=1
    fi
else
    echo "second: no address and undefined-behaviour sanitizers here, that run is left out"
fi
exit $failed
