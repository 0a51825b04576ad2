#!/usr/bin/env bash
# Checks installing: puts the library into a folder of its own, builds an example outside the tree with what pkg-config
# says, runs it, and holds what it prints to examples/fleet.expected.
set -eu -o pipefail
. "$(dirname "${BASH_SOURCE[0]}")/machine.sh"
need pkg-config pkg-config
need_compiler "${compiler[@]}"
room=$(mktemp -d)
trap 'rm -rf "$room"' EXIT
DESTDIR=$room "$root"/tools/install.sh /usr/local/rfm
cp "$root"/examples/*.[ch] "$room"
cd "$room"
export PKG_CONFIG_LIBDIR=$room/usr/local/rfm/lib/pkgconfig PKG_CONFIG_SYSROOT_DIR=$room
read -ra words <<< "$(pkg-config --cflags --libs rfm)"
"${compiler[0]}" -static -o fleet fleet.c "${words[@]}"
./fleet | diff "$root"/examples/fleet.expected -
