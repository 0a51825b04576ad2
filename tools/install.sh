#!/usr/bin/env bash
# Installs the headers, the archives and a pkg-config file, rfm.pc, for programs outside the tree: install.sh PREFIX
# C that stands beside the headers becomes an archive of its own, so that the others have what is proved and nothing else.
# DESTDIR, if set, stands before every place that is written to, and is named in no file.
set -eu
. "$(dirname "${BASH_SOURCE[0]}")/machine.sh"
if [ $# -ne 1 ]; then
    echo "usage: install.sh PREFIX puts headers, archives and rfm.pc below the folder PREFIX, such as /usr/local" >&2
    exit 2
fi
prefix=$(realpath -ms "$1")
to=${DESTDIR:-}$prefix
make_archives
need_compiler "${compiler[@]}"
install -d "$to/include" "$to/lib/pkgconfig"
install -m 644 "$root"/include/*.h "$to/include"
install -m 644 "${archives[@]}" "$to/lib"

object=$(mktemp)
trap 'rm -f "$object"' EXIT
shopt -s nullglob
for source in "$root"/include/*.c; do
    name=$(basename "$source" .c)
    "${compiler[0]}" -std=c11 -O2 -c -o "$object" "$source"
    "$("${compiler[0]}" -print-prog-name=ar)" rcs "$to/lib/lib$name.a" "$object"
    libraries+=("$name")
done

# The header's version, with points; 0 where it has none.
version=$(sed -n 's/^#define RFM_VERSION_[A-Z]* \([0-9]*\)$/\1/p' "$root/include/rfm.h" | paste -sd.)
cat > "$to/lib/pkgconfig/rfm.pc" <<END
prefix=$prefix
includedir=\${prefix}/include
libdir=\${prefix}/lib

Name: rfm
Description: Remote file management for SIM cards, proved
Version: ${version:-0}
Cflags: -I\${includedir}
Libs: -L\${libdir}$(printf -- ' -l%s' "${libraries[@]}")
END
