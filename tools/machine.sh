# shellcheck shell=bash
# Sourced by the scripts that link the library with C or run what the kit compiles. The kit compiles for x86-64, and so
# does the compiler of the machine: only this file knows how.
root=$(dirname "$(dirname "$(readlink -f "${BASH_SOURCE[0]}")")")

# Says a sentence on standard error: say SENTENCE
say() { printf '%s: %s\n' "${0##*/}" "$*" >&2; }

command -v rt > /dev/null || {
    say "this needs the Rattle toolchain, kit 13 or later (13f proved what stands here), and its command rt is not in PATH"
    exit 1
}

# The crates that become archives for C: libNAME.a each.
libraries=(rfm rfm_desk)

# The compiler with its Debian packages.
compiler=(cc gcc libc6-dev)

# Installs Debian packages, or says that they are missing: install_packages PACKAGE..
install_packages() {
    say "installing from Debian: $*"
    { apt-get update -qq && DEBIAN_FRONTEND=noninteractive apt-get install -y -qq "$@"; } > /dev/null ||
        { say "missing, and not to be installed from here: the Debian packages $*"; return 1; }
}

# Sees that a command is there, or installs its packages: need COMMAND PACKAGE..
need() { command -v "$1" > /dev/null || install_packages "${@:2}"; }

# Sees that a C compiler and the C library's headers are there, or installs them: need_compiler COMMAND PACKAGE..
need_compiler() { "$1" -E -include stdio.h -x c /dev/null > /dev/null 2>&1 || install_packages "${@:2}"; }

# Prints the digest of all that rt makes files from: the kit and the crates.
digest() {
    cd "$root" && {
        rt version
        find crates crates.txt -name out -prune -o -type f -print0 | LC_ALL=C sort -z | xargs -0 sha256sum
    } | sha256sum
}

# Has rt make an archive or a program, unless it was made from the crates as they are: fresh FILE NAME COMMAND
# FILE is below target/, and its name is that of what rt makes in crates/NAME/out/, which `rt ci` does not keep.
# FILE.from has the digest of what FILE was made from. Each crate is named on standard error when it is proved.
fresh() {
    local file=$root/$1 crate=$root/crates/$2 from said
    from=$(digest) || return 1
    [ ! -e "$file" ] || [ "$(cat "$file.from" 2> /dev/null)" != "$from" ] || return 0
    if ! mkdir -p "${file%/*}" 2> /dev/null || [ ! -w "${file%/*}" ] || [ ! -w "$crate" ]; then
        say "$1 is to be made, and $(id -un) may not write to target/ and crates/: have its owner run this once, or make a clone of your own"
        return 1
    fi
    say "proving the crates of $1 that are not proved yet: for all of them that takes minutes, once"
    rm -f "$file" "$file.from"
    said=$(
        set -o pipefail
        cd "$crate" && rt "$3" 2>&1 < /dev/null | sed -u '/^crate /w /dev/stderr'
    ) || { sed '/: proved$/d; /^statements /d' <<< "$said" >&2; say "not made: $1"; return 1; }
    cp "$crate/out/${file##*/}" "$file" && printf '%s\n' "$from" > "$file.from"
}

# Sees that a program of the project is there, as target/bin/NAME: make_program NAME
make_program() { fresh "target/bin/$1" "$1" run; }

# Sees that the archives are there, and sets `archives` to their files. RFM_ARCHIVE names another file to link with in
# place of them, such as an earlier archive to compare with.
make_archives() {
    local name
    archives=()
    if [ -n "${RFM_ARCHIVE:-}" ]; then
        archives=("$RFM_ARCHIVE")
        return
    fi
    for name in "${libraries[@]}"; do
        fresh "target/staticlib/lib$name.a" "$name" lib || return 1
        archives+=("$root/target/staticlib/lib$name.a")
    done
}

# Compiles C sources and links them with every archive of the project: link OUT SOURCE..
link() {
    make_archives && need_compiler "${compiler[@]}" &&
        "${compiler[0]}" -std=gnu11 -Wall -Wextra -O2 -static -I "$root/include" -o "$@" "${archives[@]}"
}
