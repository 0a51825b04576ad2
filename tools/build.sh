#!/usr/bin/env bash
# Makes a command OUT from C sources and the proved library: build.sh OUT SOURCE..
set -eu
. "$(dirname "${BASH_SOURCE[0]}")/machine.sh"
if [ $# -lt 2 ]; then
    echo "usage: build.sh OUT SOURCE.. makes the command OUT from C sources (or words for the compiler) and the proved library" >&2
    exit 2
fi
link "$@"
