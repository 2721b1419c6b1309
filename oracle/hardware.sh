#!/usr/bin/env bash
# usage: hardware.sh [SEED] [MILLIONS]
# Proves and builds our static library and compares its mul_add, square_add and sqrt with the processor's own, so many
# million cases each (default 10). The exit status is 1 if any differ.
set -eu -o pipefail
here=$(cd "$(dirname "$0")" && pwd)
"$here/../archive.sh" | tail -n 1
cd "$here/hardware"
SCREENS_LIB=$here/../target/staticlib CARGO_NET_OFFLINE=true cargo build -q --release --target-dir "$here/build/hardware"
"$here/build/hardware/release/hardware" "$@"
