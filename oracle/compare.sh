#!/usr/bin/env bash
# usage: compare.sh SOURCE [SEED [SCALE [KIND]] | soak MINUTES [SEED [SCALE]] | findings]
# Proves and builds our static library and the program `density`, builds the original in SOURCE, and compares the two, ours
# through the Rust crate of host/screens, on cases by seed. With `soak` it goes on with one seed after another for so many
# minutes; with `findings` it asks both what docs/DIFFERENCES.md lists. Ends with the count of cases and `0 differ`; the exit
# status is 1 if any differ, and 2 if what was asked for is nothing that can be compared.
set -eu -o pipefail
here=$(cd "$(dirname "$0")" && pwd)
source=$(cd "${1:?usage: compare.sh SOURCE [SEED [SCALE [KIND]] | soak MINUTES [SEED [SCALE]] | findings]}" && pwd)
shift
"$here/build.sh" "$source"
"$here/../archive.sh" | tail -n 1
(cd "$here/../crates/density" && rt run < stdin > /dev/null)
export SCREENS_DENSITY=$here/../crates/density/out/density
cd "$here/build"
SCREENS_LIB=$here/../target/staticlib CARGO_NET_OFFLINE=true RUSTFLAGS="-A warnings" \
  cargo build -q --release -p compare --target-dir target
# The original warns about poor panels on standard error.
target/release/compare "$@" 2> >(grep -v '^warning: .* aspect ratio' >&2)
