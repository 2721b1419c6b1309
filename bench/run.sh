#!/usr/bin/env bash
# usage: run.sh SOURCE [matrix [RULES [SIZES [ROUNDS]]] | moves [COUNT] | record [RULES [SIZES [ROUNDS]]]]
# Proves and builds our static library, builds the original in SOURCE for any x86-64 and for this processor, and times ours,
# the processor's own operations and the two builds of the original in one run. Prints a table. With `matrix` the table is of
# fresh matrices and moves of whole screens, with `moves` runs of moves are compared cell by cell. With `record` it measures
# the arithmetic, whole screens (rules 12345, 3 sizes and medians of 5 rounds if not said otherwise), panel files, stack and memory, prints the
# tables and writes them to docs/PERFORMANCE.md between its two marks.
set -eu -o pipefail
here=$(cd "$(dirname "$0")" && pwd)
source=$(cd "${1:?usage: run.sh SOURCE [matrix | moves | record]}" && pwd)
"$here/../oracle/build.sh" "$source" "$here/build/original"
"$here/../archive.sh" | tail -n 1
export CARGO_NET_OFFLINE=true
cd "$here/build/original"
RUSTFLAGS="-A warnings" cargo build -q --release -p kernels --target-dir target
RUSTFLAGS="-A warnings -C target-cpu=native" cargo build -q --release -p kernels --target-dir target-native
cd "$here/driver"
SCREENS_LIB=$here/../target/staticlib cargo build -q --release --target-dir "$here/build/driver"
driver() {
  "$here/build/driver/release/driver" "$here/build/original/target/release/libkernels.so" \
    "$here/build/original/target-native/release/libkernels.so" "$@"
}

# An example of the Rust crate.
example() {
  (cd "$here/../host" && cargo run -q --offline --release -p screens --example "$1")
}

# What the calls take beside time.
footprint() {
  example footprint
  printf '\nMemory: the caller'"'"'s buffers and no other. What the archive calls outside itself: '
  nm -u "$here/../target/staticlib/libscreens.a" | awk '$1 == "U" { print $2 }' | sort -u | paste -sd ' '
}

# All tables, with what they are.
tables() {
  printf '%s; %s, load %s at the start.\n\n### Arithmetic\n\n' "$(date -u +%Y-%m-%d)" \
    "$(sed -n 's/^model name[^:]*: //p' /proc/cpuinfo | head -n 1)" "$(cut -d ' ' -f 1 /proc/loadavg)"
  driver
  printf '\n### Whole screens\n\nSeconds of thread time, medians of %s; spread is the widest of the three times of a row; the move is of a node in the middle.\n\n' "$3"
  driver matrix "$1" "$2" "$3"
  printf '\n### Panel files\n\nMilliseconds a call on the largest file, the least of 40 measurements in turns.\n\n'
  example file_times
  printf '\n### Stack and memory\n\n'
  footprint
}

# Puts a file between the two marks of docs/PERFORMANCE.md.
record() {
  page=$here/../docs/PERFORMANCE.md
  awk -v tables="$1" '
    /^<!-- end of the recorded run -->$/ { while ((getline line < tables) > 0) print line; skipping = 0 }
    !skipping { print }
    /^<!-- recorded run/ { skipping = 1 }
  ' "$page" > "$page.new"
  mv "$page.new" "$page"
}

if [ "${2:-}" = record ]; then
  tables "${3:-12345}" "${4:-3}" "${5:-5}" | tee "$here/build/tables.md"
  record "$here/build/tables.md"
else
  driver "${@:2}"
fi
