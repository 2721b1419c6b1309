#!/usr/bin/env bash
# usage: build.sh SOURCE [OUT]
# SOURCE holds the original's src/lib.rs, src/math.rs and so on; OUT is where the build goes (default: build, beside this file).
# Lays out a cargo workspace in OUT: the original's files unchanged with what they need beside them (cfsem), the crate `oracle`
# over them, and `compare` and `kernels`, which link it; builds the oracle for any x86-64 in release mode.
# ORACLE_BUILDS="native debug" adds builds for this machine's processor and without optimisation.
set -eu
here=$(cd "$(dirname "$0")" && pwd)
source=$(cd "${1:?usage: build.sh SOURCE [OUT]}" && pwd)
mkdir -p "${2:-$here/build}"
out=$(cd "${2:-$here/build}" && pwd)

# Writes standard input to a file, and leaves the file alone if it holds that already, so that cargo builds nothing twice.
put() {
  mkdir -p "$(dirname "$1")"
  cat > "$1.new"
  if cmp -s "$1.new" "$1"; then rm "$1.new"; else mv "$1.new" "$1"; fi
}

# The original's files, byte for byte, and the modules that they name and that are not in SOURCE.
cfsem=$out/cfsem
for file in src/lib.rs src/math.rs src/mesh/triangle3d.rs src/mesh/elements/tri/{mapping,quadrature,tri3}.rs \
  src/physics/boundary_element/{mod,inductance,triangle_potential}.rs; do
  put "$cfsem/$file" < "$source/$file"
  cmp "$source/$file" "$cfsem/$file"
done
(cd "$here/stubs" && find math mesh physics -name '*.rs') | while read -r file; do
  put "$cfsem/src/$file" < "$here/stubs/$file"
done
# lib.rs includes the README as documentation.
echo "See oracle/README.md." | put "$cfsem/README.md"

# Second copies with an accessor appended, for functions and fields that are private to a file.
beside=$cfsem/src/physics/boundary_element
cat "$source/src/physics/boundary_element/inductance.rs" "$here/stubs/append_inductance.rs" | put "$beside/probe_inductance.rs"
cat "$source/src/physics/boundary_element/triangle_potential.rs" "$here/stubs/append_triangle_potential.rs" | put "$beside/probe_triangle_potential.rs"
cat "$source/src/mesh/triangle3d.rs" "$here/stubs/append_triangle3d.rs" | put "$cfsem/src/mesh/probe_triangle3d.rs"

package() { printf '[package]\nname = "%s"\nversion = "0.0.0"\nedition = "2024"\n' "$1"; }
shim() { echo "$1 = { path = \"$here/shims/$1\" }"; }
host() { echo "$1 = { path = \"$here/../host/$1\" }"; }
{
  package cfsem
  printf '[features]\npython = []\n[dependencies]\n'
  shim num-traits; shim rayon; shim libm; shim num_cpus
} | put "$cfsem/Cargo.toml"
{
  package oracle
  printf '[lib]\npath = "%s/reference/src/lib.rs"\ncrate-type = ["rlib", "staticlib"]\n' "$here"
  printf '[[bin]]\nname = "oracle"\npath = "%s/reference/src/main.rs"\n' "$here"
  printf '[dependencies]\ncfsem = { path = "../cfsem" }\n'
  shim num-traits; host cases
} | put "$out/oracle/Cargo.toml"
{
  package compare
  printf '[[bin]]\nname = "compare"\npath = "%s/compare/src/main.rs"\n' "$here"
  printf '[dependencies]\noracle = { path = "../oracle" }\n'
  host replay
} | put "$out/compare/Cargo.toml"
{
  package kernels
  printf '[lib]\npath = "%s/../bench/kernels/src/lib.rs"\ncrate-type = ["cdylib"]\n' "$here"
  printf '[dependencies]\ncfsem = { path = "../cfsem" }\n'
  shim num-traits
} | put "$out/kernels/Cargo.toml"
put "$out/Cargo.toml" <<'END'
[workspace]
resolver = "2"
members = ["cfsem", "oracle", "compare", "kernels"]
[profile.release]
debug-assertions = false
overflow-checks = false
[profile.dev]
debug-assertions = false
overflow-checks = false
END

cd "$out"
export CARGO_NET_OFFLINE=true
quiet="-A warnings" # the originals' unused functions
RUSTFLAGS="$quiet" cargo build -q --release -p oracle --target-dir target
for build in ${ORACLE_BUILDS:-}; do
  case $build in
    native) RUSTFLAGS="$quiet -C target-cpu=native" cargo build -q --release -p oracle --target-dir target-native ;;
    debug) RUSTFLAGS="$quiet" cargo build -q -p oracle --target-dir target-debug ;;
    *) echo "build.sh: no such build: $build" >&2; exit 2 ;;
  esac
done
echo "oracle: $out/target/release/oracle"
