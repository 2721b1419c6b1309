#!/usr/bin/env bash
# usage: demo.sh [FILE.pnl [RULE]]
# The main job. Proves and builds the static library (some minutes the first time) and the tool, then computes the inductance
# matrix of a panel file (examples/plate.pnl, rule 3), prints the count of cells, the time and the energy of a unit ring, and
# draws the panels. What it writes is in demo/.
set -eu
cd "$(dirname "$0")"
file=${1:-examples/plate.pnl}
rule=${2:-3}
./archive.sh
(cd host && cargo build -q --offline --release)
screens=host/target/release/screens
mkdir -p demo
"$screens" check "$file"
"$screens" matrix "$file" --rule "$rule" -o demo/matrix.npy
printf 'energy of a unit ring: '
"$screens" energy demo/matrix.npy --ring "$file"
"$screens" plot "$file" -o demo/mesh.svg
