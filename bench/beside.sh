#!/usr/bin/env bash
# usage: beside.sh STATE [RULES [SIZES [ROUNDS]]]
# This state beside an earlier one: STATE is a commit, or a folder that has its target/staticlib/libscreens.a already. Prints four
# tables: the read-only memory of the archive, by object, in bytes; display values; the quadrature points of 8,192 panels; fresh matrices
# and moves of whole screens. Both archives are timed in turns, ROUNDS (5) times each, for the digits of RULES (135) and the first SIZES
# (3) of 300, 1,000, 2,000 and 4,096 nodes; with 0 sizes there is no fourth table. A time is one of this thread, a ratio this state over
# the earlier.
set -eu -o pipefail
here=$(cd "$(dirname "$0")" && pwd)
state=${1:?usage: beside.sh STATE [RULES [SIZES [ROUNDS]]]}
rules=${2:-135} sizes=${3:-3} rounds=${4:-5}
export CARGO_NET_OFFLINE=true
if [ -d "$state" ]; then
  before=$(cd "$state" && pwd)
else
  before=$here/build/before
  rm -rf "$before"
  git clone -q "$here/.." "$before"
  git -C "$before" checkout -q "$state"
  "$before/archive.sh" | tail -n 1 >&2
fi
"$here/../archive.sh" | tail -n 1 >&2
cd "$here/driver"
for one in before now; do
  lib=$here/../target/staticlib
  [ $one = now ] || lib=$before/target/staticlib
  SCREENS_LIB=$lib cargo build -q --release --target-dir "$here/build/driver-$one"
done
# What is loaded and not written, an object a line: the state, the object, its constants and its code.
read_only() {
  size -A "$2/target/staticlib/libscreens.a" | awk -v state="$1" '
    /^screens_/ { object = $1; order[++n] = object }
    /^\.rodata/ { constants[object] += $2 }
    /^\.text/ { code[object] += $2 }
    END { for (k = 1; k <= n; k++) print state, order[k], constants[order[k]], code[order[k]] }'
}
{ read_only before "$before"; read_only now "$here/.."; } | awk '
  { split($2 " all", name, " "); for (k in name) { constants[$1, name[k]] += $3; code[$1, name[k]] += $4 }
    if (!seen[$2]++) order[++n] = $2 }
  END {
    print "| object | constants before | now | code before | now | together before | now | more |"
    print "|---|--:|--:|--:|--:|--:|--:|--:|"
    order[++n] = "all"
    for (k = 1; k <= n; k++) {
      a = constants["before", order[k]]; b = constants["now", order[k]]; c = code["before", order[k]]; d = code["now", order[k]]
      printf "| %s | %d | %d | %d | %d | %d | %d | %+d |\n", order[k], a, b, c, d, a + c, b + d, b + d - a - c
    }
    print ""
  }'
run() { "$here/build/driver-$1/release/driver" "${@:2}" | sed "s/^/$1 /"; }
times=$(mktemp)
trap 'rm -f "$times"' EXIT
# HEADING PLACES WORDS...: the driver's lines by WORDS, each a name and a time, in turns; a name's figure is the least of its rounds.
least() {
  : > "$times"
  for _ in $(seq "$rounds"); do
    for one in before now; do run $one "${@:3}" >> "$times"; done
  done
  awk -v heading="$1" -v places="$2" '
    { key = $1 " " $2; if (!(key in least) || $3 < least[key]) least[key] = $3; if (!seen[$2]++) order[++n] = $2 }
    END {
      print heading
      print "|--:|--:|--:|--:|"
      for (k = 1; k <= n; k++) {
        a = least["before " order[k]]; b = least["now " order[k]]
        printf "| %s | %.*f | %.*f | %.3f |\n", order[k], places, a, places, b, b / a
      }
    }' "$times"
}
least "| display values of a million numbers | before, ns a call | now, ns | now/before |" 2 display
echo
least "| quadrature points of 8,192 panels, rule | before, ms | now, ms | now/before |" 3 points "$rules"
[ "$sizes" -gt 0 ] || exit 0
echo
: > "$times"
for _ in $(seq "$rounds"); do
  for one in before now; do run $one ours "$rules" "$sizes" >> "$times"; done
done
# each line: state, screen, nodes, rule, seconds of a matrix, seconds of a move
awk '
  function median(list, n, a, i) { n = split(list, a, " "); sort(a, n); low = a[1]; high = a[n]; return a[int((n + 1) / 2)] }
  function sort(a, n, i, j, t) { for (i = 2; i <= n; i++) { t = a[i] + 0; for (j = i - 1; j > 0 && a[j] + 0 > t; j--) a[j + 1] = a[j]; a[j + 1] = t } }
  function spread() { return (high - low) / low * 100 }
  { row = $3 " nodes, " $2 " | " $4; if (!(row in seen)) { seen[row] = 1; order[++rows] = row }
    matrix[$1, row] = matrix[$1, row] " " $5; move[$1, row] = move[$1, row] " " $6 }
  END {
    print "| screen | rule | matrix before, s | now, s | now/before | spread | move before, s | now, s | now/before | spread |"
    print "|---|--:|--:|--:|--:|--:|--:|--:|--:|--:|"
    for (k = 1; k <= rows; k++) {
      row = order[k]
      a = median(matrix["before", row]); s = spread(); b = median(matrix["now", row]); if (spread() > s) s = spread()
      c = median(move["before", row]); t = spread(); d = median(move["now", row]); if (spread() > t) t = spread()
      printf "| %s | %.3f | %.3f | %.3f | %.1f %% | %.5f | %.5f | %.3f | %.1f %% |\n", row, a, b, b / a, s, c, d, d / c, t
    }
  }' "$times"
