#!/usr/bin/env bash
# usage: archive.sh
# Proves the crates of the C interface, builds a static library of each and joins them to target/staticlib/libscreens.a. The exit
# status is 0 only if the archive is there; each global name in it begins with `screens_` and stands once.
set -eu -o pipefail
cd "$(dirname "$0")"
folder=target/staticlib
archive=$folder/libscreens.a
rm -f "$archive"
mkdir -p "$folder"
work=$(mktemp -d "$folder/join.XXXXXX")
trap 'rm -rf "$work"' EXIT
for part in screens_panels screens_assembly_c screens_meshes; do
  (cd "crates/$part" && rt lib)
  mkdir "$work/$part"
  library=$PWD/crates/$part/out/lib$part.a
  (cd "$work/$part" && ar x "$library")
done
# q and not r, which keeps one of two members of the same name; D: the same bytes from the same objects
ar qcsD "$work/libscreens.a" "$work"/*/*
wrong=$(nm -g --defined-only "$work/libscreens.a" | awk 'NF == 3 && ($3 !~ /^screens_/ || seen[$3]++) { print $3 }')
[ -z "$wrong" ] || { echo "archive.sh: twice, or global without screens_:" $wrong >&2; exit 1; }
mv "$work/libscreens.a" "$archive"
echo "archive.sh: $archive has the functions of the C interface"
