#!/usr/bin/env bash
# usage: make.sh SOURCE
# Writes the stored sample anew, a file for each program that replays it in Rattle and one for the host's tests alone; SOURCE as
# for oracle/build.sh. The same original gives the same bytes. Each file's last case is wrong, and the oracle must find that.
set -eu
here=$(cd "$(dirname "$0")" && pwd)
"$here/../build.sh" "${1:?usage: make.sh SOURCE}"
oracle=$here/../build/target/release/oracle
# The original warns about poor panels on standard error.
quietly() { "$@" 2> >(grep -v '^warning: .* aspect ratio' >&2); }
quietly "$oracle" stored "$here"
for file in calls meshes matrices returns large; do
  quietly "$oracle" check "$here/$file.bin" 1
done
# What the programs in Rattle read is the same bytes.
for file in calls meshes matrices returns; do
  cp "$here/$file.bin" "$here/../../crates/oracle_$file/stdin"
done
