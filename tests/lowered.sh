#!/bin/sh
# lowered.sh EZPZ WINNOW PROGRAM: compiles the Rust's lowering into PROGRAM, for this machine, which tests/lowered.py asks.
# EZPZ and WINNOW are the folders that bench/run takes; rustc is needed.
set -eu
[ $# -eq 3 ] || { sed -n '2,3s/^# //p' "$0" >&2; exit 2; }
here=$(cd "$(dirname "$0")" && pwd)
scratch=$(mktemp -d)
trap 'rm -rf "$scratch"' EXIT
. "$here/../bench/rust/program.sh"
optimised() { rustc -O --cap-lints allow "$@"; }
program optimised "$here/../bench/rust" "$1" "$2" "$here/lowered.rs" "$scratch/rust"
cp "$scratch/rust/driver" "$3"
