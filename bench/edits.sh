#!/usr/bin/env bash
# edits.sh CRATE..: tries the wrong edits of bench/edits/CRATE, which the gate does not try. In a copy of the last
# commit they are added to the crate's own, and `rt must-fail` says of each whether it is refused.
set -eu
cd "$(dirname "$0")/.."
copy=$(mktemp -d)
trap 'rm -rf "$copy"' EXIT
git clone -q . "$copy/gb"
for crate; do
  mkdir -p "$copy/gb/crates/$crate/must-fail"
  cp "bench/edits/$crate"/*.edit "$copy/gb/crates/$crate/must-fail/"
done
cd "$copy/gb"
rt must-fail "$@"
