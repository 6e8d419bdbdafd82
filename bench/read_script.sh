#!/usr/bin/env bash
# read_script.sh PROGRAM: times a built gb_replay on one put of 1 MiB of script and one run, for spaces,
# for lines `property a `, and for `[`.
set -eu
program=${1:?usage: read_script.sh PROGRAM}
input=$(mktemp)
trap 'rm -f "$input"' EXIT
for part in ' ' 'property a \n' '['; do
  {
    printf 'put build.gb '
    awk -v part="${part//\\/\\\\}" 'BEGIN { n = part == " " || part == "[" ? 1 : 12; for (i = 0; i < int(1048576 / n); i++) printf "%s", part }'
    printf '\nrun t\n'
  } >"$input"
  best=
  for _ in 1 2 3 4 5; do
    begin=$(date +%s%N)
    "$program" <"$input" >/dev/null || true
    took=$((($(date +%s%N) - begin) / 1000))
    if [ -z "$best" ] || [ "$took" -lt "$best" ]; then best=$took; fi
  done
  echo "1 MiB of '$part': $best us"
done
