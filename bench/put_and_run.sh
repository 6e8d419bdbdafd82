#!/usr/bin/env bash
# put_and_run.sh PROGRAM [N..]: times a built gb_replay on N puts and one run, for each N (10000 and 20000).
set -eu
program=${1:?usage: put_and_run.sh PROGRAM [N..]}; shift
[ $# -gt 0 ] || set -- 10000 20000
input=$(mktemp)
trap 'rm -f "$input"' EXIT
for count in "$@"; do
  {
    seq -f 'put p%.0f text' 1 "$count"
    echo 'put build.gb register t { doLast printLine("t") }'
    echo 'run t'
  } >"$input"
  best=
  for _ in 1 2 3 4 5; do
    begin=$(date +%s%N)
    "$program" <"$input" >/dev/null
    took=$((($(date +%s%N) - begin) / 1000))
    if [ -z "$best" ] || [ "$took" -lt "$best" ]; then best=$took; fi
  done
  echo "$count puts: $best us"
done
