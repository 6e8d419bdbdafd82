#!/usr/bin/env bash
# gate.sh: runs the gate at the top of the repository (`rt ci`), and prints where its time went: processor seconds by
# crate for its proofs, its tests and its wrong edits, and of all that ran; by crate the sizes of generated
# descriptions, which the prover's time grows with (half a second for each MB of a small one, and up to one and a
# half for those above 2 MB); and the largest of these.
#
# Processor time by crate is read off /proc once a second, of the provers of this run alone: what one used in its
# last second is not counted, nor is clang; a wrong edit of a program counts as a proof of it. Descriptions are
# those that the gate keeps while it tries the wrong edits of a crate, so that crates without wrong edits, or with
# one, have none; all but a few seconds before a crate's end are seen.
set -u
cd "$(dirname "$0")/.."
seen=$(mktemp)
sizes=$(mktemp)
ticks=$(getconf CLK_TCK)

sample() { # a line for each process of the prover: its number and start, crate, part, ticks
  local pid words stat
  for pid in $(pgrep -s "$gate" -f '^/[^ ]*/rattle (build|check) '); do
    { words=$(tr '\0' ' ' <"/proc/$pid/cmdline"); stat=$(sed 's/^.*) //' "/proc/$pid/stat"); } 2>/dev/null
    [ -n "$words" ] && [ -n "$stat" ] || continue
    echo "$pid $words| $stat"
  done | awk '{
    split($0, half, "[|] "); count = split(half[2], s, " "); if (count < 20) next
    name = "?"; part = ($3 == "check" && !/ src\/main\.rt /) ? "edits" : "proofs" # a program is checked, then built
    for (i = 3; i <= NF && $i != "|"; i++) { if ($i == "--crate-name") name = $(i + 1); if ($i == "--test") part = "tests" }
    print $1 ":" s[20], name, part, s[12] + s[13] }'
}

descriptions() { # the name and the bytes of each that is kept now
  find "${TMPDIR:-/tmp}"/rt-edits-"$gate"-*/seed -name '*.Lts.oantt' -printf '%f %s\n' 2>/dev/null
}

begin=$(date +%s)
setsid rt ci & # a session of its own
gate=$!
trap 'kill -- "-$gate" 2>/dev/null; rm -f "$seen" "$seen.all" "$sizes" "$sizes.new"' EXIT
turns=0
while kill -0 "$gate" 2>/dev/null; do
  sample >>"$seen"
  if [ $((turns++ % 10)) = 0 ]; then
    descriptions | sort -u - "$sizes" >"$sizes.new" && mv "$sizes.new" "$sizes"
  fi
  sleep 1
done
wait "$gate"
status=$?
took=$(($(date +%s) - begin))
times >"$seen.all" # user and system time of this shell, and then of what it waited for

echo
echo "wall seconds: $took"
echo "processor time of all, user and system: $(tail -n 1 "$seen.all")"
awk -v ticks="$ticks" '
  { if ($4 > most[$1]) most[$1] = $4; crate[$1] = $2; part[$1] = $3 }
  END {
    for (id in most) { used[crate[id], part[id]] += most[id] / ticks; all[crate[id]] += most[id] / ticks; total[part[id]] += most[id] / ticks }
    printf "%-14s %8s %8s %8s %8s\n", "crate", "proofs", "tests", "edits", "all"
    for (name in all) printf "%-14s %8.0f %8.0f %8.0f %8.0f\n", name, used[name, "proofs"], used[name, "tests"], used[name, "edits"], all[name] | "sort -k5,5nr"
    close("sort -k5,5nr")
    sum = total["proofs"] + total["tests"] + total["edits"]
    printf "%-14s %8.0f %8.0f %8.0f %8.0f\n", "all", total["proofs"], total["tests"], total["edits"], sum
    printf "processor minutes of the provers: %.0f\n", sum / 60 }' "$seen"

echo
echo "descriptions by crate: how many, their MB, and the sum of the squares of these; the ten largest, in MB"
awk '{ sub(/^Rattle-/, "", $1); sub(/\.Lts\.oantt$/, "", $1); if ($2 > most[$1]) most[$1] = $2 }
  END {
    for (name in most) { split(name, part, "-proofs."); mb = most[name] / 1000000; count[part[1]]++; all[part[1]] += mb; sum[part[1]] += mb * mb }
    for (crate in sum) printf "%-18s %5d %6.0f %6.0f\n", crate, count[crate], all[crate], sum[crate] | "sort -k3,3nr"
    close("sort -k3,3nr")
    for (name in most) printf "%6.1f %s\n", most[name] / 1000000, name | "sort -rn | head -10"
  }' "$sizes"
exit "$status"
