#!/usr/bin/env bash
# release.sh [FOLDER]: one archive of the last commit, gb-COMMIT.tar.gz in FOLDER (here by default). It has the
# programs gb, gb_ask and gb_site as `rt run` builds them, proved and then stripped; the pages of the manual and
# the files for shells and editors; explain with the documents that it reads; a README; the commit; and SHA-256
# sums of all.
set -eu
folder=$(cd "${1:-.}" && pwd)
cd "$(dirname "$0")/.."
if [ -n "$(git status --porcelain)" ]; then
  echo "release.sh: there are changes that are not committed" >&2
  exit 1
fi
commit=$(git rev-parse --short=12 HEAD)
made=$(mktemp -d)
trap 'rm -rf "$made"' EXIT
top=$made/gb-$commit
mkdir -p "$top/bin" "$top/share"
for program in gb gb_ask gb_site; do
  rm -f "crates/$program/out/$program"
  # without a script the program is refused (64), or prints how to ask: either way it was proved and built
  (cd "crates/$program" && rt run </dev/null >/dev/null 2>&1) || true
  [ -x "crates/$program/out/$program" ] || { echo "release.sh: $program was not built" >&2; exit 1; }
  strip -o "$top/bin/$program" "crates/$program/out/$program"
done
git archive HEAD README.md docs tools | tar -x -C "$top/share"
git rev-parse HEAD >"$top/COMMIT"
cat >"$top/README" <<END
The programs are in bin, the documents in share/README.md and share/docs. For an editor, a shell, the manual
and explain, see "Editors and shells" and "CI" in share/docs/GUIDE.md.
Links of the documents into crates/ and bench/ lead nowhere in this archive. These folders are in the
repository, whose commit is in the file COMMIT.
END
(cd "$top" && find . -type f ! -name SHA256SUMS -print0 | sort -z | xargs -0 sha256sum >SHA256SUMS)
tar -C "$made" --sort=name --owner=0 --group=0 --mtime="@$(git log -1 --format=%ct)" \
  -czf "$folder/gb-$commit.tar.gz" "gb-$commit"
echo "$folder/gb-$commit.tar.gz"
