#!/bin/sh
# site_of_docs.sh PROGRAM [FOLDER]: builds this project's own site, of README.md, docs/ and site/, with a built
# `gb_site`, twice: the first build has to succeed, and the second to find each task up to date. The site is in
# FOLDER/build/site; without FOLDER it is made in a temporary one.
set -eu
program=$(realpath "$1")
cd "$(dirname "$0")/.."
if [ $# -gt 1 ]; then
    mkdir -p "$2"
    room=$(realpath "$2")
else
    room=$(mktemp -d)
    trap 'rm -rf "$room"' EXIT
fi

# the site's own files, the pages, the pictures, and the files of the repository that pages link
cp -r site/. "$room"
mkdir -p "$room/pages/docs" "$room/static/docs"
cp README.md "$room/pages"
cp docs/*.md "$room/pages/docs"
cp -r docs/pictures "$room/static/docs"
grep -oh '](\.\./crates/[^)#]*' docs/*.md | sed 's/^](\.\.\///' | sort -u | while read -r file; do
    mkdir -p "$room/static/$(dirname "$file")"
    cp "$file" "$room/static/$file"
done

cd "$room"
"$program"
again=$("$program")
if printf '%s\n' "$again" | grep -q 'actionable tasks: 3 up-to-date'; then
    echo "the second build is up to date"
else
    printf '%s\n' "$again"
    echo "the second build is not up to date" >&2
    exit 1
fi
