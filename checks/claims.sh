#!/bin/sh
# claims.sh FOLDER PATTERN ALLOWED: the lines of the texts in what bin/package made there that have the first pattern, but not the second. Of the
# pages that are in each package the first line says how much of them holds; a changelog tells of other builds.
set -u
work=$(mktemp -d) || exit 1
trap 'rm -rf "$work"' EXIT
for file in "$1"/*; do
    into=$work/$(basename "$file")
    case $file in
    *.tar.gz) mkdir "$into" && tar -C "$into" -xf "$file" ;;
    *.deb) dpkg-deb -R "$file" "$into" ;;
    *.whl) mkdir "$into" && python3 -m zipfile -e "$file" "$into" ;;
    esac || exit 1
done
find "$work" -type f -name '*.gz' -exec gunzip {} +
find "$work" -name PROMISES.md -exec sed -i '1!d' {} +
find "$work" -type f ! -iname 'changelog*' ! -name DEFINITIONS.md ! -name LICENCES ! -name copyright ! -name verify ! -path '*/rust/*tests/*' \
    -exec grep -hIEi "$2" {} + | grep -Eiv "$3" || exit 0
