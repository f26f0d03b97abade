#!/bin/sh
# pages.sh PROGRAM FOLDER OUT: a page of each set-up in FOLDER, as OUT/NAME.html.
# The status is 1 where a set-up has no page; page.sh says why.
program=$1 folder=$2 out=$3 status=0 made=0
mkdir -p "$out" || exit 1
for setup in "$folder"/*.toml; do
    page=$out/$(basename "$setup" .toml).html
    "$(dirname "$0")/page.sh" "$program" "$setup" > "$page"
    if [ $? -le 1 ]; then
        made=$((made + 1))
    else
        rm -f "$page"
        status=1
    fi
done
echo "$made pages in $out"
exit "$status"
