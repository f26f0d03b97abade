#!/bin/sh
# page.sh PROGRAM SETUP > run.html: a page that steps through the run of a set-up.
# It is viewer.html, which stands beside this script, or which join.py makes there first, with three lines filled in: the
# title, by the set-up's name; the trace that `PROGRAM trace --ways SETUP` writes; and, where the run has at most 200 calls, the
# lines of what threads name, and of who can send to whom, that `PROGRAM audit --after N SETUP` writes for each N, from 0
# on. & and < are escaped.
# The status is the program's: 0, or 1 where an expectation is not met. With any other status no page is written, and
# what the program wrote instead of a trace goes to standard error; 3 also where the page could not be made or written.
if [ $# -ne 2 ]; then
    echo "page.sh: PROGRAM SETUP > run.html" >&2
    exit 4
fi
folder=$(dirname "$(readlink -f "$0")")
viewer=$folder/viewer.html
if [ -r "$folder/join.py" ]; then
    python3 "$folder/join.py" || exit 3
fi
if ! [ -r "$viewer" ]; then
    echo "page.sh: there is no $viewer" >&2
    exit 3
fi
most_audits=200
trace=$(mktemp) && audits=$(mktemp) || exit 3
trap 'rm -f "$trace" "$audits"' EXIT
"$1" trace --ways "$2" > "$trace"
status=$?
if [ "$status" -gt 1 ]; then
    cat "$trace" >&2
    echo "page.sh: no page: $1 trace --ways $2 ended with status $status" >&2
    exit "$status"
fi
calls=$(sed -n '1s/.* calls //p' "$trace")
after=0
while [ "$after" -le "${calls:-0}" ] && [ "${calls:-0}" -le "$most_audits" ]; do
    "$1" audit --after "$after" "$2" 2> /dev/null | grep -e '^audit ' -e '^thread ' -e '^  as ' -e '^  reach ' -e '^  hold ' -e '^channel ' >> "$audits" || break
    after=$((after + 1))
done
name=$(basename "$2")
escape() {
    LC_ALL=C sed 's/&/\&amp;/g; s/</\&lt;/g'
}
{
    sed '/^<title>/,$d' "$viewer" &&
        printf '<title>%s · sel4sim run</title>\n' "$(printf %s "${name%.*}" | escape)" &&
        sed '1,/^<title>/d; /^<pre id="trace">/,$d' "$viewer" &&
        printf '<pre id="trace">' &&
        escape < "$trace" &&
        printf '</pre>\n' &&
        printf '<pre id="audits" hidden>' &&
        escape < "$audits" &&
        printf '</pre>\n' &&
        sed '1,/^<pre id="audits"/d' "$viewer"
} || exit 3
exit "$status"
