#!/bin/sh
# Shows one program as its source, its trees and its assembly text, and what its source and its text do: the same.
# Usage: examples/tour.sh [SOURCE] (default examples/hi.c). It proves and builds what it runs where that is not there or a source is
# newer, and says so.
set -eu
here=$(CDPATH='' cd -- "$(dirname -- "$0")/.." && pwd)
source=${1:-$here/examples/hi.c}
work=$(mktemp -d)
trap 'rm -rf "$work"' EXIT
cp "$source" "$work/source.c"

desk=$here/crates/ggdesk/out/ggdesk

# True where the program that writes trees is not there, or a source is newer.
is_stale() {
    [ ! -x "$desk" ] && return 0
    changed=$(find "$here/crates" "$here/crates.txt" -name out -prune -o -type f -newer "$desk" \
        ! -name '*.md' ! -name '*.edit' -print | head -n 1)
    [ -n "$changed" ]
}

echo "== the source"
cat "$work/source.c"
echo
# The front script says what it proves; behind it only ggdesk and its own crates are left.
(cd "$work" && "$here/ggvax" compile "$here/examples/vax.gg" source.c >text.s)
if is_stale; then
    echo "tour: proving and building ggdesk" >&2
    rm -f "$desk"
    (cd "$here/crates/ggdesk" && rt run) </dev/null >"$work/log" 2>&1 || true
    [ -x "$desk" ] || { cat "$work/log" >&2; exit 1; }
    touch "$desk"
fi
echo "== its trees"
grep . "$work/source.c" | "$desk" lowering | sed -n '/^  function /,$ { /./p }'
echo "== its text"
cat "$work/text.s"
echo "== what the source does"
(cd "$work" && "$here/ggvax" meaning source.c 1000000000 </dev/null 2>&1) || true
echo "== what the text does"
(cd "$work" && "$here/ggvax" run text.s 1000000000 </dev/null 2>&1) || true
