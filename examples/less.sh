#!/bin/sh
# Takes glyphs out of a font, by a session, and writes its new source to standard output.
#
# usage: less.sh SOURCE GLYPH..
#
# A glyph that can't be taken out is reported on standard error, with the code of the refusal; the others still go.
set -eu

if [ $# -eq 0 ]; then
    sed -n '/^# usage: /s/^# //p' "$0" >&2
    exit 2
fi
source=$1
shift
answers=$(mktemp)
trap 'rm -f "$answers"' EXIT

{
    for glyph; do echo "remove glyph $glyph"; done
    echo "print source"
} | "${T1EDIT:-t1edit}" session "$source" >"$answers"

# an answer for each glyph, then 'data LENGTH' and so many bytes
{
    for glyph; do
        read -r answer
        [ "$answer" = ok ] || echo "$glyph: $answer" >&2
    done
    read -r _ length
    head -c "$length"
} <"$answers"
