#!/bin/sh
# Each must-fail edit begins with the sentence of docs/PROVED.md that it breaks, `breaks: TEXT`, and the text stands there.
# At most 130 are there, since each costs half a minute of the gate. Every edit that isn't so is named.
cd "$(dirname "$0")/.." || exit 1
failed=0
proved=$(tr '\n' ' ' <docs/PROVED.md)
for edit in crates/*/must-fail/*.edit; do
    text=$(sed -n '1s/^breaks: //p' "$edit")
    case $text in
        '') echo "$edit: names no sentence" && failed=1 ;;
        *) case $proved in *"$text"*) ;; *) echo "$edit: not in docs/PROVED.md: $text" && failed=1 ;; esac ;;
    esac
done
if [ "$(ls crates/*/must-fail/*.edit | wc -l)" -gt 130 ]; then
    echo "more than 130 edits"
    failed=1
fi
exit "$failed"
