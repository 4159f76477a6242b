#!/usr/bin/env bash
# The example sheets, lowered by the program that rt ci built.
set -u
cd "$(dirname "$0")/.." && . tests/part.sh || exit 2
on_x86_64 'the examples' || finish
for sheet in examples/*.sheet; do
  [ -f "$sheet" ] || continue
  line=${sheet%.sheet}.line
  if [ -s "$line" ] && [ "$(target/bin/lower_main <"$sheet")" = "$(cat "$line")" ]; then pass; else fail "$sheet is not answered by $line"; fi
done
finish
