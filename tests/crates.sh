#!/usr/bin/env bash
# The table of the crates in docs/BENCHMARKS.md: lines that are not empty, by folder; the seconds of a check from nothing, where target/seconds has them (`tools/seconds > target/seconds`);
# its must-fail edits.
set -eu
cd "$(dirname "$0")/.."
lines() { find "$@" -type f 2>/dev/null -exec cat {} + | grep -c . || true; }
code=0 rules=0 proof=0 time=0 edits=0
printf '| crate | lines of code | of definitions | of proof | proof by code | seconds | must-fail edits |\n|---|---|---|---|---|---|---|\n'
row() { printf '| %s | %d | %d | %d | %s | %s | %d |\n' "$1" "$2" "$3" "$4" "$([ "$2" -gt 1 ] && awk "BEGIN { printf \"%.1f\", $4 / $2 }" || printf -- -)" "$5" "$6"; }
while IFS=: read -r crate _; do
  crate=${crate% staticlib}
  c=$(lines "crates/$crate/src") r=$(lines "crates/$crate/specs") p=$(lines "crates/$crate/proofs")
  s=$(awk -v crate="$crate" '$1 == crate { printf "%.0f", $2 }' target/seconds 2>/dev/null || true)
  e=$(find "crates/$crate/must-fail" -name '*.edit' 2>/dev/null | wc -l)
  row "$crate" "$c" "$r" "$p" "${s:--}" "$e"
  code=$((code + c)) rules=$((rules + r)) proof=$((proof + p)) time=$((time + ${s:-0})) edits=$((edits + e))
done < <(grep -v '^#' crates.txt)
row all "$code" "$rules" "$proof" "$time" "$edits"
