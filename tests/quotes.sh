#!/usr/bin/env bash
# A code block of a document that begins with '-- from FILE' quotes FILE: its other lines stand there, in a row, as they are.
set -u
cd "$(dirname "$0")/.." && . tests/part.sh || exit 2
results=$(awk '
  FNR == 1 { if (inside) print document ": a code block does not end"; document = FILENAME; inside = 0 }
  /^```/ { if (inside && file != "") check(); inside = !inside; file = ""; text = ""; first = 1; next }
  inside && first { first = 0; if (match($0, /^-- from /)) { file = substr($0, RLENGTH + 1); next } }
  inside && file != "" { text = text $0 "\n" }
  END { if (inside) print document ": a code block does not end" }
  function check(    all, line, result) {
    all = ""
    while ((result = (getline line < file)) > 0) all = all line "\n"
    if (result < 0) { print document ": there is no " file; return }
    close(file)
    print (text != "" && index(all, text) ? "same" : document ": the quotation is not in " file)
  }' README.md docs/*.md) || fail "the documents cannot be read"
while IFS= read -r result; do
  case $result in
  same) pass ;;
  ?*) fail "$result" ;;
  esac
done <<<"$results"
finish
