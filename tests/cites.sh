#!/usr/bin/env bash
# A line of crates.txt lists the crates that its crate cites, in src/, specs/ and proofs/. What these stand on rt finds by itself.
# tests/cites.sh --print prints crates.txt as it should be (into another file: it reads crates.txt meanwhile).
set -u
cd "$(dirname "$0")/.." && . tests/part.sh || exit 2
kit=(io itoa thiserror arrayvec libc os bytes check)

# cited CRATE: the names that it cites, a line each: in code NAME::.., unless NAME is a module of its own or of std; in code and in antt Rattle.NAME.. Comments cite nothing.
cited() {
  find "crates/$1/src" "crates/$1/specs" "crates/$1/proofs" \( -name '*.rt' -o -name '*.antt' \) -exec awk '
    function cite(form, before, after, into,    rest, name) {
      for (rest = " " $0; match(rest, form); rest = substr(rest, RSTART + RLENGTH)) {
        name = substr(rest, RSTART, RLENGTH)
        sub(before, "", name)
        sub(after, "", name)
        into[name]
      }
    }
    { code = FILENAME ~ /[.]rt$/ }
    code { sub("//.*", "") }
    !code { sub("(^| )--( .*)?$", "") }
    { cite("[^A-Za-z0-9_.]Rattle[.][a-z0-9_]+[.]", "^[^A-Za-z0-9_.]Rattle[.]", "[.]$", proved) }
    code { cite("[^A-Za-z0-9_:][a-z][a-z0-9_]*::", "^[^A-Za-z0-9_:]", "::$", names) }
    code && /^use std::/ { for (rest = substr($0, 10); match(rest, "[a-z][a-z0-9_]*"); rest = substr(rest, RSTART + RLENGTH)) own[substr(rest, RSTART, RLENGTH)] }
    code && /^ *(pub )?mod / { sub("^ *(pub )?mod ", ""); sub("[^a-z0-9_].*", ""); own[$0] }
    END { for (name in proved) print name; for (name in names) if (!(name in own) && !(name in proved)) print name }' {} + 2>/dev/null
}

# line CRATE KIND: its line of crates.txt as it should be, the crates in the order in which they are listed there. KIND is ' staticlib' or nothing.
line() {
  local cites name
  cites=" $(cited "$1" | tr '\n' ' ') "
  printf '%s:' "$1$2"
  for name in "${crates[@]}" "${kit[@]}"; do
    case $name in "$1") continue ;; esac
    case $cites in *" $name "*) printf ' %s' "$name" ;; esac
  done
  printf '\n'
}

mapfile -t crates < <(sed -nE 's/^([a-z0-9_]+)( staticlib)?:.*/\1/p' crates.txt)
while IFS= read -r given; do
  case $given in
  [a-z]*:*)
    crate=${given%%:*} kind=
    [ "$crate" = "${crate% staticlib}" ] || crate=${crate% staticlib} kind=' staticlib'
    right=$(line "$crate" "$kind")
    ;;
  *) right=$given ;;
  esac
  if [ "${1:-}" = --print ]; then printf '%s\n' "$right"
  elif [ "$right" = "$given" ]; then pass
  else fail "crates.txt: '$given' should be '$right'"
  fi
done <crates.txt
[ "${1:-}" = --print ] || finish
