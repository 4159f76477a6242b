#!/usr/bin/env bash
# tests/progress.sh LOG rt ci, or LOG rt check|run|lib NAME: runs rt in the repository's root, or in the folder of the crate NAME, and writes to LOG all that it prints. Shown is a line
# for each crate as it is proved, for each must-fail edit and for each program that is run, with which of how many and, of a crate, the seconds: those since rt began under rt ci, which
# proves crates side by side, and else those of the crate; the crates that were proved before, in one line; the errors, and what else rt says. LOG with the ending .times in place of
# .log gets a line 'NAME SECONDS' for each crate that rt ci proved. The status is that of rt. The test command and ./malovuneth show their progress by it.
set -u
[ $# = 3 ] && [ "$3" = ci ] || [ $# = 4 ] || { echo 'usage: tests/progress.sh LOG rt ci, or tests/progress.sh LOG rt check|run|lib NAME' >&2; exit 2; }
log=$1 doing=$3 name=${4:-}
words=("${@:2:2}")

# The crates that rt is to prove: all, or the named one and what it uses.
crates() {
  sed 's/#.*//' crates.txt | awk -F: -v names="$name" '
    function visit(name,    n, i, list) {
      if (!(name in uses) || name in seen) return
      seen[name]
      print name
      n = split(uses[name], list, " ")
      for (i = 1; i <= n; i++) visit(list[i])
    }
    NF > 1 { sub(" .*", "", $1); uses[$1] = $2; all = all " " $1 }
    END { n = split(names == "" ? all : names, list, " "); for (i = 1; i <= n; i++) visit(list[i]) }'
}
crates=0 edits=0 programs=0
for crate in $(crates); do
  crates=$((crates + 1))
  [ "$doing" != ci ] || edits=$((edits + $(find "crates/$crate/must-fail" -name '*.edit' 2>/dev/null | wc -l)))
  # a program runs as two compilers build it
  [ ! -f "crates/$crate/src/main.rt" ] || programs=$((programs + 2))
done

# show NUMBER OF TEXT
show() { printf '[%*d/%d] %s\n' "${#2}" "$1" "$2" "$3"; }
proved=0 before=0 tried=0 ran=0 crate='' began=$SECONDS well=yes
begins='^rt: chose --jobs [0-9]+ for ([a-z0-9_]+)$'
proves='^rt: ([a-z0-9_]+) proved$'
refuses='^rt: must-fail ([^ ]+)\.edit: refused, as it must be(: |$)'
runs='^rt: ([a-z0-9_]+ ran( \(.*\))?), and wrote what its file stdout has$'
# Shows what is to be seen of a line of rt.
line() {
  if [[ $1 =~ $proves ]]; then
    show $((++proved)) $crates "${BASH_REMATCH[1]} proved, $((SECONDS - began)) s"
    printf '%s %d\n' "${BASH_REMATCH[1]}" $((SECONDS - began)) >&4
  elif [[ $1 =~ $refuses ]]; then show $((++tried)) $edits "edit ${BASH_REMATCH[1]} refused"
  elif [[ $1 =~ $runs ]]; then show $((++ran)) $programs "${BASH_REMATCH[1]}"
  elif [[ $1 =~ $begins ]]; then crate=${BASH_REMATCH[1]} began=$SECONDS
  else
    case $1 in
    'logic=proved '*) [ "$doing" = ci ] || show $((++proved)) $crates "$crate proved, $((SECONDS - began)) s" ;;
    'logic=not-proved'*) well=no && { [ "$doing" = ci ] || show $((++proved)) $crates "$crate NOT PROVED, $((SECONDS - began)) s"; } ;;
    'rt: '*' is kept: an earlier run on this machine proved the same files over the same libraries') proved=$((proved + 1)) before=$((before + 1)) ;;
    'rt: must-fail '*) show $((++tried)) $edits "edit ${1#rt: must-fail }" ;;
    'rt: '*' NOT PROVED'*) show $((++proved)) $crates "${1#rt: }" ;;
    # what rt would have one do next, and where what a check began with was kept
    'rt: rt '* | 'rt: running '* | 'rt: nothing has changed since '* | 'rt: '*': begins with what a check kept in '*) ;;
    'rt: the library '*' did not build,'* | 'rt: mend these first'*) well=no && printf '%s\n' "${1:0:300}" ;;
    'rt: '* | *': error'* | *': it is not proved that '* | 'fn '*': not proved'* | 'fn '*': no proof'*) printf '%s\n' "${1:0:300}" ;;
    esac
  fi
}

: >"$log" && log=$(realpath "$log") || exit 2
[ -z "$name" ] || cd "crates/$name" || exit 2
"${words[@]}" 2>&1 </dev/null | {
  while IFS= read -r text || [ -n "$text" ]; do
    printf '%s\n' "$text" >&3
    line "$text"
  done
  # a library that is built already is not named
  [ "$doing" = ci ] || [ "$well" = no ] || before=$((crates - proved))
  [ "$before" = 0 ] || printf '%d of %d crates were proved before\n' "$before" "$crates"
} 3>"$log" 4>"$([ "$doing" = ci ] && printf '%s' "${log%.log}.times" || echo /dev/null)"
exit "${PIPESTATUS[0]}"
