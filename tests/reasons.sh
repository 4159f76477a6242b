#!/usr/bin/env bash
# Why each must-fail edit was refused, by the log of rt ci (target/ci.log), which has the first error of each. tests/reasons.txt pins it, a line an edit: CRATE/NAME: FILE: WHERE: WHY, in the order
# of the log. WHERE is the declaration of a proof file, or the function of a source file. So an edit cannot pass for another reason than the one that was looked at. WHY is one of these:
#   not proved: GOAL    of a function without a proof file, or with answers: the goal by its name
#   types differ        two types or two sides that should be the same differ
#   another type        a term has another type than the one that is expected
#   does not hold       a comparison that had to wait does not hold
#   omega, search, ..   a tactic finds no proof; rw: what it leaves is no equation between equals
#   shape: WORDS        no fact fails there, but what a proof names or rewrites is not there: the facts that fail stand behind it
# No edit may be refused only because a proof file names what the edit took away, or only by a limit of the prover, which rt says; and none may be bad or not tried.
# tests/reasons.sh --write writes tests/reasons.txt of the log: look at what changed.
set -u
cd "$(dirname "$0")/.." && . tests/part.sh || exit 2
log=target/ci.log pinned=tests/reasons.txt
[ -f "$log" ] || { fail "there is no $log: run ./test"; finish; }

# function_at FILE LINE: the function whose attributes, name or body is on that line of a source file. An edit changes a line for a line.
function_at() {
  [ -f "$1" ] || { echo -; return; }
  awk -v at="$2" '
    match($0, /^ *(pub(\([a-z]+\))? )?(const )?(extern "C" )?fn [a-z0-9_]+/) { name = substr($0, RSTART, RLENGTH); sub(".* ", "", name); last = name; if (FNR >= at) exit }
    FNR >= at && !/^ *(#|\/\/|$)/ && name != "" { exit }
    END { print name == "" ? "-" : name }' "$1"
}

# why MESSAGE: the reason in a few words
why() {
  local said=$1
  case $said in
  'it is not proved that '*)
    # the goal's name, in parentheses and backquotes
    if [[ $said =~ \(\`([^\`]+)\`\) ]]; then echo "not proved: ${BASH_REMATCH[1]}"; else echo "not proved: $(cut -c1-60 <<<"${said#it is not proved that }")"; fi ;;
  *'the two types '* | *'the two sides '*) echo 'types differ' ;;
  'expected type '* | *' but the expected type '* | *'but this has type '*)
    # one need in the place of another
    if [[ $said =~ ^expected\ type\ \`[^\`\ ]*\.Need- ]]; then echo 'shape: another need'; else echo 'another type'; fi ;;
  *' does not hold'*) echo 'does not hold' ;;
  *'give a proof of that as the last argument'* | *'what it leaves must be '*) echo 'rw' ;;
  '`rw`'*) echo 'shape: rw finds nothing to rewrite' ;;
  '`'[a-z]*'`: '*)
    if [[ $said =~ ^\`([a-z]+)\`:\ (.*\ )?(does\ not\ follow|no\ proof\ of) ]]; then echo "${BASH_REMATCH[1]}"; else echo "shape: $(sed 's/`[^`]*`//g; s/  */ /g; s/^[: ]*//' <<<"$said" | cut -c1-60)"; fi ;;
  # a comparison whose end is cut off
  '`'*) echo 'does not hold' ;;
  *) echo "shape: $(sed 's/`[^`]*`/../g; s/  */ /g' <<<"$said" | cut -c1-60 | sed 's/ $//')" ;;
  esac
}

# reasons: a line for each edit of the log that was refused, as tests/reasons.txt has it.
reasons() {
  local line edit first file number said where
  while IFS= read -r line; do
    line=${line#rt: must-fail } edit=${line%%.edit: refused, as it must be*} first=${line#*: refused, as it must be}
    first=${first#: } first=${first# } first=${first#note: }
    if [[ $first =~ ^(\./)?([^: ]+):([0-9]+):[0-9]+:\ (error:\ )?(.*)$ ]]; then
      file=${BASH_REMATCH[2]} number=${BASH_REMATCH[3]} said=${BASH_REMATCH[5]} where=-
      case $file in
      *.rt) where=$(function_at "crates/${edit%%/*}/$file" "$number") ;;
      *) if [[ $said =~ ^\`([^\`]+)\`:\ (.*)$ ]]; then where=${BASH_REMATCH[1]} said=${BASH_REMATCH[2]}; fi ;;
      esac
      printf '%s: %s: %s: %s\n' "$edit" "$file" "$where" "$(why "$said")"
    else
      printf '%s: -: -: %s\n' "$edit" "shape: $(cut -c1-60 <<<"$first")"
    fi
  done < <(grep -E '^rt: must-fail [^ ]+\.edit: refused, as it must be(:|$| \()' "$log")
}

told=$(reasons)
if [ "${1:-}" = --write ]; then
  { grep '^#' "$pinned"; printf '%s\n' "$told"; } >"$pinned.new" && mv "$pinned.new" "$pinned"
  exit
fi

edits=$(find crates -path '*/must-fail/*' -name '*.edit' | sed -E 's|^crates/([^/]*)/must-fail/(.*)\.edit$|\1/\2|' | sort)
[ -n "$edits" ] || fail "there is no must-fail edit"
# What rt ci says of the edits, and counts.
while IFS= read -r line; do
  [ -z "$line" ] || fail "${line:0:300}"
done < <(grep -E '^rt: must-fail [^ ]+: (BAD EDIT|NOT TRIED|NOT REFUSED)|^rt: [^ ]+: BAD EDIT|^rt: must-fail .*: refused, as it must be \((only|.* only) ' "$log")
refused=$(sed -nE 's/^rt: ok; .*; must-fail edits: ([0-9]+) refused.*$/\1/p' "$log")
number=$(grep -c . <<<"$edits")
if [ "$refused" = "$number" ]; then pass; else fail "there are $number must-fail edits, and rt ci counts ${refused:-no} refused"; fi
if grep -qE '^rt: ok; .*, [0-9]+ (bad|of them only by a limit)' "$log"; then fail "rt ci: $(grep '^rt: ok; ' "$log")"; fi
# Each edit is refused once, and where the table says.
wanted=$(grep -v '^#' "$pinned") || fail "$pinned has no line: tests/reasons.sh --write makes them"
for edit in $edits; do
  row=$(grep -F -e "$edit: " <<<"$wanted" | awk -v edit="$edit: " 'index($0, edit) == 1')
  said=$(awk -v edit="$edit: " 'index($0, edit) == 1' <<<"$told")
  if [ -z "$said" ]; then fail "$edit was not refused"
  elif [ "$said" = "$row" ]; then pass
  else fail "$said; and $pinned has: ${row:-nothing}"
  fi
done
while IFS= read -r row; do
  grep -qxF -e "${row%%: *}" <<<"$edits" || fail "$pinned has a line of no edit: $row"
done <<<"$wanted"
finish
