#!/usr/bin/env bash
# An id of one kind does not pass for another: the compiler refuses each change of tests/ids.txt, which hands an id to a place that wants one of another type. The changes are made in a copy of the
# sources and nothing is proved: over a library that does not compile `rt all check` reads the sources of all crates below, names each place where types differ, and stops before any proof. Here
# that library is wrong_ids, which stands on every changed crate and names what none of them has. Changes of different files are tried at once, since none is of a signature: each has to be refused in its own file.
# Each place of the sources that wants a LocalId or a BlockId has a change that hands it a ValueId.
set -u
cd "$(dirname "$0")/.." && . tests/part.sh || exit 2
root=$PWD
# (no file of a crate may lie elsewhere in the checkout)
copy=$(mktemp -d) && trap 'rm -rf "$copy"' EXIT || exit 2
# shellcheck disable=SC2046
tar cf - crates.txt $(find crates -mindepth 2 -maxdepth 2 \( -name src -o -name specs \)) | tar xf - -C "$copy" && cd "$copy" || { fail "the crates cannot be copied"; finish; }

# places: what wants a LocalId or a BlockId, a line each: parameters and fields, 'NAME.NAME', and variants, 'ENUM::VARIANT'.
places() {
  find crates/*/src -name '*.rt' -exec awk '
    { sub("//.*", "") }
    match($0, /^ *(pub(\(crate\))? )?(extern "C" )?(fn|struct|enum) [A-Za-z0-9_]+/) {
      of = substr($0, RSTART, RLENGTH)
      sub(".* ", "", of)
      variants = $0 ~ /(^| )enum /
    }
    variants && match($0, /^ +[A-Z][A-Za-z0-9]*\(/) && /[^A-Za-z](LocalId|BlockId)[^A-Za-z]/ {
      name = substr($0, RSTART, RLENGTH - 1)
      sub("^ +", "", name)
      print of "::" name
    }
    !variants {
      for (rest = $0; match(rest, /[a-z0-9_]+: (LocalId|BlockId)[,)]/); rest = substr(rest, RSTART + RLENGTH)) {
        name = substr(rest, RSTART, RLENGTH)
        sub(":.*", "", name)
        print of "." name
      }
    }' {} + | sort -u
}

table=$(grep -v '^#' "$root/tests/ids.txt") || fail "tests/ids.txt has no change"
tried=$(grep ' | ValueId$' <<<"$table" | cut -d' ' -f1 | sort -u)
wanted=$(places)
[ -n "$wanted" ] || fail "no place is found that wants a LocalId or a BlockId"
for place in $wanted; do
  if grep -qxF -e "$place" <<<"$tried"; then pass; else fail "tests/ids.txt hands no ValueId to $place"; fi
done

mapfile -t changed < <(cut -d/ -f2 <<<"$table" | sort -u)
mkdir -p crates/wrong_ids/src
echo "wrong_ids: ${changed[*]}" >>crates.txt
printf '#![tactic(auto)]\n\npub fn wrong_ids() -> u8 {\n    %s::of_no_crate()\n}\n' "${changed[0]}" >crates/wrong_ids/src/lib.rt
own="cannot find value \`of_no_crate\` in crate \`${changed[0]}\`"

# compiles: what the compiler says of the copy is in errors. Its status is 0 if the compiler has read all that wrong_ids stands on, and no proof was begun.
compiles() {
  (cd crates/wrong_ids && rt all check) >log 2>&1
  grep -E ': error' log >errors
  grep -qF -e "$own" errors && grep -q '^rt: mend these first: no library was built, and no proof was checked$' log
}

# change FILE OLD NEW: puts NEW for OLD into FILE, where OLD stands once.
change() {
  local file=$1 old=${2//\\n/$'\n'} new=${3//\\n/$'\n'} text after
  text=$(cat "$file" && printf .) || { fail "there is no $file"; return 1; }
  after=${text#*"$old"}
  [ "$after" != "$text" ] || { fail "$file does not have: $old"; return 1; }
  [ "${after#*"$old"}" = "$after" ] || { fail "$file has more than once: $old"; return 1; }
  text=${text%%"$old"*}$new$after
  printf %s "${text%.}" >"$file"
}

# As they are, the sources compile.
if ! compiles; then fail "the sources cannot be read: $(tail -n 1 log | cut -c1-300)"
elif others=$(grep -vF -e "$own" errors); then fail "the sources do not compile as they are: $(head -n 1 <<<"$others" | cut -c1-300)"
else pass
fi

# In the n-th round stands the n-th change of each file.
rounds=0
declare -A of count
while IFS= read -r row; do
  IFS=$'\t' read -r place file old new expected found more <<<"${row// | /$'\t'}"
  if [ -z "$found" ] || [ -n "$more" ]; then fail "tests/ids.txt: not six columns: $row"; continue; fi
  count[$file]=$((${count[$file]:-0} + 1))
  of[${count[$file]}]+=$row$'\n'
  [ "${count[$file]}" -le "$rounds" ] || rounds=${count[$file]}
done <<<"$table"
for ((round = 1; failed == 0 && round <= rounds; round++)); do
  declare -A made=()
  while IFS= read -r row; do
    IFS=$'\t' read -r place file old new expected found <<<"${row// | /$'\t'}"
    ! change "$file" "$old" "$new" || made[$file]=yes
  done <<<"${of[$round]%$'\n'}"
  compiles || fail "the changed sources cannot be read: $(tail -n 1 log | cut -c1-300)"
  while IFS= read -r row; do
    IFS=$'\t' read -r place file old new expected found <<<"${row// | /$'\t'}"
    [ -n "${made[$file]:-}" ] || continue
    said=$(grep -F -e "/$file:" errors)
    if [ -z "$said" ]; then fail "$file compiles with: $new"
    elif grep -qF -e "error[mismatched-types]: expected \`$expected\`, found \`$found\`" <<<"$said"; then pass
    else fail "$file with: $new: no $expected is wanted where a $found is, but $(head -n 1 <<<"$said" | cut -c1-300)"
    fi
    cp "$root/$file" "$file"
  done <<<"${of[$round]%$'\n'}"
done
finish
