#!/usr/bin/env bash
# The limits that the crates keep, each offender by its file and line: a function has at most 8 parameters (one exported to C aside) and a body of at most 40 lines as laid out, a clause of a
# promise at most 160 characters (the spaces at the start of its lines do not count), a file of src/, specs/ or proofs/ at most 500 lines; src/ and specs/ cite no proof; one name is declared for one thing.
set -u
cd "$(dirname "$0")/.." && . tests/part.sh || exit 2

# The offenders of the .rt files, 'RULE FILE:LINE: what'. In C's locale a character is counted by its first byte.
functions() {
  find crates/*/src -name '*.rt' -exec env LC_ALL=C awk '
    function said(rule, at, what) { print rule, FILENAME ":" at ": " what }
    # takes the next part of a signature: counts what stands between commas, and leaves the text behind the last parenthesis in `rest`
    function signature(text,    i, c) {
      for (i = 1; i <= length(text); i++) {
        c = substr(text, i, 1)
        if (c ~ /[][({<]/ && c != "]") depth++
        if (c == ")" && depth == 1) { count += part; reading = 0; rest = substr(text, i + 1); return }
        if (c ~ /[])}>]/) depth--
        if (c == "," && depth == 1) { count += part; part = 0 } else if (c != " " && !(c == "(" && depth == 1)) part = 1
      }
    }
    FNR == 1 { reading = waiting = inside = clause = 0 }
    { line = $0; sub("//.*", "", line); rest = "" }
    !reading && !inside && match(line, /^ *(pub(\(crate\))? )?(extern "C" )?fn /) {
      exported = line ~ /extern "C" fn /
      start = FNR
      indent = line
      sub("[^ ].*", "", indent)
      name = substr(line, RLENGTH + 1)
      sub("[^a-z0-9_].*", "", name)
      reading = waiting = 1
      depth = count = part = 0
      sub("^[^(]*", "", line)
    }
    reading {
      signature(line)
      if (!reading && count > 8 && !exported) said("parameters", start, name " has " count " parameters")
      if (!reading && rest ~ /{ *$/) { waiting = 0; inside = FNR }
      next
    }
    waiting && line == indent "{" { waiting = 0; inside = FNR }
    inside && line == indent "}" {
      if (FNR - inside - 1 > 40) said("bodies", start, "the body of " name " has " FNR - inside - 1 " lines")
      inside = 0
    }
    /^ *(ensures|requires) / { clause = FNR; text = ""; open = 0 }
    clause {
      sub("^ *", "", line)
      text = text (text == "" ? "" : " ") line
      open += gsub("{", "{", line) - gsub("}", "}", line)
      if (open > 0) next
      gsub(/[\200-\277]/, "", text)
      if (length(text) > 160) said("promises", clause, "a clause of a promise has " length(text) " characters")
      clause = 0
    }' {} +
}

# Names that more than one file of specs/, or crate's code, declares for one thing: the Rust's own, the answer of each operation with its reading, and what the walk that mirrors the definitions of
# lowering (crates/lower_walk), or the code's state, calls as they do.
twice=(insert '◌>>=◌' '◌>>◌')
twice+=(answer_of error_of refusal_of Refusal)
twice+=(for_header for_step init_local need_value new_ctx push_value switch_to terminate_if_open three_blocks with_local)
# What the Rust has by one name and stands here as the kind of a record and as the node that has it, and what both sheets' nodes call alike.
twice+=(Expr Stmt Instruction Terminator Function Functions Param)

# The names that are declared twice and are not of those, and those that are not declared twice.
names() {
  { grep -oE '^((abbrev|unfoldable|opaque|data|record|pub) )*pub ((abbrev|unfoldable|opaque|data|record) )*[^ :({]+' crates/*/specs/*.antt
    grep -oE '^pub(\(crate\))? (struct|enum) [A-Za-z0-9]+' crates/*/src/*.rt; } | awk -v allowed=" ${twice[*]} " '
    { file = $1; sub(":.*", "", file); sub("^[^:]*:", ""); name = $NF }
    name == "mod" || (file, name) in seen { next }
    { seen[file, name]; kind = file ~ /[.]rt$/; n[name, kind]++; files[name, kind] = files[name, kind] " " file; all[name, kind] = name }
    END {
      for (i in all) {
        if (n[i] < 2) continue
        if (index(allowed, " " all[i] " ")) met[all[i]]
        else print "names" files[i] ": each declares " all[i]
      }
      m = split(allowed, list, " ")
      for (i = 1; i <= m; i++) if (!(list[i] in met)) print "names tests/shape.sh: " list[i] " is not declared twice"
    }'
}

crates() { printf '%s\n' crates/*/ | sed 's|^crates/||; s|/$||'; }

offenders() {
  functions
  names
  find crates/*/src crates/*/specs crates/*/proofs -type f 2>/dev/null | sort | while IFS= read -r file; do
    lines=$(wc -l <"$file")
    [ "$lines" -le 500 ] || printf 'files %s:501: it has %d lines\n' "$file" "$lines"
  done
  # (the library has statements in its own proofs/)
  grep -rnE "(^|[^A-Za-z0-9_.])(Rattle\.($(crates | paste -sd '|'))\.proofs\.|crate::proofs::|($(crates | paste -sd '|'))::proofs::)" crates/*/src crates/*/specs 2>/dev/null | grep -vE '^[^:]*:[0-9]+: *(//|--)' | sed -E 's/^([^:]*:[0-9]+):.*/citations \1: it cites a proof/'
}

all=$(offenders)
for rule in parameters bodies promises files citations names; do
  found=$(grep "^$rule " <<<"$all" | cut -d' ' -f2-)
  [ -n "$found" ] || pass
  while IFS= read -r offender; do
    [ -z "$offender" ] || fail "$offender"
  done <<<"$found"
done
finish
