#!/usr/bin/env bash
# The commands that are run by hand: ./malovuneth, and those of tests/.
set -u
cd "$(dirname "$0")/.." && . tests/part.sh || exit 2
work=$(mktemp -d)
trap 'rm -rf "$work"' EXIT

# says STATUS TEXT MESSAGE COMMAND..: what the command prints on standard output, and, as a pattern, on standard error.
says() {
  local status=$1 text=$2 message=$3 given
  shift 3
  "$@" >"$work/text" 2>"$work/message"
  given=$?
  # shellcheck disable=SC2053
  if [ "$given" = "$status" ] && [ "$(cat "$work/text")" = "$text" ] && [[ $(cat "$work/message") == $message ]]; then pass
  else fail "$*: status $given, '$(cat "$work/text")', '$(cat "$work/message")'"
  fi
}

says 2 '' 'usage: malovuneth *' ./malovuneth
says 2 '' 'usage: malovuneth *' ./malovuneth there-is-none
says 2 '' 'usage: malovuneth *' ./malovuneth archive examples/pay.sheet
says 2 '' 'usage: malovuneth *' ./malovuneth lower examples/pay.sheet examples/pay.sheet
says 2 '' 'malovuneth: examples/there-is-none.sheet *' ./malovuneth lower examples/there-is-none.sheet
says 2 '' 'malovuneth: examples *' ./malovuneth lower examples
says 2 '' 'usage: tests/progress.sh *' tests/progress.sh
says 2 '' 'usage: tests/progress.sh *' tests/progress.sh log rt check
says 2 '' 'usage: tests/replay.sh *' tests/replay.sh

# The table of tests/crates.sh has a row for each crate, and one for all.
table=$(tests/crates.sh)
for crate in $(sed -nE 's/^([a-z0-9_]+)( staticlib)?:.*/\1/p' crates.txt) all; do
  if grep -q "^| $crate |" <<<"$table"; then pass; else fail "tests/crates.sh has no row of $crate"; fi
done

# tests/mutants finds changes of the run.
if with tests/mutants python3; then
  if [ "$(tests/mutants --list Run | grep -c '^Run')" -gt 100 ]; then pass; else fail 'tests/mutants finds no changes of Run'; fi
fi

# What is shown of a proof that fails, and of edits: in a repository of three crates, by an rt that prints what it is given.
there=$work/there
mkdir -p "$there/bin" "$there/tests" "$there/crates/one/must-fail" "$there/crates/lower_main/src"
cp malovuneth "$there"
cp tests/progress.sh "$there/tests"
touch "$there/crates/one/must-fail/"{a,b,c}.edit "$there/crates/lower_main/src/main.rt"
printf '%s\n' '# crates' one: 'two: one' 'lower_main: one two io' 'three staticlib: two' >"$there/crates.txt"
printf '%s\n' '#!/bin/sh' 'while [ ! -f printed ]; do cd ..; done' 'cat printed; exit 1' >"$there/bin/rt"
chmod +x "$there/bin/rt"
in_there() { (cd "$there" && PATH=$there/bin:$PATH "$@"); }

if on_x86_64 'what ./malovuneth shows'; then
  cat >"$there/printed" <<'END'
note: not shown
rt: two: begins with what a check kept in /elsewhere/crates/two
rt: chose --jobs 2 for two
fn two::f: proved
logic=proved functions=1 native=nat
rt: chose --jobs 2 for lower_main
note: src/main.rt:1:1: it is not proved that it holds
fn lower_main::main: not proved
logic=not-proved functions=1 native=nat
rt: rt lemma WORD.. finds a lemma by guessed names or words of the goal
END
  says 1 '' "\[1/3] two proved, 0 s
note: src/main.rt:1:1: it is not proved that it holds
fn lower_main::main: not proved
\[2/3] lower_main NOT PROVED, 0 s
malovuneth: lower_main is not proved: *" in_there ./malovuneth lower
fi
cat >"$there/printed" <<'END'
rt: one is kept: an earlier run on this machine proved the same files over the same libraries
rt: one: trying its must-fail edits (3)
== two
fn two::f: proved
logic=proved functions=1 native=nat
rt: two proved
== lower_main
src/main.rt:1:1: error: it does not hold
rt: lower_main NOT PROVED
rt: three proved
rt: must-fail one/a.edit: refused, as it must be: ./specs/One.antt:1:1: error: it does not hold
rt: must-fail one/b.edit: NOT REFUSED: the crate is still proved with this edit
rt: must-fail one/c.edit: BAD EDIT: it did not reach the prover; the first lines of what it said:
src/lib.rt:1:1: error[unknown-name]: cannot find value `x`
rt: lower_main ran, and wrote what its file stdout has
rt: lower_main ran (built by Rattle's own compiler), and wrote what its file stdout has
rt: FAILED: one/b.edit
4 passed, 1 failed
END
says 1 "rt: one: trying its must-fail edits (3)
[2/4] two proved, 0 s
src/main.rt:1:1: error: it does not hold
[3/4] lower_main NOT PROVED
[4/4] three proved, 0 s
[1/3] edit one/a refused
[2/3] edit one/b.edit: NOT REFUSED: the crate is still proved with this edit
[3/3] edit one/c.edit: BAD EDIT: it did not reach the prover; the first lines of what it said:
src/lib.rt:1:1: error[unknown-name]: cannot find value \`x\`
[1/2] lower_main ran
[2/2] lower_main ran (built by Rattle's own compiler)
rt: FAILED: one/b.edit
1 of 4 crates were proved before" '' in_there tests/progress.sh log rt ci
if cmp -s "$there/printed" "$there/log"; then pass; else fail "tests/progress.sh does not write the log as it is"; fi
if [ "$(cat "$there/log.times")" = $'two 0\nthree 0' ]; then pass; else fail "tests/progress.sh does not write when each crate was proved"; fi

# From another folder, with a file and with standard input. rt ci keeps its proofs for itself, so the first call proves what no other command of rt has proved yet; then all is proved.
in_examples() { (cd examples && ../malovuneth "$@"); }
if on_x86_64 'the programs by ./malovuneth'; then
  says 0 "$(cat examples/pay.line)" '*' in_examples lower pay.sheet
  says 0 "$(cat examples/pay.line)" '* crates were proved before' in_examples lower pay.sheet
  says 0 "$(cat examples/undeclared.line)" '* crates were proved before' in_examples lower <examples/undeclared.sheet
  says 0 '40 0' '*' in_examples verify </dev/null
  says 0 '40 0' '* crates were proved before' in_examples verify </dev/null
fi
finish
