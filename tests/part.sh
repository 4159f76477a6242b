# What each part of the test command counts, and how it ends. Sourced by the part, in the repository's root. A part is a program of its own: tests/NAME.sh runs it alone, after ./test.
# Its last line is 'NAME done: P passed, F failed, S skipped', and its status is 0 if nothing failed and something was done.
part=$(basename "$0" .sh) passed=0 failed=0 skipped=0
pass() { passed=$((passed + 1)); }
fail() { failed=$((failed + 1)); printf 'FAILED: %s\n' "$*"; }
# skip WHAT WHY: WHAT is left out.
skip() { skipped=$((skipped + 1)); printf 'SKIPPED: %s, %s\n' "$1" "$2"; }
# The last command of a part.
finish() {
  printf '%s done: %d passed, %d failed, %d skipped\n' "$part" "$passed" "$failed" "$skipped"
  [ $((passed + failed + skipped)) -gt 0 ] && [ "$failed" = 0 ]
  exit
}
# with WHAT COMMAND..: whether these commands are there. If not, WHAT is left out.
with() {
  local what=$1 command
  shift
  for command; do
    command -v "$command" >/dev/null 2>&1 || { skip "$what" "there is no $command"; return 1; }
  done
}
# on_x86_64 WHAT: whether x86-64 programs can be run here. If not, WHAT is left out.
on_x86_64() {
  [ "$(uname -m)" = x86_64 ] || { skip "$1" "this machine is $(uname -m), and not x86-64"; return 1; }
}
