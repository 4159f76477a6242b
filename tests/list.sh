#!/usr/bin/env bash
# The list that the program replay is run on, and its answers, are what tests/replay.sh makes of the definitions' rows, of tests/readings.txt and of the Rust's answers as they stand.
set -u
cd "$(dirname "$0")/.." && . tests/part.sh || exit 2
on_x86_64 "replay's list" && with "replay's list" cargo cc python3 || finish
made=target/list
rm -rf "$made"
mkdir -p "$made"
if ! { differential/build && tests/replay.sh differential/target/release/differential "$made"; } >target/list.log 2>&1; then
  fail "tests/replay.sh: see target/list.log"
fi
for file in stdin stdout; do
  if cmp "$made/$file" "crates/replay/$file"; then pass; else fail "crates/replay/$file is not what tests/replay.sh makes"; fi
done
finish
