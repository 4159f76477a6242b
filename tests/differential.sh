#!/usr/bin/env bash
# The proved verifier and lowering, linked as an archive, against the Rust, on the fixed cases and some random ones; then the tests of the crate that compares. Without cargo nothing of
# this is built; crates/replay has a fixed sample of the same cases.
set -u
cd "$(dirname "$0")/.." && . tests/part.sh || exit 2
on_x86_64 'the differential run' && with 'the differential run' cargo cc || finish
# two runs of each of three tasks, as differential/run says
if differential/run 7 50000 >target/differential.log 2>&1 && [ "$(grep -c ' a second$' target/differential.log)" = 6 ]; then pass
else fail "the differential run: see target/differential.log"
fi
tail -n 3 target/differential.log | cut -c1-200
if differential/build test >target/differential-tests.log 2>&1 && grep -qE '^test result: ok\. [1-9]' target/differential-tests.log; then pass
else fail "the differential crate's own tests: see target/differential-tests.log"
fi
finish
