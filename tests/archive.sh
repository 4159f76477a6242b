#!/usr/bin/env bash
# The archive that buyers link, made of what was just proved.
set -u
cd "$(dirname "$0")/.." && . tests/part.sh || exit 2
on_x86_64 'the archive' || finish
unset ARCHIVE
if . differential/archive.sh; then pass; else fail "the archive cannot be made: see target/staticlib.log"; fi
finish
