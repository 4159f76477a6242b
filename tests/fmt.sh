#!/usr/bin/env bash
# Every file of the crates has the layout that rt fmt gives it. rt ci refuses a crate with a file that has not; this part names all of them in some seconds, by rt fmt in a copy.
set -u
cd "$(dirname "$0")/.." && . tests/part.sh || exit 2
work=$(mktemp -d) && trap 'rm -rf "$work"' EXIT || exit 2
cp crates.txt "$work" && tar cf - --exclude=out crates | tar xf - -C "$work" || fail 'the crates cannot be copied'
for crate in crates/*/; do
  if ! said=$(cd "$work/$crate" && rt fmt 2>&1); then
    fail "rt fmt in $crate: $said"
    continue
  fi
  while IFS= read -r file; do
    if cmp -s "$crate$file" "$work/$crate$file"; then pass; else fail "$crate$file is not as rt fmt lays it out"; fi
  done < <(cd "$crate" && find src specs proofs -type f 2>/dev/null)
done
finish
