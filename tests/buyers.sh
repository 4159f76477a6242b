#!/usr/bin/env bash
# What a buyer links: the archive by include/malovuneth.h, with the C example, and the Rust bindings, with an allocator and without one; the version, the same wherever it is said.
set -u
cd "$(dirname "$0")/.." && . tests/part.sh || exit 2

# says FILE TEXT: a line of FILE begins with TEXT, which has the header's version. tests/header.c holds the linked archive to the header.
says() {
  if awk -v text="$2" 'index($0, text) == 1 { found = 1 } END { exit !found }' "$1"; then pass; else fail "$1 does not say: $2"; fi
}
version=$(sed -nE 's/^#define MALOVUNETH_VERSION "([0-9.]+)"$/\1/p' include/malovuneth.h)
says include/malovuneth.h " * program sheets. C99, or C++. Version $version."
says bindings/rust/Cargo.toml "version = \"$version\""
says bindings/rust/Cargo.lock "version = \"$version\""
says README.md "This is version $version ("
says docs/DECISIONS.md "- **The version is $version**"

on_x86_64 'the C example and the bindings' || finish
built=target/buyers
mkdir -p "$built"

# build OUTPUT COMPILER WORDS..: the command compiles and links without a warning.
build() {
  local output=$1
  shift
  if "$@" -Wall -Wextra -Wpedantic -Werror -Iinclude -o "$output" >"$output.log" 2>&1; then pass
  else fail "$* does not compile: see $output.log"; return 1
  fi
}

# example STATUS EXPECTED [FILE]: the C example ends with this status and prints this.
example() {
  local status=$1 expected=$2 printed given
  shift 2
  printed=$("$built/lower_and_verify" "$@" 2>"$built/example.log")
  given=$?
  if [ "$given" = "$status" ] && [ "$printed" = "$expected" ]; then pass
  else fail "lower_and_verify $*: status $given, $printed"
  fi
}

examples_in_c() {
  local answers sheet status
  for answers in examples/*.answers; do
    sheet=${answers%.answers}.sheet status=0
    ! grep -q ': refused' "$answers" || status=1
    example "$status" "$(cat "$answers")" "$sheet"
    example "$status" "$(cat "$answers")" <"$sheet"
  done
  local none='verifying: not asked, there is no program'
  example 1 "$(printf 'lowering: refused, 3 (no fitting record; place): 0\n%s' "$none")" < <(head -c 32768 /dev/zero)
  example 1 "$(printf 'lowering: refused, 1 (sheet over 32,768 bytes)\n%s' "$none")" < <(head -c 32769 /dev/zero)
  example 1 "$(printf 'lowering: refused, 1 (sheet over 32,768 bytes)\n%s' "$none")" < <(head -c 1000000 /dev/zero)
  example 2 '' examples/there-is-none.sheet
  example 2 '' examples
}

# header COMPILER WORDS..: what the header says, tried by a program of this compiler.
header() {
  build "$built/header" "$@" tests/header.c -x none "$ARCHIVE/libmalovuneth.a" || return
  if "$built/header" >"$built/header.log" 2>&1; then pass; else fail "tests/header.c, by $*: see $built/header.log"; fi
}

. differential/archive.sh || { fail "the archive cannot be made: see target/staticlib.log"; finish; }
if with 'the header and the example in C' cc; then
  header cc -std=c99 -x c
  ! build "$built/lower_and_verify" cc -std=c99 examples/lower_and_verify.c "$ARCHIVE/libmalovuneth.a" || examples_in_c
fi
if with 'the header in C++' c++; then header c++ -std=c++11 -x c++; fi
if with 'the Rust bindings' cargo cc; then
  if MALOVUNETH_LIB_DIR=$ARCHIVE CARGO_TARGET_DIR=$PWD/$built/rust \
    cargo test --offline --locked --quiet --manifest-path bindings/rust/Cargo.toml >"$built/rust.log" 2>&1 &&
    grep -qE '^test result: ok\. [1-9]' "$built/rust.log"; then pass
  else fail "the Rust bindings' tests: see $built/rust.log"
  fi
  # without an allocator: all but `lower_to_vec`
  if MALOVUNETH_LIB_DIR=$ARCHIVE CARGO_TARGET_DIR=$PWD/$built/rust RUSTFLAGS=-Dwarnings \
    cargo test --lib --no-default-features --offline --locked --quiet --manifest-path bindings/rust/Cargo.toml >"$built/core.log" 2>&1 &&
    grep -qE '^test result: ok\. [1-9]' "$built/core.log"; then pass
  else fail "the Rust bindings without an allocator: see $built/core.log"
  fi
fi
finish
