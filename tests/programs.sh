#!/usr/bin/env bash
# The programs on arguments, input and output that are not those of the examples: arguments, reads that are short, interrupted or fail, lengths at the limits, output that cannot be written.
set -u
cd "$(dirname "$0")/.." && . tests/part.sh || exit 2
on_x86_64 'the programs' || finish
work=$(mktemp -d) && trap 'rm -rf "$work"' EXIT || exit 2
said=$work/said
# answers PROGRAM TEXT MESSAGE: what it printed on standard output and on standard error.
answers() {
  if [ "$printed" = "$2" ] && [ "$(cat "$said")" = "$3" ]; then pass
  else fail "$1 printed '$printed' and said '$(cat "$said")', and not '$2' and '$3'"
  fi
}

# A contract sheet with 3,276 storage fields and a program sheet with 4 functions and 3,269 names: 32,768 bytes each.
{ printf '\x00\x80\0\0\x01\0\x0a\0'
  printf '\x0a\0\0\0\x02\0\x0c\0\x01\0%.0s' $(seq 3276); } >"$work/lower_main"
{ printf '\x00\x80\0\0\x32\0'
  printf '\x12\0\0\0\x33\0\0\0\x0b\0\0\0\0\0\0\0\0\0%.0s' $(seq 4)
  printf '\x0a\0\0\0\x34\0\x0b\0\0\0%.0s' $(seq 3269); } >"$work/verify_main"

# A read for LD_PRELOAD. READS has a letter for each call, of which the last stays: i is interrupted, a and e fail, a digit gives at most so many bytes.
cat >"$work/reads.c" <<'C'
#include <errno.h>
#include <stdlib.h>
#include <sys/syscall.h>
#include <sys/types.h>
#include <unistd.h>
ssize_t read(int fd, void *buf, size_t n) {
  static const char *next;
  if (!next) next = getenv("READS");
  char c = *next;
  if (next[1]) next++;
  switch (c) {
  case 'i': errno = EINTR; return -1;
  case 'a': errno = EAGAIN; return -1;
  case 'e': errno = EIO; return -1;
  }
  size_t most = c - '0';
  return syscall(SYS_read, fd, buf, n < most ? n : most);
}
C
reads=
if with 'reads that are short, interrupted or fail' cc; then
  if cc -shared -fPIC -o "$work/reads.so" "$work/reads.c"; then reads=$work/reads.so; else fail 'tests/programs.sh: cc refuses the read'; fi
fi

# Runs a program on the bytes of a file behind which a read fails: a pipe that is open and does not wait, or a terminal whose other side is closed.
after='
import os, sys, tty
error, path, program = sys.argv[1:]
end, start = os.pipe() if error == "EAGAIN" else os.openpty()
if error == "EAGAIN":
    os.set_blocking(end, False)
    os.set_inheritable(start, True)
else:
    tty.setraw(start)
os.write(start, open(path, "rb").read())
if error == "EIO":
    os.close(start)
os.dup2(end, 0)
os.execv(program, [program])
'
python=
with 'a pipe that does not wait, a terminal that is closed' python3 && python=python3

for program in lower_main verify_main; do
  bin=target/bin/$program sheet=crates/$program/stdin line=$(cat crates/$program/stdout) long=$work/$program
  case $program in
  lower_main) none='3 0' whole='4 2568' broken='3 32758' ;;
  verify_main) none='40 0' whole=OK broken='40 32758' ;;
  esac

  for arguments in x '' "$sheet" --help '-'; do
    printed=$("$bin" "$arguments" <"$sheet" 2>"$said"); answers "$program '$arguments':" '' "usage: $program < SHEET"
  done
  printed=$("$bin" a b c <"$sheet" 2>"$said"); answers "$program a b c:" '' "usage: $program < SHEET"

  printed=$("$bin" </dev/null 2>"$said"); answers "$program, no bytes:" "$none" ''
  printed=$({ head -c 5 "$sheet"; sleep 0.2; tail -c +6 "$sheet"; } | "$bin" 2>"$said"); answers "$program, a slow pipe:" "$line" ''
  printed=$("$bin" <"$long" 2>"$said"); answers "$program, 32,768 bytes:" "$whole" ''
  printed=$({ head -c 32766 "$long"; printf '\xff\xff'; } | "$bin" 2>"$said"); answers "$program, the last two of 32,768 bytes wrong:" "$broken" ''
  printed=$({ cat "$long"; printf '\0'; } | "$bin" 2>"$said"); answers "$program, 32,769 bytes:" 1 ''
  for bytes in 65535 65536 65537 100000000; do
    printed=$(head -c $bytes /dev/zero | "$bin" 2>"$said"); answers "$program, $bytes bytes:" 1 ''
  done

  printed=$("$bin" <&- 2>"$said"); answers "$program, standard input closed:" '' 'standard input: Bad file descriptor'
  printed=$("$bin" <. 2>"$said"); answers "$program, a folder:" '' 'standard input: Is a directory'
  if [ -n "$python" ]; then
    printed=$("$python" -c "$after" EAGAIN "$sheet" "$bin" 2>"$said"); answers "$program, EAGAIN:" '' 'standard input: Resource temporarily unavailable'
    printed=$("$python" -c "$after" EIO "$sheet" "$bin" 2>"$said"); answers "$program, EIO:" '' 'standard input: Input/output error'
  fi
  if [ -n "$reads" ]; then
    for calls in 1 9 ii1 1i5ii9 iii9i1; do
      printed=$(READS=$calls LD_PRELOAD=$reads "$bin" <"$long" 2>"$said"); answers "$program, reads $calls:" "$whole" ''
    done
    for calls in e 5e i5i1e; do
      printed=$(READS=$calls LD_PRELOAD=$reads "$bin" <"$sheet" 2>"$said"); answers "$program, reads $calls:" '' 'standard input: Input/output error'
    done
    for calls in a 5a; do
      printed=$(READS=$calls LD_PRELOAD=$reads "$bin" <"$sheet" 2>"$said"); answers "$program, reads $calls:" '' 'standard input: Resource temporarily unavailable'
    done
    for calls in i 5i; do
      printed=$(READS=$calls LD_PRELOAD=$reads "$bin" <"$sheet" 2>"$said"); answers "$program, reads $calls:" '' 'standard input: Interrupted system call'
    done
  fi

  printed=$("$bin" <"$sheet" 2>"$said" >/dev/full); answers "$program, no space:" '' 'standard output: No space left on device'
  printed=$("$bin" <"$sheet" 2>"$said" >&-); answers "$program, standard output closed:" '' 'standard output: Bad file descriptor'
done

printed=$(target/bin/replay x </dev/null 2>"$said"); answers 'replay x:' '' 'usage: replay < LIST'
printed=$(target/bin/replay <. 2>"$said"); answers 'replay, a folder:' '' 'standard input: Is a directory'
finish
