#!/usr/bin/env bash
# Makes the list that the program replay is run on, and the answers expected: tests/replay.sh DIFFERENTIAL [FOLDER]
# FOLDER is where the files stdin and stdout are written: crates/replay, if none is named. DIFFERENTIAL is the built program of the differential test. Its `sample TASK 1 COUNT` prints fixed sheets in hexadecimal with the
# answers of the Rust that this is written after, some of each number: `verify` program sheets, with OK, 1 (one sheet of 32,769 bytes) and
# 40 to 50; `check` contract sheets, with OK, 1, 3 and 4: what lowering asks before its walk; `lower` contract sheets, with OK, 1, 3, 4, 10 to
# 20, 30 and 31. Then come
# - P1 to P12 of differential/rows.txt;
# - what document 01 asks to be run only, and reading 9 of docs/DECISIONS.md: sheets that are made here;
# - the sheets of crates/definitions/specs/Readings.antt, and those of tests/readings.txt. Two of the former, 10a and 10b, lend an output of
#   5 and of 0 bytes: replay lends 32,768 always, so they are rows of Readings.antt alone.
# All answers are those that DIFFERENTIAL gives; the answers of Readings.antt have to be the same.
# stdin: for each sheet what is asked (V: verify, C: check, L: lower), its length in four bytes, little-endian, then its bytes.
# stdout: a line each.
set -eu
[ $# = 1 ] || [ $# = 2 ] || { echo 'usage: tests/replay.sh DIFFERENTIAL [FOLDER]' >&2; exit 2; }
differential=$(realpath "$1")
folder=$(realpath "${2:-$(dirname "$0")/../crates/replay}")
cd "$(dirname "$0")/.."
python3 - "$differential" "$folder" <<'PYTHON'
import re, subprocess, sys
TASKS = {"V": "verify", "C": "check", "L": "lower"}
def ask(*words, sheet=b""):
    return subprocess.run([sys.argv[1], *words], input=sheet, capture_output=True, check=True).stdout.decode()

cases = []
def case(asked, sheet):
    cases.append((asked, sheet, ask("answer", TASKS[asked], sheet=sheet).strip()))
    return cases[-1][2]

for asked, count in ("V", "400"), ("C", "100"), ("L", "300"):
    for line in ask("sample", TASKS[asked], "1", count).splitlines():
        sheet, answer = line.split(" -> ")
        cases.append((asked, bytes.fromhex(sheet), answer))
for line in open("differential/rows.txt"):
    case("L", bytes.fromhex(line.split("|")[1]))

# Contract sheets by their records. The contract is named 10, its function 11, y is 20, which is not declared.
def u16(n): return n.to_bytes(2, "little")
def record(kind, *parts):
    body = b"".join(parts)
    return (6 + len(body)).to_bytes(4, "little") + u16(kind) + body
def contract(*statements): return record(1, u16(10), record(4, u16(11), u16(65535), u16(0), u16(0), *statements))
one = record(30, (1).to_bytes(8, "little"))
y = record(31, u16(20))
block = lambda *statements: record(5, *statements)
let = lambda e: record(10, u16(22), e)
when = lambda e, body: record(15, e, body)
loop = lambda e: record(16, e, block())
turns = lambda a, b: record(17, u16(22), a, b, block())
add = lambda a, b: record(36, u16(0), a, b)
leave = record(18)
skipped = record(20, one)
def nested(n, f, x):
    for _ in range(n): x = f(x)
    return x

# 256 Lets pass, 257 give 30
case("L", contract(*[let(one)] * 256))
case("L", contract(*[let(one)] * 257))
# depth 40 and 41: the block of the 19th If inside the others, and a statement in it; the operands of 36 sums inside each other, and of 37
for inside in (), (leave,):
    case("L", contract(nested(18, lambda s: when(one, block(s)), when(one, block(*inside)))))
for sums in 36, 37:
    case("L", contract(record(20, nested(sums, lambda e: add(e, one), one))))
# 32,768 and 32,769 bytes
full = contract(leave, *[skipped] * 1637)
assert len(full) == 32768
case("L", full)
case("L", full + b"\0")
# reading 9: with 256 locals made, a Let and a For meet what is wrong in their expressions first; with 256 blocks made, an If does, and a While
# does not
case("L", contract(*[let(one)] * 256, let(y)))
case("L", contract(*[let(one)] * 255, turns(one, y)))
case("L", contract(*[let(one)] * 255, turns(one, one)))
case("L", contract(*[when(one, block())] * 85))
case("L", contract(*[when(one, block())] * 85, when(y, block())))
case("L", contract(*[when(one, block())] * 85, when(one, block())))
case("L", contract(*[when(one, block())] * 85, loop(y)))

readings = open("crates/definitions/specs/Readings.antt").read()
rows = re.findall(r"asks = (.*?);\s*sheet = (.*?);\s*answer = (ok|err)(.*?);", readings, re.S)
assert len(rows) == len(re.findall(r": Reading$", readings, re.M)) > 0, "a row of Readings.antt is not read"
for asks, sheet, accepted, answer in rows:
    sheet = bytes(int(b, 16) for b in re.findall(r"0x([0-9A-F]{2})", sheet))
    if accepted == "ok": answer = " ".join(["OK", *re.findall(r"0x([0-9A-F]{2})", answer)])
    else: answer = " ".join(re.findall(r"\b[0-9]+\b", answer))
    if asks == "verifies": asked = "V"
    elif asks == "lowers 32768": asked = "L"
    else: continue
    given = case(asked, sheet)
    assert given == answer, (asks, sheet.hex(), answer, given)
    if asked == "L" and answer.split(" ")[0] in ("1", "3", "4"): case("C", sheet)
for line in open("tests/readings.txt"):
    if not line.startswith("#"):
        asked, sheet = line.split(" ")[:2]
        case(asked, bytes.fromhex(sheet.replace("-", "")))

with open(sys.argv[2] + "/stdin", "wb") as sheets, open(sys.argv[2] + "/stdout", "w") as answers:
    for asked, sheet, answer in cases:
        sheets.write(asked.encode() + len(sheet).to_bytes(4, "little") + sheet)
        answers.write(answer + "\n")
PYTHON
