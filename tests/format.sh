#!/usr/bin/env bash
# What docs/FORMAT.md says: its tables are compared with the definitions and the header, its examples and limits with the answers of the programs that rt ci built.
set -u
cd "$(dirname "$0")/.." && . tests/part.sh || exit 2
with 'docs/FORMAT.md' python3 || finish
runs=yes
on_x86_64 'the examples of docs/FORMAT.md' || runs=no
# Each line is 'pass', or what is not so.
results=$(python3 - "$runs" <<'PYTHON'
import re, subprocess, sys
RUNS = sys.argv[1] == "yes"
document = open("docs/FORMAT.md").read()
def spec(name): return open(f"crates/definitions/specs/{name}.antt").read()
def same(what, said, right):
    print("pass" if said == right else f"{what}: the document says {said}, and {right} is right".replace("\n", " "))
def number(text): return int(text.replace(",", ""))

# TABLES
def table(*columns):
    """The rows of the document's tables that have these columns."""
    rows = []
    for part in document.split("| " + " | ".join(columns) + " |\n")[1:]:
        for line in part.split("\n")[1:]:
            if not line.startswith("| "): break
            rows.append([cell.strip("`") for cell in line[2:-2].split(" | ")])
            if len(rows[-1]) != len(columns): print(f"another number of columns: {line}")
    if not rows: print(f"there is no table of {', '.join(columns)}")
    return rows

FORMS = {form: (number(size), valid) for form, size, valid, _ in table("form", "bytes", "valid", "what it is")}
PAIRS = {"name, name": "name_and_type", "value, type": "value_and_type"}
def entry(form):
    """What Grammar has for a form."""
    size, valid = FORMS[form]
    if form == "type": return "ir_type"
    if valid == "any": return f"number {size}"
    if valid == "0 to 65,534, or 65,535: none": return "optional"
    return f"up_to {number(valid.removeprefix('0 to '))}"
def parts(form):
    """single, counted or list; and the forms of an entry."""
    many = re.fullmatch(r"(counted|list) \((.*)\)", form)
    return (many[1], many[2].split(", ")) if many else ("single", [form])
def field(form):
    how, inner = parts(form)
    return {"single": "single ", "counted": "counted ", "list": "listed "}[how] + (PAIRS.get(", ".join(inner)) or entry(inner[0]))
def size(form): return sum(FORMS[inner][0] for inner in parts(form)[1])
def length(fields):
    """How many bytes a record has without its children, in words."""
    fixed = 6 + sum({"single": size(form), "counted": 2, "list": 0}[parts(form)[0]] for _, form in fields)
    return " + ".join([str(fixed), *(f"{size(form)} each" for _, form in fields if parts(form)[0] != "single")])

KINDS = {}  # kind: name, class, fields (label, form), children, bytes
for kind, code, name, sort, fields, children, size_ in table("kind", "hex", "name", "class", "fields", "children", "bytes"):
    same(f"kind {kind} in hex", code, int(kind).to_bytes(2, "little").hex(" ").upper())
    KINDS[int(kind)] = name, sort, [tuple(f.split(": ")) for f in fields.split("; ") if f != "-"], [c for c in children.split(", ") if c != "-"], size_

def grammar():
    """Grammar's rows: kind, class, fields, children, name."""
    text = spec("Grammar")
    short = dict(re.findall(r"^abbrev (\w+) : Field\n\w+ = (.*)$", text, re.M))
    rows = re.sub(r"^ +instr (\d+) (.*) ∷", r" kind \1 Class.instruction \2 done ∷", text, flags=re.M)
    rows = re.sub(r"^ +term (\d+) (.*?) ∷(| \[\])(?=  --)", r" kind \1 Class.terminator \2 done ∷\3", rows, flags=re.M)
    same("the bytes between an instruction's kind and its own fields", 0, int(re.search(r"^origin_width = (\d+)$", text, re.M)[1]))
    for line in re.findall(r"^ +kind (\d.*)$", rows, re.M):
        line, _, name = line.partition("  -- ")
        kind, sort, fields, children = re.fullmatch(r"(\d+) Class\.(\w+) (?:\[\]|\((.*?) ∷ \[\]\)) (.*?) ∷(?: \[\])?", line).groups()
        fields = [re.sub("[()]", "", short.get(f, f)) for f in (fields or "").split(" ∷ ") if f]
        yield int(kind), sort, fields, [c + {"one": "", "perhaps": "?", "many": "*"}[how] for how, c in re.findall(r"(one|perhaps|many) Class\.(\w+)", children)], name

def records():
    sizes = dict(re.findall(r"^size_of \(?(\w+)(?: \w+)?\)? = (\d+)$", spec("Records"), re.M))
    rule = re.search(r"^ok_type t n = (.*)$", spec("Records"), re.M)[1]
    tag, most, tags, none = (re.search(test + r" (\d+)", rule)[1] for test in ("eqb t", "leb n", "leb t", "eqb n"))
    same("the form type", FORMS["type"][1], f"tag 0 to {tags}; name 0 to {int(most):,} if the tag is {tag}, and otherwise {none}")
    for form in FORMS: same(f"bytes of the form {form}", FORMS[form][0], int(sizes.get(entry(form).split()[0], FORMS[form][0])))
    for pair in PAIRS: same(f"bytes of ({pair})", size(f"list ({pair})"), int(sizes[PAIRS[pair]]))
    right = list(grammar())
    same("the kinds of records", sorted(KINDS), sorted(row[0] for row in right))
    for kind, sort, fields, children, name in right:
        said = KINDS.get(kind, ("", "", [], [], ""))
        same(f"class, fields and children of kind {kind}", (said[1], [field(form) for _, form in said[2]], said[3]), (sort, fields, children))
        same(f"bytes of kind {kind}", said[4], length(said[2]))
        if name: same(f"name of kind {kind}", said[0], name)

# INSTRUCTIONS
RULES = {"own": "own", "own unless Void": "own_unless_void", "Bool": "bool", "U64": "u64", "none": "nothing"}
def members(name, text):
    """Which arguments of an instruction stand in a list: `operands (Instruction.Store b o v) = b ∷ v ∷ []` has 0 and 2 for Store."""
    found = {}
    for constructor, arguments, given in re.findall(rf"^{name} \(Instruction\.(\w+) (.*?)\) = (.*)$", text, re.M):
        arguments = arguments.split()
        found[constructor] = [arguments.index(word) for word in re.findall(r"\w+", given) if word in arguments]
    return found
def instructions():
    text = spec("InstrTable")
    right = {int(k): rest for k, *rest in re.findall(r"row (\d+) ResultRule\.(\w+) Effect\.(\w+) Reads\.(\w+) ∷.*-- (\w+)", text)}
    said = {int(k): (name, result, effect) for k, name, result, effect, _ in table("kind", "name", "result", "effect", "what it does")}
    same("the kinds of instructions", sorted(said), sorted(right))
    constructors = {int(k): c for c, k in re.findall(r"^kind_of \(Instruction\.(\w+) .*\) = (\d+)$", text, re.M)}
    values, ir = members("values_of", spec("ProgramSheet")), spec("Ir")
    operands, reads, writes = (members(name, ir) for name in ("operands", "local_read", "local_written"))
    for kind, (result, effect, count, name) in right.items():
        same(f"instruction {kind}", (said[kind][0], RULES.get(said[kind][1]), said[kind][2]), (name, result, effect))
        forms = [form for _, form in KINDS[kind][2][1:]]
        given = "value_list" if "list (value)" in forms else ("no_value", "one_value", "two_values")[forms.count("value")]
        same(f"how many values {kind} reads", given, count)
        constructor = constructors.get(kind, "Binary")
        at = lambda *sort: [values[constructor][i] for i, form in enumerate(forms) if form in sort]
        same(f"the operands of {kind}", at("value", "list (value)"), operands[constructor])
        same(f"the locals of {kind}", at("local"), reads[constructor] + writes[constructor])

# NUMBERS, NAMES, TYPES
def numbers():
    text = open("include/malovuneth.h").read()
    right = []
    for comment, name, value in re.findall(r"/\*((?:(?!\*/).)*)\*/\s*MALOVUNETH_(\w+) = (\d+)", text[:text.index("enum malovuneth_type")], re.S):
        words = re.sub(r"\s*\n\s*\*\s*", " ", comment).strip().replace("MALOVUNETH_NONE", "65,535")
        right.append([value, name, words.partition("; ")[2] or "-"])
    said = [row[:3] for row in table("number", "constant", "details", "given if")]
    same("the numbers", [row[0] for row in said], [row[0] for row in right])
    for one, other in zip(said, right): same(f"number {one[0]}", one, other)
    details = {value: len(re.sub(r"\(.*?\)|, from 0|^-$", "", words).split(", ")) + words.count("(two numbers") - (words == "-") for value, _, words in said}
    for value, given in re.findall(r"^(?:lower|verify)_refusal .* = refusal (\d+) (.*)$", spec("Answers"), re.M):
        same(f"how many details {value} has", details.get(value), given.count("∷"))
    types = [[tag, name] for name, tag in re.findall(r"MALOVUNETH_(TYPE_\w+) = (\d+)", text)]
    same("the types", [[tag, constant] for tag, _, constant in table("tag", "type", "constant of the header")], types)
    same("the most bytes of a sheet", LIMITS["bytes of a sheet"], number(re.search(r"MOST_BYTES (\d+)", text)[1]))

def names():
    right = re.findall(r"^(\w+) = (\d+)  -- (\".*\")$", spec("Names"), re.M)
    same("the reserved names", [tuple(row[:2]) for row in table("name", "string", "what lowering takes it for")], [(n, text) for _, n, text in right])
    by_name = {word: n for word, n, _ in right}
    lower = spec("Lower")
    contexts = [(context, by_name[word]) for word, context in re.findall(r"\((\w+), context_fn (\d)\)", lower)]
    same("the contexts", [(context, n) for context, _, n in table("context", "name", "by a Call of")], contexts)
    def reading(name, text):
        found = re.search(rf"^{name} n =(.*?)\(IrType\.Struct n\)$", text, re.M | re.S)[1]
        return {by_name[word]: re.sub("T$", "", ty) for word, ty in re.findall(r"\((\w+), IrType\.(\w+)\)", found)}
    own, call = reading("parse_ir_type", lower), reading("from_str", spec("Sema"))
    for n, parameter, called in table("type name", "parameter, own return", "call"):
        if n.isdigit(): same(f"the type named {n}", (parameter, called), (own.get(n, f"Struct {n}"), call.get(n, f"Struct {n}")))
    operators = dict(re.findall(r"^op_number BinOp\.(\w+) = (\d)$", spec("ContractSheet"), re.M))
    kinds = dict(re.findall(r"^binary_kind BinOp\.(\w+) = (\d+)$", spec("InstrTable"), re.M))
    right = [[operators[op], op, KINDS[int(kinds[op])][0], kinds[op]] for op in operators]
    same("the operators", [[o, op, i, k] for o, op, _, i, k in table("operator", "name", "sign", "instruction", "kind")], right)

# SHEETS
def u16(n): return n.to_bytes(2, "little")
def record(kind, *inside):
    body = b"".join(inside)
    return (6 + len(body)).to_bytes(4, "little") + u16(kind) + body
def contract(*inside): return record(1, u16(10), *inside)
def function(*inside, parameters=0): return record(4, u16(11), u16(65535), u16(0), u16(parameters), (u16(21) + u16(1)) * parameters, *inside)
def body(*statements): return contract(function(*statements))
def code(*entries): return record(50, record(51, u16(0), u16(11), u16(4), u16(0), u16(0), u16(0), *entries))
one = record(30, (1).to_bytes(8, "little"))
def answer(asks, sheet):
    return subprocess.run([f"target/bin/{asks}_main"], input=sheet, capture_output=True, check=True).stdout.decode().rstrip("\n")

def le(sheet, at, n): return int.from_bytes(sheet[at:at + n], "little")
TYPES = ["U64", "Bool", "Field", "Struct", "Void"]
def shown(form, sheet, at):
    """An entry in words."""
    value = le(sheet, at, FORMS[form][0])
    if form == "type": return TYPES[value % 65536] + (f" {value // 65536}" if value % 65536 == 3 else "")
    return "none" if form.endswith("?") and value == 65535 else str(value)
def told(sheet, at):
    """The record at a place in words, and where its fixed fields end."""
    stop, (name, _, fields, _, _) = at + le(sheet, at, 4), KINDS[le(sheet, at + 4, 2)]
    words, at = [], at + 6
    for label, form in fields:
        how, inner = parts(form)
        if how == "counted": count, at = le(sheet, at, 2), at + 2
        else: count = 1 if how == "single" else (stop - at) // size(form)
        entries = []
        for _ in range(count):
            entries.append([])
            for part in inner: entries[-1].append(shown(part, sheet, at)); at += FORMS[part][0]
        entries = [":".join(entry) for entry in entries]
        words.append(f"{label} {entries[0] if how == 'single' else '[' + ', '.join(entries) + ']'}")
    return name + (" " + ", ".join(words) if words else ""), at

# EXAMPLES
def sheet_of(what, lines):
    """The bytes of these lines. What they say of their records is compared."""
    sheet, said = b"", []
    for line in lines:
        line, _, note = line.partition("--")
        line, _, words = line.partition("#")
        line, _, times = line.partition(" x ")
        given = bytes.fromhex(line)
        if words: said.append((len(sheet), len(given), words.strip(), re.match(r" at (\d+), (\d+) bytes", note)))
        sheet += given * number(times or "1")
    for at, many, words, place in said:
        right, end = told(sheet, at)
        same(f"{what}, the record at {at}", (words, many), (right, end - at))
        if place: same(f"{what}, place and length", [int(n) for n in place.groups()], [at, le(sheet, at, 4)])
    return sheet
def examples():
    """Runs the examples; gives the sheet of the first one."""
    first, given = None, set()
    for asks, text in re.findall(r"^```text\n(lower|verify)\n(.*?)^```$", document, re.M | re.S):
        lines = text.splitlines()
        what = f"the example of {asks} that begins {lines[0]}"
        sheet = sheet_of(what, [line for line in lines if not line.startswith(">")])
        printed = [line[2:] for line in lines if line.startswith("> ")]
        if printed[0] == "OK": expected = " ".join(["OK", *(f"{b:02X}" for b in sheet_of(what, printed[1:]))])
        else: expected = printed[0]
        same(what, expected, answer(asks, sheet))
        verified = [line[3:] for line in lines if line.startswith(">> ")]
        if asks == "lower" and printed[0] == "OK": same(f"{what}, verified", verified, [answer("verify", bytes.fromhex(expected[3:]))])
        given.add(expected.split()[0].replace("OK", "0"))
        first = first or sheet
    same("the numbers that have an example", sorted(given, key=int), [row[0] for row in table("number", "constant", "details", "given if")])
    return first

AROUND = {
    "contract": lambda r: r, "storage": contract, "struct": contract, "function": contract, "statement": body,
    "block": lambda r: body(record(15, one, r)), "expression": lambda r: body(record(20, r)), "field_init": lambda r: body(record(20, record(35, u16(12), r))),
    "program": lambda r: r, "ir_function": lambda r: record(50, r), "function_name": lambda r: record(50, r), "basic_block": code,
    "instruction": lambda r: code(record(53, u16(0), r)), "terminator": lambda r: code(record(53, u16(0), r)),
}
def whole(sheet, at):
    """The record at a place in words, with those inside it; and where it ends."""
    stop, (words, at), inside = at + le(sheet, at, 4), told(sheet, at), []
    if stop < at: raise ValueError(f"the record {words} is too short")
    while at < stop:
        child, at = whole(sheet, at)
        inside.append(child)
    return words + (f" ({'; '.join(inside)})" if inside else ""), stop
def each_kind():
    rows = table("kind", "bytes", "record", "in words")
    same("the kinds that have an example", [int(row[0]) for row in rows], list(KINDS))
    for kind, text, words, _ in rows:
        sheet = bytes.fromhex(text)
        asks, bad = ("lower", ("1", "3", "4")) if int(kind) < 50 else ("verify", ("1", "40"))
        given = answer(asks, AROUND[KINDS[int(kind)][1]](sheet))
        same(f"the example of {kind} is no record, {given}", given.split()[0] in bad, False)
        same(f"the example of {kind}", (int(kind), (words, len(sheet))), (le(sheet, 4, 2), whole(sheet, 0)))

# LIMITS
LIMITS = {what: number(most) for what, most, _ in table("limit", "most", "past it")}
def nested(n):
    inner = one
    for _ in range(n - 1): inner = record(34, u16(25), inner)
    return inner
def program_of(n):
    """A contract whose program has n bytes: 50, 30 for each Constrain, 16 for each storage field that is read."""
    reads = next(k for k in range(15) if (n - 50 - 16 * k) % 30 == 0)
    statements = [record(11, one)] * ((n - 50 - 16 * reads) // 30) + [record(20, record(32, u16(20)))] * reads
    return contract(record(2, u16(20), u16(1)), function(*statements))
# for each limit a sheet with n, and the place that is refused
SHEETS = {
    "bytes of a sheet": lambda n: (bytes(n), ""),
    "functions of a contract": lambda n: (contract(*[function()] * n), 8 + 14 * (n - 1)),
    "structs of a contract": lambda n: (contract(*[record(3, u16(12))] * n), 8 + 8 * (n - 1)),
    "storage fields of a contract": lambda n: (contract(*[record(2, u16(20), u16(1))] * n), 8 + 10 * (n - 1)),
    "fields of a struct": lambda n: (contract(record(3, u16(12), (u16(25) + u16(1)) * n)), 8),
    "parameters of a function": lambda n: (contract(function(parameters=n)), 8),
    "arguments of a Call": lambda n: (body(record(20, record(37, u16(7), one * n))), 28),
    "arguments of an Emit": lambda n: (body(record(19, u16(12), one * n)), 22),
    "depth": lambda n: (body(record(20, nested(n - 3))), 28 + 8 * (n - 4)),
    "blocks of a function": lambda n: (body(*[record(15, one, record(5))] * ((n + 1) // 3)), 0),
    "locals of a function": lambda n: (body(*[record(10, u16(22), one)] * n), 0),
    "bytes of a program sheet": lambda n: (program_of(n + n % 2), ""),
}
def limits():
    lower = spec("Lower")
    same("blocks of a function", LIMITS["blocks of a function"], int(re.search(r"ltb c\.next_block (\d+)", lower)[1]))
    same("locals of a function", LIMITS["locals of a function"], int(re.search(r"ltb \(length c\.locals\) (\d+)", lower)[1]))
    for what, most, past in table("limit", "most", "past it"):
        refusal, *numbers = re.findall(r"\d+", past)
        same(f"what is past the limit of {what}", numbers, [str(number(most) + 1)] * len(numbers))
        if not RUNS: continue
        within, beyond = (SHEETS[what](number(most) + more) for more in (0, 1))
        same(f"{what}: {most}", answer("lower", within[0]).split()[0] == refusal, False)
        same(f"{what}: more than {most}", f"{refusal} {beyond[1]}".strip(), answer("lower", beyond[0]))

records()
instructions()
numbers()
names()
limits()
if RUNS:
    first = examples()
    each_kind()
    script = re.search(r"^```python\n(.*?)^```$", document, re.M | re.S)[1]
    same("what the Python program writes", subprocess.run([sys.executable, "-c", script], capture_output=True, check=True).stdout.hex(), first.hex())
PYTHON
) || fail "docs/FORMAT.md could not be compared to the end"
while IFS= read -r result; do
  case $result in
  pass) pass ;;
  ?*) fail "docs/FORMAT.md: $result" ;;
  esac
done <<<"$results"
finish
