#!/usr/bin/env python3
"""Mechanical changes of antt definitions: another constructor of the type, exchanged operands, a dropped conjunct, premise, field, element or step, a
constant, exchanged arms, another variable in scope, another field of the record, another function of the same type, an argument in place of a call,
another clause's right side. A change is a stretch of a file and the text that takes its place; whether it is well typed is for the checker to say."""
import os
import re

from mutants_reader import NUMBER, NotRead, OPERATORS, Reader, tokens_of

# Exchanging the operands of these changes nothing, so it is not tried.
EITHER_WAY = {"eqb", "&&", "≡", "×", "⊎", "+", "*"}
# Of these an operand may be left out.
DROPPED = {"&&", "×", "⊎", "→", "∷", "++", ">>"}
# Types of the library: their constructors, how many arguments each takes, and where they are.
LIBRARY = {
    "Bool": ("mathlib.Core.Bool", [("true", 0), ("false", 0)]),
    "Option": ("mathlib.Core.Option", [("none", 0), ("some", 1)]),
    "List": ("mathlib.Core.List", [("[]", 0)]),
    "ℕ": ("Prim.Native.Nat", [("zero", 0), ("suc", 1)]),
}
HEAD = re.compile(r"((?:abbrev |unfoldable |pub )*)(\S+)((?: \{[^}]*\})*) :(?= |$)")
SPECS = "Rattle.definitions.specs."


def flat(text):
    return " ".join(re.sub(r"--[^\n]*", "", text).split()) or "(nothing)"


def trimmed(text, start, end, new):
    """The same change without the words that both texts begin or end with, as far as brackets allow."""
    words = lambda s: [(m.group(), m.start(), m.end()) for m in re.finditer(r"[(){},;\[\]]|[^\s(){},;\[\]]+", s)]
    old, to = words(text[start:end]), words(new)
    same = lambda a, b: next((i for i, (x, y) in enumerate(zip(a, b)) if x[0] != y[0]), min(len(a), len(b)))
    balanced = lambda ws: all(sum((w[0] == o) - (w[0] == c) for w in ws) == 0 for o, c in ("()", "[]", "{}"))
    most = min(len(old) - 1, len(to))
    back = next((k for k in range(min(most, same(old[::-1], to[::-1])), -1, -1) if balanced(old[len(old) - k:])), 0)
    old, to = old[:len(old) - back], to[:len(to) - back]
    most = min(len(old) - 1, len(to))
    front = next((k for k in range(min(most, same(old, to)), -1, -1) if balanced(old[:k])), 0)
    stretch = lambda ws, s: s[ws[front][1]:ws[-1][2]] if len(ws) > front else ""
    first, last = old[front][1], old[-1][2]
    if not to[front:] and text[start + last:start + last + 1] == " ":
        last += 1
    return start + first, start + last, stretch(to, new)


class Change:
    """In FILE, the text from `start` to `end` becomes `new`."""

    def __init__(self, file, name, clause, start, end, old, new, which):
        self.file, self.name, self.start, self.end, self.new = file, name, start, end, new
        self.key = "%s %s%s: %s ⇒ %s%s" % (file, name, "/%d" % clause if clause else "", flat(old), flat(new), " (%d)" % which if which else "")

    def apply(self, text):
        return text[:self.start] + self.new + text[self.end:]


class Declaration:
    def __init__(self, name, kind, type_, clauses, params=()):
        self.name, self.kind, self.type, self.clauses, self.params = name, kind, type_, clauses, params


def chunks(text):
    """Where each declaration's lines stand: those that begin at the left margin, or inside a mutual block two columns in."""
    starts, margin, at = [], 0, 0
    for line in text.split("\n"):
        words, indent = line.split(), len(line) - len(line.lstrip())
        if words and not words[0].startswith(("--", "}", "]")):
            if indent == 0:
                margin = 2 if words[-1] == "mutual" else 0
            if indent == margin and words[-1] != "mutual":
                starts.append(at)
            elif indent == 0:
                starts.append(at)
        at += len(line) + 1
    return [(a, b) for a, b in zip(starts, starts[1:] + [len(text)])]


def comment_free(text, start, end):
    """The stretch without the comments and empty lines at its end."""
    lines, stop = text[start:end].split("\n"), end
    while lines and (not lines[-1].strip() or lines[-1].strip().startswith("--")):
        stop -= len(lines.pop()) + 1
    return start, max(start, min(stop, end))


def declarations(text):
    """Functions with their clauses, and records with their fields, in order."""
    found, by_name = [], {}
    for start, end in chunks(text):
        start, end = comment_free(text, start, end)
        piece = text[start:end].strip()
        first = piece.split("\n")[0]
        record = re.match(r"(?:pub )?record (\S+)", piece)
        head = HEAD.match(piece)
        if re.match(r"(use|pub use|mod|pub mod|infix\w*|unfolding|(unfoldable )?mutual)\b", piece):
            continue
        if record:
            params = [n for group in re.findall(r"\(([^():]*) :", first) for n in group.split()]
            found.append(Declaration(record.group(1), "record", "", fields_of(text, start, end), params))
        elif re.match(r"(pub )?data ", piece):
            continue
        elif head and " = " not in first.split(" : ")[0]:
            one = Declaration(head.group(2), "function", " ".join(piece[head.end():].split("unfolding")[0].split()), [])
            found.append(one)
            by_name[one.name] = one
        else:
            name = next((n for n in by_name if clause_of(n, piece)), None)
            if name:
                by_name[name].clauses.append((start + len(text[start:end]) - len(text[start:end].lstrip()), end))
    return found


def clause_of(name, piece):
    if name.startswith("◌") and name.endswith("◌"):
        return bool(re.match(r".*? %s " % re.escape(name.strip("◌")), piece))
    return piece.split()[0] == name


def fields_of(text, start, end):
    """Each field of a record: from its line to the next field's, and where its type stands."""
    lines = [(m.start(1) + start, m.end() + start) for m in re.finditer(r"^ *((?:pub )?\S+ :.*(?:\n {4,}.*)*)$", text[start:end], re.M) if not m.group(1).startswith(("pub record", "record"))]
    return [(a, b, text.index(" : ", a) + 3) for a, b in lines]


class Knowledge:
    """What all files of specs/ declare: constructors by type, fields by record, functions by type."""

    def __init__(self, folder):
        self.constructors, self.type_of, self.fields, self.functions = {}, {}, {}, {}
        for t, (module, cs) in LIBRARY.items():
            self.add(t, module, cs)
        for f in sorted(os.listdir(folder)):
            text = open(os.path.join(folder, f), encoding="utf-8").read()
            self.read_data(text, SPECS + f[:-5])
            for d in declarations(text):
                if d.kind == "record":
                    self.fields[(f[:-5], d.name)] = {re.sub(r"^pub ", "", text[a:b]).split(" ")[0]: text[t:b] for a, b, t in d.clauses}
                else:
                    self.functions.setdefault(f[:-5], {})[d.name] = d.type

    def add(self, type_, module, cs):
        for c, n in cs:
            self.constructors.setdefault((module, type_), []).append((c, n))
            self.type_of.setdefault(c, []).append((module, type_))

    def read_data(self, text, module):
        for m in re.finditer(r"^( *)(?:pub )?data (\S+)[^\n]*where\n((?:\1 +.*\n|\n(?=\1  ))*)", text, re.M):
            for line in m.group(3).split("\n"):
                line = line.split(" --")[0].strip()
                if " : " in line and not line.startswith("--"):
                    names, type_ = line.split(" : ", 1)
                    self.add(m.group(2), module, [(c, arity(type_)) for c in names.split()])

    def names(self):
        return set(self.type_of) | {"_"}


def arity(type_):
    """How many explicit arguments a constructor of this type takes."""
    count, plain = 0, re.sub(r"\{[^}]*\}( →)?", "", type_)
    for m in re.finditer(r"\(([^():]*) : [^()]*(?:\([^()]*\)[^()]*)*\)", plain):
        count += len(m.group(1).split())
    rest = re.sub(r"\([^():]* : [^()]*(?:\([^()]*\)[^()]*)*\)", "@", plain)
    parts = [p for p in split_arrows(rest)][:-1]
    return count + sum(1 for p in parts if p.strip() and "@" not in p)


def split_arrows(text):
    parts, depth, part = [], 0, ""
    for c in text:
        depth += (c == "(") - (c == ")")
        if c == "→" and depth == 0:
            parts.append(part)
            part = ""
        else:
            part += c
    return parts + [part]


class Changer:
    """All changes of one file."""

    def __init__(self, file, text, knowledge):
        self.file, self.text, self.known, self.unread = file, text, knowledge, []
        self.imported = set(re.findall(r"[^\s,{}]+", " ".join(re.findall(r"^use [^\n{]*\{([^\n]*)\}", text, re.M))))
        self.declared = declarations(text)

    def changes(self, wanted=lambda d: True):
        seen, found = {self.text}, []
        for d in self.declared:
            if not wanted(d):
                continue
            for c in (self.of_record(d) if d.kind == "record" else self.of_function(d)):
                after = c.apply(self.text)
                if after not in seen:
                    seen.add(after)
                    found.append(c)
        return found

    def change(self, d, clause, region, start, end, new):
        start, end, new = trimmed(self.text, start, end, new)
        old = self.text[start:end].rstrip()
        # (a field may stand behind a variable, and not behind a type)
        before = "" if old.startswith(".") else r"(?<![^\s(){},;\[\]])"
        after = r"(?![^\s(){},;\[\]%s])" % ("" if re.search(r"[A-Z]\w+$", old) else ".")
        same = [m.start() for m in re.finditer(before + re.escape(old) + after, self.text[:region[1]]) if m.start() >= region[0]]
        return Change(self.file, d.name, clause, start, end, old, new, same.index(start) + 1 if len(same) > 1 and start in same else 0)

    def of_record(self, d):
        for i, (a, b, t) in enumerate(d.clauses):
            line = self.text.rfind("\n", 0, a)
            field = Declaration("%s.%s" % (d.name, self.text[a:t].replace("pub ", "").split()[0]), "record", "", [])
            yield self.change(field, 0, (a, b), line, b, "")
            yield from self.of_term(field, 0, (a, b), t, b, d.params)

    def of_function(self, d):
        sides, number = [], len(d.clauses) > 1
        for i, (a, b) in enumerate(d.clauses):
            tokens = tokens_of(self.text, a, b)
            depth, cut = 0, None
            for k, t in enumerate(tokens):
                depth += (t.text in "({[") - (t.text in ")}]") if t.text != "[]" else 0
                if t.text == "=" and depth == 0:
                    cut = k
                    break
            if cut is None:
                self.unread.append(self.text[a:b])
                continue
            pattern = [t.text for t in tokens[:cut] if t.text != d.name]
            scope = Reader([], b, self.known.names()).names(pattern)
            sides.append((i, tokens[cut + 1].start, b, scope))
            yield from self.of_term(d, i + 1 if number else 0, (a, b), tokens[cut + 1].start, b, scope)
        for i, s, e, _ in sides:
            for j, s2, e2, _ in sides:
                if i != j and self.text[s:e] != self.text[s2:e2]:
                    yield self.change(d, i + 1, (s, e), s, e, self.text[s2:e2])

    def of_term(self, d, clause, region, start, end, scope):
        tokens = tokens_of(self.text, start, end)
        reader = Reader(tokens, end, self.known.names())
        try:
            term = reader.term(scope)
            if reader.at < len(tokens):
                raise NotRead("ends at %s" % reader.peek())
        except (NotRead, ValueError, IndexError) as e:
            self.unread.append("%s %s: %s" % (self.file, d.name, e))
            return
        for s, e, new in self.walk(term):
            yield self.change(d, clause, region, s, e, new)

    def walk(self, n):
        yield from getattr(self, "at_" + n.kind, lambda n: ())(n)
        for kid in n.kids:
            yield from self.walk(kid)

    def src(self, n):
        return self.text[n.start:n.end]

    def closed(self, n):
        """The text of a term as an argument."""
        s = self.src(n)
        return s if n.kind in ("name", "number", "paren", "tuple") else "(%s)" % s

    def at_op(self, n):
        left, right = n.kids
        if n.op == "∷" and right.kind == "op" and right.op == "∷":
            second = right.kids[0]
            yield left.start, second.end, self.src(second) + self.text[left.end:second.start] + self.src(left)
        elif n.op not in EITHER_WAY | {"→", "∷"}:
            yield n.start, n.end, "%s %s %s" % (self.closed(right), n.op, self.closed(left))
        if n.op in DROPPED:
            yield n.start, n.end, self.src(right)
            if n.op not in ("→", "∷"):
                yield n.start, n.end, self.src(left)
        yield from self.constants(n)

    def at_product(self, n):
        """A premise less, or one for a constant alone."""
        for start, end, _ in n.groups:
            rest = re.match(r"\s*→?\s*", self.text[end:]).end() if len(n.groups) == 1 else 0
            yield start, end + rest, ""
            names, after = self.text[start + 1:end].split(" : ")[0].split(), self.text[end + rest:n.end]
            for c in ("[]", "0") if len(names) == 1 else ():
                yield start, n.end, re.sub(r"(?<![^\s(]){}(?![^\s),])".format(re.escape(names[0])), c, after)

    def at_number(self, n):
        value = int(n.text, 0)
        yield n.start, n.end, str(value + 1)
        if value:
            yield n.start, n.end, "0"

    def at_name(self, n):
        yield from self.constructors(n, n.text, [])
        if n.text == "[]":
            yield from ((n.start, n.end, "(%s ∷ [])" % v) for v in dict.fromkeys(n.scope))
        if n.text in n.scope:
            for other in dict.fromkeys(n.scope):
                if other != n.text:
                    yield n.start, n.end, other
        for other in self.alike(n.text):
            yield n.start, n.end, other

    def alike(self, name):
        """Other functions of the same type that this file can name."""
        types = {}
        for names in self.known.functions.values():
            for f, t in names.items():
                if f in self.imported or f in self.known.functions.get(self.file, {}):
                    types[f] = t
        own = types.get(name)
        return [f for f, t in types.items() if own and t == own and f != name and "→" in t]

    def constructors(self, n, name, args):
        plain = name.split(".")[-1]
        for module, type_ in self.known.type_of.get(plain, []):
            if "." in name and name.split(".")[0] != type_:
                continue
            for c, count in self.known.constructors[(module, type_)]:
                if c != plain:
                    yield from self.rebuilt(n, self.named(module, type_, c, name), count, args)

    def named(self, module, type_, c, like):
        if "." in like:
            return "%s.%s" % (type_, c)
        here = module == SPECS + self.file
        return c if here or c in self.imported or c == "[]" else "%s.%s" % (module, c)

    def rebuilt(self, n, c, count, args):
        """The constructor c in place of one that had these arguments."""
        if count == len(args):
            yield n.start, n.end, " ".join([c] + [self.closed(a) for a in args])
        elif count == 0:
            yield n.start, n.end, c
        elif count == 1:
            for a in [self.closed(a) for a in args] or dict.fromkeys(n.scope):
                yield n.start, n.end, "(%s %s)" % (c, a)

    def at_call(self, n):
        head, args = n.kids[0], n.kids[1:]
        if head.kind == "name":
            yield from self.constructors(n, head.text, args)
        for i in range(len(args)):
            for j in range(i):
                if self.src(args[i]) != self.src(args[j]) and not (head.kind == "name" and head.text in EITHER_WAY):
                    mid = self.text[args[j].end:args[i].start]
                    yield args[j].start, args[i].end, self.src(args[i]) + mid + self.src(args[j])
        for a in args:
            yield n.start, n.end, self.src(a)
            yield from self.constants(a)

    def constants(self, n):
        """A constant in place of an argument, an operand or a value."""
        if self.src(n) not in ("[]", "0", "none", "true", "false") and n.kind != "number":
            for c in ("[]", "0"):
                yield n.start, n.end, c

    def at_field(self, n):
        if n.field.isdigit():
            yield from ((n.dot, n.end, ".%d" % k) for k in range(3) if k != int(n.field))
        for fields in self.known.fields.values():
            yield from ((n.dot, n.end, "." + f) for f, t in fields.items() if f != n.field and t == fields.get(n.field))

    def at_elim(self, n):
        of, arms = n.kids[0], n.kids[1:]
        for c in ("true", "false", "none"):
            yield of.start, of.end, self.named(*{"none": ("mathlib.Core.Option", "Option")}.get(c, ("mathlib.Core.Bool", "Bool")), c, "")
        for i, a in enumerate(arms):
            for b in arms[i + 1:]:
                yield a.start, b.end, self.src(b) + self.text[a.end:b.start] + self.src(a)
            for b in arms:
                if self.src(a) != self.src(b):
                    yield a.start, a.end, self.src(b)

    def at_record(self, n):
        for i, a in enumerate(n.kids):
            yield from self.constants(a)
            for b in n.kids:
                if self.src(a) != self.src(b):
                    yield a.start, a.end, self.src(b)

    def at_tuple(self, n):
        for i, a in enumerate(n.kids):
            for b in n.kids[i + 1:]:
                yield a.start, b.end, self.src(b) + self.text[a.end:b.start] + self.src(a)

    def at_do(self, n):
        for i, step in enumerate(n.kids[:-1]):
            yield step.from_, n.kids[i + 1].from_, ""
