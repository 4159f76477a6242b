#!/usr/bin/env python3
"""Reads the terms of antt as far as the files of specs/ use the language: application, projections, operators, λ, let, elim, record, do, Π."""
import re

WORD = re.compile(r"--[^\n]*|\[\]|[(){},;\[\]]|[^\s(){},;\[\]]+")
# A variable with what is read of it: `c.next_block`, `w.0`, `K.storage`. A constructor behind its type is one word, as `Class.contract`.
FIELDS = re.compile(r"(?:[^\W\dA-Z][\w'′]*|[A-Z])(?:\.[\w'′]+)+$")
NUMBER = re.compile(r"(0x[0-9A-Fa-f]+|[0-9]+)$")
OPERATORS = {"→": 1, ">>=": 2, ">>": 2, "⊎": 3, "×": 4, "≡": 5, "<": 5, "≤": 5, "&&": 6, "∷": 7, "++": 7, "+": 8, "-": 8, "*": 9, "/": 9, "%": 9}
LEFT = {">>=", ">>", "+", "-", "*", "/", "%"}
KEYWORDS = {"elim", "record", "λ", "let", "in", "do", "↦", "|", "=", ":", "←", "as", "Type", "where"}


class Token:
    def __init__(self, text, start, column):
        self.text, self.start, self.end, self.column = text, start, start + len(text), column


class Node:
    """A term: what it is, where it stands, its parts, and the variables that are in scope there."""

    def __init__(self, kind, start, end, kids=(), scope=(), **more):
        self.kind, self.start, self.end, self.kids, self.scope = kind, start, end, list(kids), tuple(scope)
        self.__dict__.update(more)


def tokens_of(text, start, end):
    found, line = [], text.rfind("\n", 0, start) + 1
    for m in WORD.finditer(text, start, end):
        line = text.rfind("\n", 0, m.start()) + 1
        if FIELDS.match(m.group()):
            for part in re.finditer(r"\.?[^.]+", m.group()):
                found.append(Token(part.group(), m.start() + part.start(), m.start() + part.start() - line))
        elif not m.group().startswith("--"):
            found.append(Token(m.group(), m.start(), m.start() - line))
    return found


class NotRead(Exception):
    pass


class Reader:
    """Reads one term from tokens."""

    def __init__(self, tokens, end, known):
        self.tokens, self.at, self.end, self.known = tokens, 0, end, known

    def peek(self, ahead=0):
        i = self.at + ahead
        return self.tokens[i].text if i < len(self.tokens) else ""

    def take(self, text=None):
        if self.at >= len(self.tokens) or (text is not None and self.peek() != text):
            raise NotRead("expected %s, found %s" % (text, self.peek()))
        self.at += 1
        return self.tokens[self.at - 1]

    def last(self):
        return self.tokens[self.at - 1].end

    def names(self, words):
        """The variables that a pattern binds."""
        return [w for w in words if re.match(r"[^\W\d_]", w) and "." not in w and w not in self.known and w not in KEYWORDS and w not in OPERATORS]

    def term(self, scope, least=0):
        left = self.prefix(scope)
        while self.peek() in OPERATORS and OPERATORS[self.peek()] >= least:
            op = self.take().text
            right = self.term(scope, OPERATORS[op] + (1 if op in LEFT else 0))
            left = Node("op", left.start, right.end, [left, right], scope, op=op)
        return left

    def prefix(self, scope):
        word = self.peek()
        if word in ("λ", "let", "elim", "record", "do"):
            return {"λ": self.function, "let": self.let, "elim": self.elim, "record": self.record, "do": self.block}[word](scope)
        if word in ("(", "{") and self.binds():
            return self.product(scope)
        return self.application(scope)

    def binds(self):
        """Whether a bracket here is a Π's binder: it has a colon at its own depth."""
        depth, i = 0, self.at
        while i < len(self.tokens):
            t = self.tokens[i].text
            depth += t in "([{" and t != "[]"
            depth -= t in ")]}"
            if depth == 1 and t == ":":
                return True
            if depth == 0:
                return False
            i += 1
        return False

    def group(self):
        """The tokens inside a bracket that starts here."""
        inside, depth = [], 0
        while True:
            t = self.take()
            depth += t.text in ("(", "{", "[")
            depth -= t.text in (")", "}", "]")
            if depth == 0:
                return inside[1:]
            inside.append(t)

    def product(self, scope):
        start, bound, groups = self.tokens[self.at].start, [], []
        while self.peek() in ("(", "{") and self.binds():
            first = self.tokens[self.at].start
            inside = self.group()
            colon = [t.text for t in inside].index(":")
            bound += self.names([t.text for t in inside[:colon]])
            part = Reader(inside[colon + 1:], self.last(), self.known)
            groups.append((first, self.last(), part.term(tuple(scope) + tuple(bound))))
        if self.peek() != "→" and len(groups) == 1:
            self.take("×")
        elif self.peek() == "→":
            self.take("→")
        body = self.term(tuple(scope) + tuple(bound))
        return Node("product", start, body.end, [g[2] for g in groups] + [body], scope, groups=groups)

    def function(self, scope):
        start, bound = self.take("λ").start, []
        while True:
            if self.peek() == "(":
                inside = [t.text for t in self.group()]
                bound += self.names(inside[:inside.index(":")] if ":" in inside else inside)
                if self.peek() == ".":
                    self.take()
                    break
                continue
            word = self.take().text
            bound += self.names([word.rstrip(".")])
            if word.endswith("."):
                break
        body = self.term(tuple(scope) + tuple(bound))
        return Node("lambda", start, body.end, [body], scope)

    def let(self, scope):
        start, pattern = self.take("let").start, []
        while self.peek() != "=":
            pattern.append(self.take().text)
        self.take("=")
        value = self.term(scope)
        self.take("in")
        cut = pattern.index(":") if ":" in pattern else len(pattern)
        body = self.term(tuple(scope) + tuple(self.names(pattern[:cut])))
        return Node("let", start, body.end, [value, body], scope)

    def elim(self, scope):
        start = self.take("elim").start
        of = self.application(scope)
        self.take("[")
        arms = []
        while self.peek() != "]":
            if self.peek() == "|":
                self.take()
            pattern = []
            while self.peek() != "↦":
                pattern.append(self.take().text)
            self.take("↦")
            arms.append(self.term(tuple(scope) + tuple(self.names(pattern))))
        self.take("]")
        return Node("elim", start, self.last(), [of] + arms, scope)

    def record(self, scope):
        start = self.take("record").start
        self.take("{")
        values = []
        while self.peek() != "}":
            self.take()
            self.take("=")
            values.append(self.term(scope))
            if self.peek() == ";":
                self.take()
        self.take("}")
        return Node("record", start, self.last(), values, scope)

    def block(self, scope):
        start = self.take("do").start
        column, steps, inside = self.tokens[self.at].column, [], tuple(scope)
        while self.at < len(self.tokens) and self.tokens[self.at].column == column:
            first, stop = self.at, self.at + 1
            while stop < len(self.tokens) and self.tokens[stop].column > column and self.tokens[stop].text != "]":
                stop += 1
            words = [t.text for t in self.tokens[first:stop]]
            arrow = words.index("←") if "←" in words else -1
            part = Reader(self.tokens[first + arrow + 1:stop], self.end, self.known)
            value = part.term(inside)
            if part.at < len(part.tokens):
                raise NotRead("a step of a do block")
            value.bound = arrow >= 0
            value.from_ = self.tokens[first].start
            steps.append(value)
            inside += tuple(self.names(words[:max(arrow, 0)]))
            self.at = stop
            if self.peek() in ("]", "|"):
                break
        return Node("do", start, self.last(), steps, scope)

    def application(self, scope):
        head = self.atom(scope)
        while True:
            word = self.peek()
            if word == "{":
                self.group()
                head = Node("given", head.start, self.last(), [head], scope)
            elif self.starts_atom(word):
                arg = self.atom(scope)
                kids = head.kids + [arg] if head.kind == "call" else [head, arg]
                head = Node("call", head.start, arg.end, kids, scope)
            elif word in ("λ", "record", "elim") and head.kind in ("call", "name"):
                arg = self.prefix(scope)
                head = Node("call", head.start, arg.end, (head.kids if head.kind == "call" else [head]) + [arg], scope)
            else:
                return head

    def starts_atom(self, word):
        return bool(word) and word not in OPERATORS and word not in KEYWORDS - {"Type"} and word not in (")", "]", "}", ",", ";", "[", "{")

    def atom(self, scope):
        """An atom with the fields that are read of it."""
        head = self.plain(scope)
        while self.peek().startswith(".") and len(self.peek()) > 1:
            t = self.take()
            head = Node("field", head.start, t.end, [head], scope, field=t.text[1:], dot=t.start)
        return head

    def plain(self, scope):
        t = self.take()
        if t.text == "(":
            parts = [self.term(scope)]
            while self.peek() == ",":
                self.take()
                parts.append(self.term(scope))
            self.take(")")
            kind = "tuple" if len(parts) > 1 else "paren"
            return Node(kind, t.start, self.last(), parts, scope)
        if not self.starts_atom(t.text):
            raise NotRead("a term, found %s" % t.text)
        kind = "number" if NUMBER.match(t.text) else "name"
        return Node(kind, t.start, t.end, [], scope, text=t.text)
