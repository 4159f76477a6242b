#!/usr/bin/env python3
"""Checks a change in copies of the crate: first against the rows alone, then against all of proofs/, then against the crates of the code."""
import os
import re
import resource
import shutil
import subprocess

# The files of proofs/ that compute rows or refute statements, and what they need.
ROW_FILES = ["Rows", "Readings", "RunRows", "ReadsRows", "Demand3Rows", "RulesOut", "Meaning", "AnalyzeRows", "AnalyzeExprRows", "Apart", "BenchRows", "BenchSheetRows"]
NEEDED = ["All"]
# Where a change of a file is likely to be met first; the other crates follow in the order of crates.txt.
FIRST_MET = {
    "Lower": ["lower_walk"], "Sema": ["lower_walk"], "Analyze": ["analyze_walk"], "Ast": ["lower_walk"], "Verify": ["verify"], "Records": ["sheet"], "Grammar": ["sheet"], "Fields": ["reader"],
    "ContractSheet": ["contract_nodes", "lower_walk"], "ProgramSheet": ["verify", "lower_walk"], "Answers": ["verify", "lower"], "Lines": ["lower_line"], "Names": ["contract_lookup"],
    "Ir": ["ir", "lower_walk"], "InstrTable": ["ir", "lower_walk"],
}
# A check that takes more seconds of a processor than this is stopped, and counts as refused: unchanged, the rows take 2 and a crate 60 at most.
MOST_SECONDS = 300
PLACE = re.compile(r"^(?:note: )?\S*?/(specs|proofs)/(\S+?)\.antt:(\d+):\d+: (.*)$")


class Verdict:
    """What became of a change: 'ill-typed', 'row', 'lemma', 'code' or 'proved'; and where it was refused first."""

    def __init__(self, outcome, where=""):
        self.outcome, self.where = outcome, where


def check(folder):
    """rt check of the crate in this folder, over what the last one there kept."""
    limit = lambda: resource.setrlimit(resource.RLIMIT_CPU, (MOST_SECONDS, MOST_SECONDS))
    return subprocess.run(["rt", "check"], cwd=folder, capture_output=True, text=True, preexec_fn=limit)


def errors(output):
    """Folder, file, line and words of each error."""
    found = []
    for line in output.split("\n"):
        m = PLACE.match(line)
        if m and not re.match(r"(note|warning):", m.group(4)) and not line.startswith("note: "):
            found.append((m.group(1), m.group(2), int(m.group(3)), m.group(4)))
    return found


class Copy:
    """A repository of its own with a copy of the crate `definitions`, with all of its proofs or with the rows alone."""

    def __init__(self, crate, folder, rows_only):
        self.folder = os.path.join(folder, "crates", "definitions")
        shutil.copytree(crate, self.folder, ignore=shutil.ignore_patterns("must-fail", "out"))
        with open(os.path.join(folder, "crates.txt"), "w") as f:
            f.write("definitions:\n")
        if rows_only:
            proofs = os.path.join(self.folder, "proofs")
            for name in os.listdir(proofs):
                path = os.path.join(proofs, name)
                if os.path.isdir(path):
                    shutil.rmtree(path)
                elif name[:-5] not in ROW_FILES + NEEDED:
                    os.remove(path)
            with open(os.path.join(proofs, "Lib.antt"), "w") as f:
                f.write("".join("pub mod %s\n" % m for m in NEEDED + ROW_FILES))

    def check(self):
        done = check(self.folder)
        return done.returncode, done.stdout + done.stderr

    def changed(self, change, text):
        """The status and the output with the change made."""
        path = os.path.join(self.folder, "specs", change.file + ".antt")
        with open(path, "w", encoding="utf-8") as f:
            f.write(change.apply(text))
        try:
            return self.check()
        finally:
            with open(path, "w", encoding="utf-8") as f:
                f.write(text)

    def name_of(self, error):
        """An error's place; of a row, its name, which stands behind it as a comment."""
        part, file, line, words = error
        with open(os.path.join(self.folder, part, file + ".antt"), encoding="utf-8") as f:
            source = f.read().split("\n")[line - 1]
        name = re.search(r"-- (\S+)$", source)
        return "%s: %s" % (file, name.group(1) if name else "line %d" % line)


class Worker:
    """Copies for one worker; `judge` says what becomes of a change."""

    def __init__(self, repository, folder):
        crate = os.path.join(repository, "crates", "definitions")
        self.rows, self.whole = Copy(crate, os.path.join(folder, "rows"), True), Copy(crate, os.path.join(folder, "whole"), False)
        self.scratch = os.path.join(folder, "repository")
        shutil.copytree(os.path.join(repository, "crates"), os.path.join(self.scratch, "crates"), ignore=shutil.ignore_patterns("must-fail", "out"))
        shutil.copy(os.path.join(repository, "crates.txt"), self.scratch)

    def judge(self, change, text, cited):
        status, output = self.rows.changed(change, text)
        found = errors(output)
        if status == 2:
            raise RuntimeError("rt failed on %s:\n%s" % (change.key, output))
        if status and any(e[0] == "specs" and (e[1] == change.file or e[1] not in ROW_FILES) for e in found):
            return Verdict("ill-typed")
        if status:
            rows = [e for e in found if e[0] == "proofs"] or found
            return Verdict("row", self.rows.name_of(rows[0]) if rows else "no verdict")
        status, output = self.whole.changed(change, text)
        if status:
            found = errors(output)
            return Verdict("lemma", self.whole.name_of(found[0]) if found else "no verdict")
        return self.in_code(change, text) if cited else Verdict("proved")

    def in_code(self, change, text):
        """The crates of the code, one after the other, until one is refused."""
        path = os.path.join(self.scratch, "crates", "definitions", "specs", change.file + ".antt")
        with open(path, "w", encoding="utf-8") as f:
            f.write(change.apply(text))
        try:
            names = [line.split(":")[0].split()[0] for line in open(os.path.join(self.scratch, "crates.txt")) if ":" in line and not line.startswith("#")]
            for name in FIRST_MET.get(change.file, []) + names:
                done = check(os.path.join(self.scratch, "crates", name))
                if done.returncode:
                    failed = re.search(r"rt: the library (\S+) did not build", done.stdout + done.stderr)
                    return Verdict("code", failed.group(1) if failed else name)
        finally:
            with open(path, "w", encoding="utf-8") as f:
                f.write(text)
        return Verdict("proved")
