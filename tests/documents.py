#!/usr/bin/env python3
"""The documents: each crate, path and name of code that one of them names exists, and each crate has its place in them.

    python3 tests/documents.py

Read are README.md, CHANGELOG.md and the documents of docs/, examples/ and bench/, but for their blocks of code. Checked are

- a word that begins like a crate, anywhere: the crate is listed and there;
- a path or the name of a file, anywhere: there is such a file or folder, beside the document, at the top, or in any folder;
- a name in backticks that looks like one of code (`two_words`, `TwoWords`, `One::two`): some source, test or script has it;
- a definition in a table of docs/DEFINITIONS.md: the file of specs/ that its row names has it;
- a clause or function in a table of docs/PROVED.md: a crate of its section has it;
- each crate has a row in the map and is named in docs/PROVED.md and docs/DEFINITIONS.md;
- each document of docs/ is named in README.md, and each example in its index;
- what a block of code shows of a file of an example (`$ cat`, `$ head`), or of its run, is what the file or the listing has.

A line for each failure, and a last line `N passed, M failed`. Nothing is run.
"""
import os
import re
import sys

TOP = os.path.dirname(os.path.dirname(os.path.abspath(__file__)))
ENDINGS = r"\.(?:md|py|rt|antt|edit|csv|txt|c)"
CRATE = re.compile(r"(?<![\w.])nf_[a-z0-9]+(?:_[a-z0-9]+)*(?!\w)")
PATH = re.compile(r"(?<![\w/.<])(?:\.\./|\.ci/)?[\w-]+(?:/[\w.-]+)*/?(?<!\.)")
FOLDERS = ("docs/", "tests/", "bench/", "examples/", "crates/", ".ci/", "../")
SPAN = re.compile(r"`([^`]+)`")
CODE_NAME = re.compile(r"[A-Za-z]\w*(?:(?:::|\.)\w+)*")
# a letter with an index is one of a formula
TWO_WORDS = re.compile(r"[a-z][a-z0-9]+(?:_[a-z0-9]+)+|(?:[A-Z][a-z0-9]+){2,}")
# made by the gate, or by a planner
NOT_KEPT = re.compile(r"(?:^|/)out(?:/|$)|NAME")


def files_below(folder):
    """The paths of files and folders below this folder, from the top, without what is made."""
    for place, folders, names in os.walk(folder):
        folders[:] = sorted(f for f in folders if f not in ("out", ".git", "__pycache__", "target"))
        for name in folders + names:
            yield os.path.relpath(os.path.join(place, name), TOP)


def text_of(path):
    with open(os.path.join(TOP, path), encoding="utf-8") as f:
        return f.read()


class Sources:
    """What the repository has: its paths, its crates, and the names in its code."""

    def __init__(self):
        self.paths = set(files_below(TOP))
        self.tails = {"/".join(path.split("/")[k:]) for path in self.paths for k in range(path.count("/") + 1)}
        self.listed = [line.split(":")[0].split()[0] for line in text_of("crates.txt").splitlines() if re.match(r"[a-z]\w*\b.*:", line)]
        self.specs, self.declared, self.words = {}, {}, set()
        for path in sorted(self.paths):
            if path.endswith((".rt", ".antt", ".py")):
                text = text_of(path)
                self.words |= set(re.findall(r"\w+", text)) | {os.path.basename(path).split(".")[0]}
                self.take(path, text)

    def take(self, path, text):
        parts = path.split("/")
        if parts[0] != "crates" or len(parts) < 4:
            return
        names = self.declared.setdefault(parts[1], set())
        if path.endswith(".rt"):
            names |= set(re.findall(r"\b(?:ensures|requires)\s*\*?\s*(\w+)", text))
            names |= set(re.findall(r"\b(?:fn|struct|enum|trait|type|const|mod)\s+(\w+)", text))
            names |= set(re.findall(r"\bimpl(?:<[^>]*>)? (?:\w+::)*(\w+)", text)) | set(re.findall(r"^\s+([A-Z]\w*)\b", text, re.M))
        elif parts[2] in ("specs", "proofs"):
            said = [line for line in text.splitlines() if not line.lstrip().startswith(("--", "use "))]
            if parts[2] == "specs":
                self.specs["/".join(parts[1:])] = "\n".join(said)
            names |= {word for line in said for word in re.findall(r"^(?:[a-z ]+ )?([^\s:]+) .*:", line)}
            names |= {word for line in said for word in re.findall(r"^(?:\w+ )*?(?:record|data|abbrev pub|pub)\s+(\w+)", line)}

    def has_path(self, document, path):
        path = path.rstrip("/")
        beside = os.path.normpath(os.path.join(os.path.dirname(document), path))
        return beside in self.paths or path in self.tails

    def has_crate(self, name):
        return name in self.listed and "crates/" + name in self.paths

    def defines(self, crate, file, name):
        text = self.specs.get("%s/specs/%s.antt" % (crate, file))
        return text is not None and (re.search(r"(?<!\w)%s(?!\w)" % re.escape(name), text) is not None or "◌%s◌" % name in text)


class Report:
    def __init__(self):
        self.passed, self.failed = 0, 0

    def count(self, holds, place, fault):
        if holds:
            self.passed += 1
        else:
            self.failed += 1
            print("%s: %s" % (place, fault))


def prose(text):
    """The lines that are no block of code, with their numbers."""
    fenced = False
    for number, line in enumerate(text.splitlines(), 1):
        if line.startswith("```"):
            fenced = not fenced
        elif not fenced and not line.startswith("    "):
            yield number, line


def looks_like_path(word):
    return word.startswith(FOLDERS) and "/" in word or re.search(ENDINGS + "$", word) is not None


def check_names(sources, report, document):
    """Crates, paths and names of code in a document."""
    for number, line in prose(text_of(document)):
        place = "%s:%d" % (document, number)
        for crate in CRATE.findall(line):
            report.count(sources.has_crate(crate), place, "there is no crate %s" % crate)
        for word in PATH.findall(line):
            if looks_like_path(word) and not NOT_KEPT.search(word):
                report.count(sources.has_path(document, word), place, "there is no file or folder %s" % word)
        for span in SPAN.findall(line):
            if CODE_NAME.fullmatch(span) and not looks_like_path(span):
                for part in re.split(r"::|\.", span):
                    if "::" in span or TWO_WORDS.fullmatch(part):
                        report.count(part in sources.words, place, "no source has the name %s" % part)


def tables(text, first):
    """The rows of the tables whose header begins so: the line, the crates of the section, the cells."""
    crates, inside = [], False
    for number, line in enumerate(text.splitlines(), 1):
        if line.startswith("## "):
            crates = re.findall(r"\b(?:nf_\w+|netflow)\b", "".join(re.findall(r"\(([^)]*)\)", line)))
        cells = [cell.strip() for cell in line.strip().strip("|").split("|")] if line.startswith("|") else None
        if cells is None:
            inside = False
        elif cells[0] == first:
            inside = True
        elif inside and not set(cells[0]) <= set("-: "):
            yield number, crates, cells


def check_definitions(sources, report, document):
    for number, crates, cells in tables(text_of(document), "Definition"):
        place = "%s:%d" % (document, number)
        # a crate that is not there is reported where it is named
        crates = [c for c in crates if c in sources.listed]
        words = re.findall(r"\w+", cells[1])
        within = [w for w in words if w in sources.listed] or crates
        files = [w for w in words if w not in sources.listed]
        for name in SPAN.findall(cells[0]) if files and within else []:
            if name != "..":
                report.count(any(sources.defines(c, f, name) for c in within for f in files), place,
                             "%s is not in specs/%s.antt of %s" % (name, " or ".join(files), " or ".join(within) or "any crate"))


def check_clauses(sources, report, document):
    for number, crates, cells in tables(text_of(document), "Promise"):
        place = "%s:%d" % (document, number)
        within = [w for w in re.findall(r"\b(?:nf_\w+|netflow)\b", cells[-1]) if w in sources.listed] + crates
        known = set().union(*(sources.declared.get(c, set()) for c in within))
        for span in SPAN.findall(cells[-1]) if known else []:
            for part in re.split(r"::|\.", span):
                if re.fullmatch(r"\w+", part) and part not in sources.listed:
                    report.count(part in known, place, "%s has no clause, function or definition %s" % (" or ".join(within) or "no crate", part))


def check_places(sources, report):
    """Each crate has its place, and so has each document and each example."""
    found = {path.split("/")[1] for path in sources.paths if re.fullmatch(r"crates/\w+/src", path)}
    for crate in sorted(found | set(sources.listed)):
        report.count(sources.has_crate(crate), "crates.txt", "the crate %s is not both listed and there" % crate)
        for document, pattern in (("docs/ARCHITECTURE.md", r"^\| %s \|"), ("docs/PROVED.md", r"\b%s\b"), ("docs/DEFINITIONS.md", r"\b%s\b")):
            report.count(re.search(pattern % crate, text_of(document), re.M) is not None, document, "the crate %s has no place here" % crate)
    for path in sorted(sources.paths):
        if re.fullmatch(r"docs/\w+\.md", path):
            report.count(path in text_of("README.md"), "README.md", "it does not name %s" % path)
        if re.fullmatch(r"examples/\w+", path):
            report.count("`%s`" % path.split("/")[1] in text_of("examples/README.md"), "examples/README.md", "it does not name %s" % path)


def commands(text):
    """The commands that blocks of code show, each with its line and what it prints."""
    command = None
    for number, line in enumerate(text.splitlines() + [""], 1):
        inside = line.startswith("    ")
        if command and (not inside or line.startswith("    $ ")):
            yield command
            command = None
        if line.startswith("    $ "):
            command = number, line[6:], []
        elif command:
            command[2].append(line[4:])


def check_shown(sources, report, document):
    folder = os.path.dirname(document)
    for number, command, printed in commands(text_of(document)):
        words = command.split()
        if words[0] == "cd":
            folder = os.path.normpath(os.path.join(folder, words[1]))
            continue
        file = {"cat": words[-1], "head": words[-1]}.get(words[0], "listing.txt" if command == "netflow run < run.txt" else None)
        path = file and os.path.join(folder, file)
        if path in sources.paths:
            due = text_of(path).splitlines()
            due = due[:int(words[1][1:])] if words[0] == "head" else due
            report.count(printed == due, "%s:%d" % (document, number), "this is not what %s has" % path)


def main():
    sources, report = Sources(), Report()
    for path in sorted(sources.paths):
        if re.fullmatch(r"(?:README|CHANGELOG)\.md|(?:docs|examples|bench)/.*\.md", path):
            check_names(sources, report, path)
            check_shown(sources, report, path)
    check_definitions(sources, report, "docs/DEFINITIONS.md")
    check_clauses(sources, report, "docs/PROVED.md")
    check_places(sources, report)
    print("%d passed, %d failed" % (report.passed, report.failed))
    return 1 if report.failed else 0


if __name__ == "__main__":
    sys.exit(main())
