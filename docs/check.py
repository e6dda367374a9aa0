"""Checks that the documents say what the repository has:

- the drawing of crates in ARCHITECTURE.md is that of crates.txt;
- a bug of must-fail/ or planted/ has a line for each text, and the text that it changes stands once in its file;
- THEOREMS.md names each bug of must-fail/ in bold, each of planted/ plainly, in a section of its crate, and no other;
- what its rows name stands in the crate, a lemma in the file behind it, and each public call with a clause is named;
- a file that DEFINITIONS.md names for definitions has them;
- each definition that a public clause cites is named there, and each of a crate that has no function;
- links of documents and of the crates' READMEs lead to files;
- USING.md has each cause's text, and examples/README.md each example.

usage: docs/check.py
"""

import functools
import os
import re
import sys

TOP = os.path.dirname(os.path.dirname(os.path.abspath(__file__)))
LINE = re.compile(r"^ *(\d+)  (dsec\w*) .*?(?: on (dsec[\w, ]*))?$")


def read(*path):
    with open(os.path.join(TOP, *path), encoding="utf-8") as file:
        return file.read()


def sections(document):
    """The sections of a document: the title of each, the crates that it names, and its text."""
    for section in re.split(r"(?m)^## ", read("docs", document))[1:]:
        title = section.splitlines()[0]
        yield title, re.findall(r"`(dsec\w*)`", title), section


def rows(section):
    """The cells of each row of a section's tables, without the heads."""
    lines = section.splitlines()
    for line, after in zip(lines, lines[1:] + [""]):
        if line.startswith("| ") and not after.startswith("|---"):
            yield [cell.strip() for cell in line[1:].rstrip("| ").split(" | ")]


@functools.lru_cache(None)
def texts(crate, *folders):
    """Each file of a crate's folders but its tests, by its path below the crate."""
    found, top = {}, os.path.join(TOP, "crates", crate)
    for folder in folders:
        for path, _, files in os.walk(os.path.join(top, folder)):
            for file in files:
                if file.endswith((".rt", ".antt")) and file != "tests.rt":
                    found[os.path.relpath(os.path.join(path, file), top)] = read(path, file)
    return found


def words(text):
    return set(re.findall(r"[\w-]+", text))


def quoted(text):
    """The words that stand in backquotes."""
    return words(" ".join(re.findall(r"`([^`]+)`", text)))


def listed():
    """Each crate of crates.txt with the crates of this repository that it names."""
    crates = {}
    for line in read("crates.txt").splitlines():
        name, _, others = line.partition(":")
        if name.strip() and not name.startswith("#"):
            crates[name.split()[0]] = [other for other in others.split() if other.startswith("dsec")]
    return crates


def below(crates, name):
    found = set()
    for other in crates[name]:
        found |= {other} | below(crates, other)
    return found


def expected(crates):
    """The lines that the drawing should have: a crate's level, its name, and what it stands on but through another."""
    def level(name):
        return 1 + max((level(other) for other in crates[name]), default=-1)

    lines = {}
    for name, others in crates.items():
        direct = {other for other in others if not any(other in below(crates, third) for third in others)}
        lines[name] = (level(name), direct)
    return lines


def drawn():
    lines, last = {}, None
    for line in read("docs", "ARCHITECTURE.md").split("```")[1].splitlines():
        match = LINE.match(line)
        if match:
            on = set((match[3] or "").replace(",", " ").split())
            lines[match[2]] = (int(match[1]), on)
            if last is not None and int(match[1]) > last:
                yield "ARCHITECTURE.md: %s stands below a crate of a lower level" % match[2]
            last = int(match[1])
    crates = expected(listed())
    for name in sorted(set(lines) | set(crates)):
        if lines.get(name) != crates.get(name):
            yield "ARCHITECTURE.md has %s as %s, crates.txt as %s" % (name, lines.get(name), crates.get(name))


def bugs(folder):
    """The bugs of a folder, each as its crate and its name."""
    found = set()
    for crate in os.listdir(os.path.join(TOP, "crates")):
        path = os.path.join(TOP, "crates", crate, folder)
        if os.path.isdir(path):
            found |= {(crate, edit[:-len(".edit")]) for edit in os.listdir(path)}
    return found


def fitting():
    """The text that a bug changes stands once in its file."""
    for folder in ("must-fail", "planted"):
        for crate, name in sorted(bugs(folder)):
            text = read("crates", crate, folder, name + ".edit")
            if not re.fullmatch(r"(file: .*\n(old: .*\nnew:.*\n)+)+", text):
                yield "%s of %s has other lines than file:, old: and new:" % (name, crate)
                continue
            file, old = re.match(r"file: *(.*?)\nold: ?(.*?)\nnew:", text).groups()
            if read("crates", crate, file).count(old) != 1:
                yield "%s of %s changes a text that doesn't stand once in %s" % (name, crate, file)


def named():
    """Each bug is named in a section of its crate, or in another behind its crate's name."""
    tried, planted, said = bugs("must-fail"), bugs("planted"), set()
    for title, crates, section in sections("THEOREMS.md"):
        for cells in rows(section) if "Laws of" not in title else []:
            for part in cells[2].split(";") if len(cells) > 2 else []:
                here = re.findall(r"of `(dsec\w*)`", part) or crates
                for bold, name in re.findall(r"(?<!of )(\*\*)?`(\w+)`", part):
                    found = {(crate, name) for crate in here} & (tried if bold else planted)
                    said |= found
                    if not found:
                        yield "THEOREMS.md names %s in %s, where no folder of that kind has it" % (name, title)
    for crate, name in sorted((tried | planted) - said):
        yield "THEOREMS.md doesn't name %s of %s" % (name, crate)


def stated():
    """What a row of THEOREMS.md names stands in a crate of its section, or in one that the row names; a lemma in the file behind it."""
    known = {}
    for title, crates, section in sections("THEOREMS.md"):
        for cells in rows(section) if crates else []:
            here = crates + [crate for crate in quoted(cells[1]) if crate.startswith("dsec")]
            for crate in here:
                if crate not in known:
                    files = texts(crate, "src", "specs", "proofs")
                    known[crate] = {path: words(text) for path, text in files.items()}
            files = {(crate, path): found for crate in here for path, found in known[crate].items()}
            found = set().union(words(" ".join(path for _, path in files)), *files.values())
            for name in sorted(quoted(cells[1]) - found - set(here) - {"crates", "antt"}):
                yield "THEOREMS.md names %s in %s, whose crates don't have it" % (name, title)
            if "definition" in title:
                yield from placed(title, cells, files)


def placed(title, cells, files):
    """Each lemma of a row stands in the file that is named behind it."""
    cell, waiting = cells[1], []
    if title.startswith("Laws of"):
        cell = "%s (%s)" % (cells[1], cells[2])
    for behind, name in re.findall(r"\(([^)]*)\)|`([\w-]+)`", cell):
        if name:
            waiting += [] if name.startswith("dsec") else [name]
            continue
        own = [found for (_, path), found in files.items() if path.startswith("proofs") and os.path.basename(path)[:-5] in quoted(behind)]
        for lemma in waiting if own else []:
            if not any(lemma in found for found in own):
                yield "THEOREMS.md names %s in %s, which doesn't have it" % (lemma, behind)
        waiting = [] if own else waiting
    for lemma in waiting:
        yield "THEOREMS.md names no file for %s" % lemma


def calls(crate):
    """The calls with a clause that a library makes public: the name of each, its head, and the text of its file."""
    library = texts(crate, "src")
    shared = words(" ".join(re.findall(r"(?s)\bpub use ([^;]*);", library.get("src/lib.rt", ""))))
    for _, text in sorted(library.items()):
        owner = call = None
        for line in text.splitlines():
            owner = (re.match(r"impl(?:<[^>]*>)? (?:[\w<>:, ]* for )?(\w+)", line) or [None, owner])[1]
            begun = re.match(r"( *)pub fn (\w+)", line)
            if begun:
                call, head = (begun[2] if (owner if begun[1] else begun[2]) in shared else None), ""
            if call:
                head += line + "\n"
                if line.strip() == "{" or line.endswith((" {", ";")):
                    if "ensures" in head:
                        yield call, head, text
                    call = None


def called():
    """Each public call with a clause is named in a section of its crate or in its crate's row, what its clauses cite in DEFINITIONS.md."""
    said, defined = {}, quoted(read("docs", "DEFINITIONS.md"))
    for title, crates, section in sections("THEOREMS.md"):
        for cells in [] if crates else rows(section):
            said.setdefault(cells[0].strip("`"), set()).update(quoted(" ".join(cells[1:])))
        for crate in crates:
            said.setdefault(crate, set()).update(quoted(section))
    for crate in listed():
        for call, head, text in [] if crate.endswith("_tests") else calls(crate):
            if call not in said.get(crate, ()):
                yield "THEOREMS.md doesn't name %s of %s" % (call, crate)
            for name in sorted(cited(head, text) - defined):
                yield "DEFINITIONS.md doesn't name %s, which a clause of %s in %s cites" % (name, call, crate)


def cited(head, text):
    """The definitions of this repository that the head of a call cites, by the imports of its file."""
    found = set()
    for crate, module, names in re.findall(r"(?s)ghost use Rattle\.(dsec\w*)\.specs\.(\w+)\.\{([^}]*)\}", text):
        specs = texts(crate, "specs").get("specs/%s.antt" % module, "")
        for name, other in re.findall(r"([\w-]+)(?: as ([\w-]+))?", names):
            if (other or name) in words(head) and re.search(r"(?m)^(abbrev |unfoldable )?pub (record |data )?%s\b" % name, specs):
                found.add(name)
    return found


def defined():
    """What a row begins with is defined in the files, or in the folder, that it names last, below the folder or the file of its heading."""
    for title, _, section in sections("DEFINITIONS.md"):
        heading = re.findall(r"`([^`]+)`", title)
        folder = next((word for word in heading if word.endswith("/")), "dsec_spec/specs/")
        for cells in rows(section):
            last = cells[-1] if re.search(r"specs/`|\.antt`", cells[-1]) else " ".join(cells)
            text = ""
            for word in re.findall(r"`([\w/]+(?:\.antt|/specs/))`", last) or heading:
                folder = word.rpartition("/")[0] + "/" if "/" in word else folder
                crate, file = folder.partition("/")[0], "specs/" + word.rpartition("/")[2]
                found = [one for path, one in texts(crate, "specs").items() if path == file or word.endswith("/")]
                text += "\n".join(found)
                if not found:
                    yield "DEFINITIONS.md names %s, which isn't there" % word
            for word in re.findall(r"`([\w-]+)`", cells[0]):
                if not re.search(r"(?m)^((abbrev |unfoldable )?pub (record |data )?| +(pub )?)%s\b|pub use .*[{, ]%s[,}]" % (word, word), text):
                    yield "DEFINITIONS.md has %s in %s, where it isn't" % (word, last)


def believed():
    """Each definition of a crate that has no function is named in DEFINITIONS.md."""
    said = quoted(read("docs", "DEFINITIONS.md"))
    for crate in listed():
        if not any(re.search(r"(?m)^ *(pub )?fn ", text) for text in texts(crate, "src").values()):
            for file, text in sorted(texts(crate, "specs").items()):
                for name in re.findall(r"(?m)^(?:abbrev |unfoldable )?pub (?:record |data )?(?!mod |use )([\w-]+)", text):
                    if name not in said:
                        yield "DEFINITIONS.md doesn't name %s of %s/%s" % (name, crate, file)


def explained():
    using, shown = read("docs", "USING.md"), read("examples", "README.md")
    texts = re.findall(r'=>\s*"([^"]+)"', read("crates", "dsec_cause", "src", "cause.rt"))
    for text in texts:
        if "`%s`" % text not in using:
            yield "USING.md doesn't say what the cause %r means" % text
    for file in sorted(os.listdir(os.path.join(TOP, "examples"))):
        name, _, kind = file.rpartition(".")
        if kind in ("script", "words", "zone") and "`%s" % name not in shown:
            yield "examples/README.md doesn't name %s" % file


def linked():
    """Each link of a document or a crate's README leads to a file."""
    for folder in ["docs"] + [os.path.join("crates", crate) for crate in sorted(os.listdir(os.path.join(TOP, "crates")))]:
        for file in sorted(os.listdir(os.path.join(TOP, folder))):
            for link in re.findall(r"\]\(([^)#]+)", read(folder, file)) if file.endswith(".md") else []:
                if "://" not in link and not os.path.exists(os.path.join(TOP, folder, link)):
                    yield "%s/%s leads to %s, which isn't there" % (folder, file, link)


faults = [fault for check in (drawn, fitting, named, stated, called, defined, believed, explained, linked) for fault in check()]
for fault in faults:
    print(fault)
print("docs: %d faults" % len(faults))
sys.exit(1 if faults else 0)
