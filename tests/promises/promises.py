"""The pages against the tree: each must-fail edit that PROMISES names is there, and each edit there is named, two of them under each sentence;
so is each definition, theorem and function that a page names, in the file it names; READING counts every file of definitions; each public
function says its result and asks for nothing; and no line of a proof is wider than a page."""
import pathlib
import re
import sys

crates = {p.name for p in pathlib.Path("crates").iterdir()}
promises, reading = (pathlib.Path(f"docs/{name}.md").read_text(encoding="utf-8") for name in ("PROMISES", "READING"))
other_words = {"crate", "name", "requires", "stdin", "read", "memcpy", "memset"}  # in backquotes, and of no definition here


def text(file):
    return file.read_text(encoding="utf-8")


def found(pattern, files):
    return {name for file in files for name in re.findall(pattern, text(file), re.M)}


def defined(files):
    return found(r"(?:^|\s)([\w\-]+) :", files) | found(r"(?:record|data) (\w+)", files)


def folders(crate, stem="*"):
    return [p for folder in ("specs", "proofs") for p in pathlib.Path("crates").glob(f"{crate}/{folder}/{stem}.antt")]


def edits_named():
    edits = {f"{p.parts[1]}/{p.stem}" for p in pathlib.Path("crates").glob("*/must-fail/*.edit")}
    named = {n for n in re.findall(r"\b([a-z_]+/[a-z0-9_]+)\b", promises) if n.split("/")[0] in crates}
    yield from ((f"{n}: no such edit", n in edits) for n in named)
    yield from ((f"{n}: an edit that no promise names", False) for n in edits - named)


def sentences_have_two():
    """Two wrong programs under each sentence, but where what holds it is a test or other promises."""
    without = ('"the rest are run"', '"our engine gives the state that a board must show after it"', "a returned state that can't be handed in again")
    for sentence, below in re.findall(r"^### (.*)\n((?:(?!^#).*\n?)*)", promises, re.M):
        edits = re.findall(r"\b[a-z_]+/[a-z0-9_]+\b", below.partition("- wrong programs:")[2])
        yield f"{sentence}: {len(edits)} wrong programs", len(set(edits)) >= 2 or sentence in without


def files_counted():
    """READING's tables have each file of definitions once, with its lines, and say their sums."""
    files = {str(p)[len("crates/"):]: len(text(p).splitlines()) for p in pathlib.Path("crates").glob("*/specs/*.antt") if p.stem != "Lib"}
    counted = [(name, int(lines)) for name, lines in re.findall(r"^\| `([\w/]+\.antt)` \| (\d+) \|", reading, re.M)]
    yield from ((f"READING: {name} has {files.get(name)} lines and not {lines}", files.get(name) == lines) for name, lines in counted)
    yield from ((f"READING: {name} is in {n} tables", n == 1) for name in files for n in [sum(name == c for c, _ in counted)])
    for part in re.split(r"^## ", reading, flags=re.M):
        table = re.findall(r"^\| `([\w/]+\.antt)` \| (\d+) \|", part, re.M)
        said = re.search(r"(\d+) files, ([\d,]+) lines", part)
        if table:
            sums = said and (int(said[1]), int(said[2].replace(",", "")))
            yield f"READING: {len(table)} files and not {sums}", sums == (len(table), sum(int(lines) for _, lines in table))


def lines_fit():
    for file in [*folders("*"), *pathlib.Path("crates").glob("*/proofs/*/*.antt")]:
        widest = max(map(len, text(file).splitlines()))
        yield f"{file}: a line of {widest} characters", widest <= 160


def names_known(page):
    known = defined(folders("*")) | found(r"fn (\w+)", pathlib.Path("crates").glob("*/src/*.rt")) | crates
    names = {n.split("::")[-1] for n in re.findall(r"`([\w\-]+(?:::\w+)?)`", page)} - other_words
    yield from ((f"{n}: no such name", n in known) for n in names)


def in_their_files(page):
    """`crate` File: `name`, `name`."""
    for crate, stem, names in re.findall(r"`([a-z_]+)` (?:specs |proofs )?([A-Z]\w+): (`[\w\-]+`(?:, `[\w\-]+`)*)", page):
        known = defined(folders(crate, stem)) | other_words
        yield from ((f"{crate} {stem}: no {n}", n in known) for n in re.findall(r"`([\w\-]+)`", names))


def functions_say():
    for file in pathlib.Path("crates").glob("*/src/*.rt"):
        for name, clauses in re.findall(r'^ *pub (?:extern "C" )?fn (\w+)(.*?)^ *\{', text(file), re.M | re.S):
            yield f"{file}: {name} has no ensures", "ensures" in clauses
            yield f"{file}: {name} has a requires", "requires" not in clauses


checks = [*edits_named(), *sentences_have_two(), *files_counted(), *lines_fit(), *functions_say()]
for page in (promises, reading):
    checks += [*names_known(page), *in_their_files(page)]
wrong = [what for what, holds in checks if not holds]
print("\n".join(wrong))
print(f"{len(checks) - len(wrong)} passed, {len(wrong)} failed")
sys.exit(bool(wrong))
