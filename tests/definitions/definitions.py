"""Which law holds each definition. A change of changes/*.txt makes code and definition alike say something wrong: the crates that it changes are
still proved, and the law that it names, whose statement it contradicts, is refused.

    definitions.py write PAGE [WORD..]   tries every change, or those that a WORD is in, and writes the page with their rows
    definitions.py check PAGE WORD..     the changes fit the tree and the page has a row for each; those that a WORD is in give their row again
    definitions.py look WORD..           names every lemma that breaks: to find the law that a change contradicts
"""
import collections
import concurrent.futures
import os
import pathlib
import re
import shutil
import subprocess
import sys
import tempfile

Change = collections.namedtuple("Change", "crate definition words law edits")
Edit = collections.namedtuple("Edit", "file old new")
Error = collections.namedtuple("Error", "crate file lemma text")

here = pathlib.Path(__file__).parent
a_function = re.compile(r'^(#\[[^\n]*\]\n)*(pub )?(extern "C" )?fn .*?^\}\n', re.M | re.S)
an_import = re.compile(r"^(pub )?use ([\w:]+)::(?:\{([^}]*)\}|(\w+));\n", re.M)
an_error = re.compile(r"^\S*proofs/(\S+)\.antt:\d+:\d+: error: (?:\d+ declarations? that .*|`([^`]+)`: )(.*)$", re.M)
unproved = re.compile(r"^fn \w+::([\w:]+): (no proof|not proved)(.*)$", re.M)
follows = "not admitted"  # what the checker says of a lemma that breaks because another one did


def text(file):
    return file.read_text(encoding="utf-8")


crates = {name: set(uses.split()) for name, uses in re.findall(r"^(\w+):(.*)$", text(pathlib.Path("crates.txt")), re.M)}


# ---- the changes

def changes():
    """Each is a paragraph: 'DEFINITION: what becomes of it', 'law: CRATE FILE NAME' where one objects, then '@ FILE', lines out and lines in."""
    for file in sorted(here.glob("changes/*.txt")):
        for paragraph in re.split(r"\n{2,}", text(file).strip()):
            head, *lines = [line for line in paragraph.split("\n") if not line.startswith("#")]
            definition, words = head.split(": ", 1)
            law = lines.pop(0).split()[1:] if lines[0].startswith("law: ") else []
            yield Change(file.stem, definition, words, law, list(edits(lines)))


def edits(lines):
    file, old, new = None, [], []
    for line in [*lines, "@"]:
        if line[0] in "@-" and (new or line[0] == "@") and old:
            yield Edit(file, "\n".join(["", *old, ""]), "\n".join(["", *new, ""]))
            old, new = [], []
        if line[0] == "@":
            file = line[2:]
        else:
            (old if line[0] == "-" else new).append(line[1:])


def changed_by(change):
    """The crates whose code or definitions it changes; it may also mend a proof that goes along them."""
    return {edit.file.split("/")[0] for edit in change.edits if "/proofs/" not in edit.file}


def applied(change):
    """The files as it leaves them. The lines that it takes out have to stand once where they are taken out."""
    files = {}
    for edit in change.edits:
        before = files.get(edit.file) or f"\n{text(pathlib.Path('crates', edit.file))}"
        if before.count(edit.old) != 1:
            raise ValueError(f"{edit.file} does not have once:{edit.old}")
        files[edit.file] = before.replace(edit.old, edit.new)
    return {file: after[1:] for file, after in files.items()}


def fits(change):
    """It can be applied, and its law stands in its file."""
    try:
        return bool(applied(change)) and (not change.law or stands(*change.law))
    except ValueError as why:
        print(why)
        return False


def stands(crate, file, law):
    proofs = pathlib.Path("crates", crate, "proofs", f"{file}.antt")
    return proofs.exists() and bool(re.search(rf"^ *pub {re.escape(law)} :", text(proofs), re.M))


def named(change):
    return f"{change.definition}: {change.words}"


def chosen(words):
    return [c for c in changes() if not words or any(word in f"{c.crate} {named(c)}" for word in words)]


# ---- trying one

def room_with(change, folder):
    """A copy of the tree, with what is proved already, and with the change."""
    room = pathlib.Path(folder)
    shutil.copy("crates.txt", room)
    shutil.copytree("crates", room / "crates", ignore=shutil.ignore_patterns("out"))
    for file, after in applied(change).items():
        (room / "crates" / file).write_text(after, encoding="utf-8")
    return room


def dependents(names):
    found = set(names)
    while more := {crate for crate, uses in crates.items() if uses & found} - found:
        found |= more
    return found - set(names)


def used_by(names):
    found = set()
    while more := set().union(*(crates.get(crate, set()) for crate in found | names)) - found:
        found |= more
    return found


def types_alone(found):
    """Of an import the types: the functions are left out where they stand."""
    names = [n for n in re.split(r",\s*", (found[3] or found[4]).strip(" ,")) if n[:1].isupper() and not n.isupper()]
    return f"{found[1] or ''}use {found[2]}::{{{', '.join(names)}}};\n" if names else ""


def leave_definitions(crate):
    """Of a crate that uses a changed one the definitions and laws stay, and its functions, which say the same as before, are left out."""
    for file in crate.glob("src/*.rt"):
        file.write_text(an_import.sub(types_alone, a_function.sub("", text(file))), encoding="utf-8")
    for proof in [p for p in crate.glob("proofs/*") if p.is_dir()]:
        shutil.rmtree(proof)


def prove(room, names):
    """Checks the crates, lowest first, up to the first that is not proved."""
    for name in [c for c in crates if c in names]:
        said = subprocess.run(["rt", "check"], cwd=room / "crates" / name, stdout=subprocess.PIPE, stderr=subprocess.STDOUT, text=True)
        if said.returncode:
            return False, [Error(name, *e) for e in an_error.findall(said.stdout)], said.stdout
    return True, [], ""


def goes_along(errors, said):
    """Only laws break, and functions whose proof cites one."""
    own = {e.file.split("/")[0] for e in errors if "/" in e.file and follows not in e.text}
    alone = [f for f, _, why in unproved.findall(said) if "did not prove" in why]
    return bool([e for e in errors if "/" not in e.file]) and not own and not alone


def broken(change, laws):
    """Whether the changed crates are proved but for laws of their own, and each lemma that breaks there, or in these crates of laws."""
    with tempfile.TemporaryDirectory() as folder:
        room, changed = room_with(change, folder), changed_by(change)
        proved, errors, said = prove(room, changed)
        if not proved:
            return goes_along(errors, said), errors, said
        later = dependents(changed)
        for crate in later - used_by(changed):  # what a changed crate calls stays
            leave_definitions(room / "crates" / crate)
        return (True, *prove(room, laws & later)[1:]) if laws & later else (True, [], said)


def refused(law, errors, said):
    """The law itself, or what it rests on: then it is named among what depends on a lemma that was not admitted, or as such a lemma."""
    crate, file, name = law
    rests = re.search(rf"^\S*proofs/{file}\.antt:\S+ error: \d+ declarations? .*[,:] {re.escape(name)}(?:,| |$)", said, re.M)
    return (crate, file, name) in {e[:3] for e in errors} or bool(rests) or f"on `{name}`, which was " in said


def tried(change):
    """Its row of the page, where the trial ends as the change says."""
    alike, errors, said = broken(change, set(change.law[:1]))
    if not alike:
        raise ValueError(f"code and definition differ\n{said}")
    if change.law and not refused(change.law, errors, said):
        raise ValueError(f"{' '.join(change.law)} is not refused\n{said}")
    return row(change)


# ---- the page

def row(change):
    crate, file, law = change.law or [None] * 3
    holds = f"`{crate}` {file}: `{law}`" if law else "none: only reading holds it"
    return f"| `{change.definition}` | {change.words} | {', '.join(sorted(changed_by(change)))} | {holds} |"


def rows_of(page):
    return {tuple(line.split(" | ")[:2]): line for line in text(page).splitlines() if line.startswith("| `")} if page.exists() else {}


def key(change):
    return f"| `{change.definition}`", change.words


def write(page, words):
    rows, wrong = rows_of(page), 0
    with concurrent.futures.ThreadPoolExecutor(os.cpu_count()) as pool:
        trials = [(change, pool.submit(tried, change)) for change in chosen(words)]
        for change, trial in trials:
            try:
                rows[key(change)] = trial.result()
                print(rows[key(change)], flush=True)
            except ValueError as why:
                wrong += 1
                print(f"{named(change)}: {why}", flush=True)
    listed = [rows[key(change)] for change in changes() if key(change) in rows]
    page.write_text(text(here / "page.md") + "\n".join(listed) + "\n", encoding="utf-8")
    return wrong > 0


def check(page, words):
    rows, listed = rows_of(page), list(changes())
    checks = [(f"{named(c)}: doesn't fit the tree, or its law isn't there", fits(c)) for c in listed]
    checks += [(f"{page}: no row of {named(c)}, or another", rows.get(key(c)) == row(c)) for c in listed]
    checks += [(f"{page}: a row of no change: {k}", k in map(key, listed)) for k in rows]
    checks += [(f"{named(c)}: gives another row", tried(c) == rows.get(key(c))) for c in chosen(words)]
    wrong = [what for what, holds in checks if not holds]
    print("\n".join(wrong))
    print(f"{len(checks) - len(wrong)} passed, {len(wrong)} failed")
    return bool(wrong)


def look(words):
    laws = {c for c in crates if not any("fn " in text(f) for f in pathlib.Path("crates", c, "src").glob("*.rt"))}
    for change in chosen(words):
        alike, errors, said = broken(change, laws)
        print(named(change), "" if alike else f"code and definition differ\n{said}")
        for e in errors:
            print(f"    {'(' if follows in e.text else ''}{e.crate} {e.file}: {e.lemma}")


if __name__ == "__main__":
    command, *words = sys.argv[1:]
    if command == "look":
        look(words)
    else:
        sys.exit({"write": write, "check": check}[command](pathlib.Path(words[0]), words[1:]))
