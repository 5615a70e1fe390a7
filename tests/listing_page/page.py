"""usage: page.py write TABLE PAGE
       page.py check PAGE CALL...

Writes docs/LISTING.md from page.md, the table that the program listing_page wrote to the file TABLE, and what the two
commands make of example.txt. Or runs every example of a refusal on a page and compares what is said; CALL... is the command
of call.c.
"""
import pathlib
import re
import subprocess
import sys

HERE = pathlib.Path(__file__).resolve().parent
HOST = HERE.parents[1] / "host"
LONG = {"over 1,048,576 bytes": 1048577, "8,193 bytes": 8193, "3 bytes": 3}


def run(command, given):
    ran = subprocess.run(command, input=given, capture_output=True)
    return ran.returncode, ran.stdout, ran.stderr.decode().strip()


def block(lines):
    return "\n".join(("    " + line).rstrip() for line in lines)


def words_of(example):
    """Each word of a listing in hexadecimal, with its line from the lister."""
    _, words, _ = run([HOST / "assemble"], example)
    _, listing, _ = run([HOST / "list"], words)
    numbers = [int.from_bytes(words[at:at + 4], "little") for at in range(0, len(words), 4)]
    return [f"{number:08X}  {line}" for number, line in zip(numbers, listing.decode().splitlines(), strict=True)]


def write(table, page):
    example = (HERE / "example.txt").read_bytes()
    made = {"TABLE": pathlib.Path(table).read_text().rstrip(), "EXAMPLE": block(example.decode().splitlines()),
            "WORDS": block(words_of(example))}
    template = (HERE / "page.md").read_text()
    pathlib.Path(page).write_text(re.sub("^(TABLE|EXAMPLE|WORDS)$", lambda name: made[name[1]], template, flags=re.M))


def words(quoted):
    return b"".join(int(word, 16).to_bytes(4, "little") for word in quoted)


def command(name, given, said):
    """What is wrong with a refusal by one of the two commands, or nothing."""
    got = run([HOST / name], given)
    return None if got == (1, b"", said) else f"{name}: {got}"


def call(name, given, answer, program):
    """The same of a call of the function, with its answer in words."""
    room, needed = re.search(r"into (\d+) bytes", name)[1], re.fullmatch(r"27, (\d+) bytes are needed", answer)[1]
    function = "assemble" if "`assemble`" in name else "list_words"
    got = run([*program, function, room], given)
    return None if got == (0, f"27 0 {needed}\n".encode(), "") else f"{function}: {got}"


def wrong(table, row, program):
    """What is wrong with a row of a table of refusals, or nothing."""
    given, answer = row
    quoted = re.findall("`([^`]*)`", given)
    said = answer.strip("`")
    if table == "Listing":
        text = "".join(line + "\n" for line in quoted).encode() if quoted else bytes(LONG[given])
        return command("assemble", text, said)
    if table == "Words":
        return command("list", words(quoted) if quoted else bytes(LONG[given]), said)
    of = quoted[-1]
    return call(given, words([of]) if "`list_words`" in given else of.encode() + b"\n", answer, program)


def rows(page):
    """The rows of the tables of refusals, each with its table's first heading."""
    table = None
    for line in pathlib.Path(page).read_text().partition("\n## Refusals\n")[2].splitlines():
        cells = [cell.strip() for cell in line.strip("|").split("|")]
        if not line.startswith("|"):
            table = None
        elif table is None:
            table = cells[0]
        elif cells[0] != "---":
            yield table, cells


def check(page, program):
    passed = failed = 0
    for table, row in rows(page):
        problem = wrong(table, row, program)
        passed, failed = passed + (problem is None), failed + (problem is not None)
        if problem:
            print(f"{' | '.join(row)}: {problem}")
    print(f"{passed} passed, {failed} failed")
    return failed == 0 and passed > 0


def main(given):
    if len(given) == 3 and given[0] == "write":
        write(*given[1:])
    elif len(given) > 2 and given[0] == "check":
        sys.exit(not check(given[1], given[2:]))
    else:
        sys.exit(__doc__.strip())


main(sys.argv[1:])
