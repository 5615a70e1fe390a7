"""The designer's page against the tree: page.py PAGE PICTURE ROWS...

The worked rows are ten and what the command ROWS... prints of their operands; the code and each statement that the page quotes
stand in `alu`, and each law that it names; what goes in is what `plan` says; the picture is the one that picture.py draws.
"""
import pathlib
import re
import subprocess
import sys

import picture

OPERANDS = {"A": "Ra", "B": "Rb"}
CARRIES = {"false": "0", "true": "1", "f.c": "the C flag", "!f.c": "1 less the C flag"}


def text(*names):
    return "\n".join(pathlib.Path(name).read_text(encoding="utf-8") for name in names)


def cells(line):
    return [cell.strip() for cell in line.strip().strip("|").split("|")]


def table(page, head):
    """The rows below a table's head."""
    return [cells(line) for line in page.partition(f"\n| {head} |")[2].partition("\n\n")[0].splitlines()[2:]]


def planned(page):
    """The page has each instruction of 80-DF whose plan goes by the adder, but CAD, which is refused, and no other of them."""
    names = {int(code, 16): name for name, code in re.findall(r"^\| (\w+) \| ([0-9A-F]{2}) \|", text("docs/LISTING.md"), re.M)}
    rows = {name: row[1:] for row in table(page, "instruction") for name in row[0].split(", ")}
    plans = {}
    an_operand = r"Operand::(A|B|Number\(\d+\))"
    a_plan = rf"([\w| ]+) => plan_with\(Kind::(\w+), {an_operand}, {an_operand}, ([\w.!]+),"
    for lines, kind, p, x, carry in re.findall(a_plan, text("crates/plan/src/lib.rt")):
        p, x = (OPERANDS.get(operand, operand[len("Number("):-1]) for operand in (p, x))
        goes = {"Add": ["add", p, x, CARRIES[carry]], "Subtract": ["subtract", p, x, CARRIES[carry]], "Ones": ["subtract", "0", x, "0"]}
        for line in re.findall(r"0x(\w\w)", lines):
            plans |= {names[4 * int(line, 16) + word]: goes[kind] for word in (0, 2) if kind in goes}
    del plans["CAD"]
    yield from ((f"{name}: {rows.get(name)} and not {plan}", rows.get(name) == plan) for name, plan in plans.items())
    yield from ((f"{name}: not by the adder", name in plans) for code, name in names.items() if 0x80 <= code < 0xE0 and name in rows)


def worked(page, program):
    """Each worked row, and whether the compiled adder gives it."""
    rows = [line for line in page.splitlines() if re.match(r"\| (add|subtract) \| [0-9A-F]{2} \|", line)]
    given = "".join(" ".join(cells(row)[:4]) + "\n" for row in rows)
    printed = subprocess.run(program, input=given, capture_output=True, text=True, check=True).stdout.splitlines()
    yield f"{len(rows)} worked rows", len(rows) == len(printed) == 10
    yield from ((f"{row}\n{got}", cells(row)[:12] == cells(got)) for row, got in zip(rows, printed))


def quoted(page):
    """The indented blocks: the adder as a whole, and lines of statements."""
    code, statements = text("crates/alu/src/lib.rt"), text("crates/alu/proofs/Nets.antt", "crates/alu/specs/Nets.antt").splitlines()
    blocks = [re.sub("^ {4}", "", block, flags=re.M).strip("\n") for block in re.findall(r"(?:^ {4}.*\n)+", page, re.M)]
    yield f"{len(blocks)} blocks", len(blocks) > 1
    adder = re.search(r"^pub fn add\(.*?^\}", code, re.M | re.S)[0]
    yield f"the adder is another:\n{blocks[0]}", blocks[0] == adder
    for line in (line for block in blocks[1:] for line in block.splitlines()):
        yield f"no such statement: {line}", line in statements


def equations(page):
    """The rows of the table of equations: code in the second column, laws in the third."""
    code = [line.strip() for line in text("crates/alu/src/lib.rt").splitlines()]
    laws = re.findall(r"^pub (\S+) :", text("crates/alu/proofs/Nets.antt"), re.M)
    rows = table(page, "net or flag")
    yield f"{len(rows)} equations", len(rows) > 0
    for _, equation, law in rows:
        yield f"no such line: {equation}", equation.strip("`") in code
        yield f"no such law: {law}", re.match("`([^`]*)`", law)[1] in laws


def main(page, drawn, program):
    page, drawn = (pathlib.Path(name).read_text(encoding="utf-8") for name in (page, drawn))
    checks = [*planned(page), *worked(page, program), *quoted(page), *equations(page), ("the picture is another", drawn == picture.picture() + "\n")]
    wrong = [what for what, holds in checks if not holds]
    print("\n".join(wrong))
    print(f"{len(checks) - len(wrong)} passed, {len(wrong)} failed")
    return len(wrong) > 0


if __name__ == "__main__":
    sys.exit(main(*sys.argv[1:3], sys.argv[3:]))
