"""usage: readable.py DIRECTORY

Puts the readable part of every vector through examples/make and compares the deck with the vector's bytes.
"""
import importlib.machinery
import importlib.util
import pathlib
import sys

sys.dont_write_bytecode = True  # the tree stays as it is
TOLD = 25  # failures that are told; the rest are counted


def loaded(path):
    """The program at a path as a module."""
    loader = importlib.machinery.SourceFileLoader("make", str(path))
    module = importlib.util.module_from_spec(importlib.util.spec_from_loader("make", loader))
    loader.exec_module(module)
    return module


def vectors(text):
    """Name, readable part and lines of bytes of each vector."""
    for part in ("\n" + text).split("\nvector ")[1:]:
        name, _, rest = part.partition("\n")
        readable, _, rest = rest.partition("\nexpected\n")
        yield name.strip(), readable, rest.partition("\nbytes\n")[2].split("\n")


def deck(lines):
    """The bytes of the deck lines: a label, hexadecimal digits, and how often where not once."""
    made = b""
    for line in lines:
        label, *digits = line.split() or [""]
        if label == "deck":
            times = 1
            if "x" in digits:
                times = int(digits[digits.index("x") + 1])
                digits = digits[:digits.index("x")]
            made += bytes.fromhex("".join(digits)) * times
    return made


def wrong(make, readable, lines):
    """What is wrong with a vector, or nothing."""
    try:
        same = make.made_from(readable) == (deck(lines), None)
    except (make.Refused, ValueError, IndexError) as error:
        return str(error)
    return None if same else "the readable part makes another deck than the bytes"


def main(words):
    if len(words) != 1:
        sys.exit(__doc__.strip())
    make = loaded(pathlib.Path(__file__).parents[2] / "examples" / "make")
    passed = failed = 0
    for path in sorted(pathlib.Path(words[0]).glob("*.txt")):
        for name, readable, lines in vectors(path.read_text(encoding="utf-8")):
            problem = wrong(make, readable, lines)
            passed, failed = passed + (problem is None), failed + (problem is not None)
            if problem and failed <= TOLD:
                print(f"{path.stem} {name}: {problem}")
    print(f"{passed} passed, {failed} failed")
    sys.exit(1 if failed else 0)


if __name__ == "__main__":
    main(sys.argv[1:])
