"""The picture of the adder's nets, docs/adder.svg: picture.py writes it to standard output.

Position 8 is on the left, 0 on the right. In each column p and q go through the adder down to the gate of their net, where the
sum's bit joins them.
"""
STEP, RIGHT, P, Q, S = 112, 1040, -30, 0, 30  # columns, and the three wires of one
WIDTH, HEIGHT = 1240, 740
TOP, INVERT, ADD, ADDED, RESULT, GATE, NET, USED = 92, 136, 190, 262, 312, 350, 418, 520  # heights
COLOURS = {"p": "#1f5fa8", "q": "#1d7a3e", "s": "#222", "k": "#b3261e", "c": "#6b4fa0"}


def column(i):
    return RIGHT - STEP * i


def wire(colour, *points, dashed=False):
    path = "M" + " L".join(f"{x} {y}" for x, y in points)
    dashes = ' stroke-dasharray="4 4"' if dashed else ""
    return f'<path d="{path}" stroke="{COLOURS[colour]}"{dashes}/>'


def dot(colour, x, y, r=3.5):
    return f'<circle cx="{x}" cy="{y}" r="{r}" fill="{COLOURS[colour]}"/>'


def label(words, x, y, colour="s", anchor="middle", size=15, below=None):
    lowered = f'<tspan dy="4" font-size="{size - 4}">{below}</tspan>' if below is not None else ""
    return f'<text x="{x}" y="{y}" fill="{COLOURS[colour]}" text-anchor="{anchor}" font-size="{size}">{words}{lowered}</text>'


def gate(x, y, width=84, words="xor"):
    return (f'<rect x="{x - width / 2:g}" y="{y}" width="{width}" height="30" rx="4" fill="#fff" stroke="#222"/>'
            f'<text x="{x}" y="{y + 20}" text-anchor="middle" font-size="15" fill="#222">{words}</text>')


def position(i):
    """The wires of one position, from the operands to its net."""
    x = column(i)
    yield label("p", x + P, TOP - 10, "p", below=i)
    yield label("x", x + Q, TOP - 10, "q", below=i)
    yield wire("p", (x + P, TOP), (x + P, ADD))
    yield wire("q", (x + Q, TOP), (x + Q, ADD))
    yield gate(x + Q, INVERT - 15, 36)
    for name, offset in (("p", P), ("q", Q)):
        yield dot(name, x + offset, ADD)
        yield wire(name, (x + offset, ADD), (x + offset, ADDED), dashed=True)
        yield wire(name, (x + offset, ADDED), (x + offset, GATE))
    yield label("q", x + Q + 6, ADD - 8, "q", "start", below=i)
    yield wire("s", (x + S, ADDED), (x + S, GATE))
    yield dot("s", x + S, RESULT, 6)
    yield label("s", x + S + 5, ADDED + 22, "s", "start", below=i)
    yield gate(x, GATE)
    yield wire("k", (x, GATE + 30), (x, NET))


def top_position():
    """Position 8 has no operands: its net is the sum's ninth bit."""
    x = column(8)
    middle = (ADD + ADDED) // 2
    yield wire("s", (column(7) - 56, middle), (x, middle), (x, GATE + 15))
    yield label("s", x + 5, ADDED + 22, "s", "start", below=8)
    yield wire("k", (x, GATE + 15), (x, NET))


def nets():
    yield from (label("k", column(i) + 6, NET - 14, "k", "start", 17, below=i) for i in range(9))
    yield label("carry in", column(0), NET + 18, "k", size=13)


def adder():
    left, right = column(7) - 56, column(0) + 56
    yield f'<rect x="{left}" y="{ADD}" width="{right - left}" height="{ADDED - ADD}" fill="#f1efe8" stroke="#222"/>'
    yield wire("c", (WIDTH - 30, (ADD + ADDED) // 2), (right, (ADD + ADDED) // 2))
    yield label("carry in", WIDTH - 30, (ADD + ADDED) // 2 - 8, "c", "end")


def name_of_adder():
    x, y = column(4) + 56, (ADD + ADDED) // 2
    yield f'<rect x="{x - 140}" y="{y - 16}" width="280" height="32" fill="#f1efe8"/>'
    yield label("sum s = p + q + carry in, nine bits", x, y + 5)


def subtracting():
    """The line that inverts x, and at the end the carry."""
    yield wire("c", (20, INVERT), (column(0) - 15, INVERT))
    yield dot("c", 40, INVERT)
    yield label("subtract", 20, INVERT - 10, "c", "start")


def result():
    yield f'<rect x="{column(7) + S}" y="{RESULT - 3}" width="{WIDTH - 30 - column(7) - S}" height="6" fill="{COLOURS["s"]}"/>'
    yield label("result", WIDTH - 30, RESULT - 12, anchor="end")
    yield label("s7 to s0", WIDTH - 30, RESULT + 20, anchor="end", size=13)


def flags():
    seven, eight, four = column(7), column(8), column(4)
    out, v = eight - 56, (seven + eight) // 2
    yield wire("k", (eight, NET), (eight, NET + 30), (v - 14, NET + 30), (v - 14, NET + 50))
    yield wire("k", (seven, NET), (seven, NET + 30), (v + 14, NET + 30), (v + 14, NET + 50))
    yield dot("k", eight, NET + 30)
    yield gate(v, NET + 50, 50)
    yield wire("k", (v, NET + 80), (v, USED + 20))
    yield wire("k", (eight, NET + 30), (eight, USED + 20))
    yield wire("k", (four, NET), (four, USED + 20))
    yield dot("k", eight, NET + 60)
    yield wire("k", (eight, NET + 60), (out, NET + 60), (out, NET + 75))
    yield wire("c", (40, INVERT), (40, NET + 90), (out - 15, NET + 90))
    yield gate(out, NET + 75, 36)
    yield wire("k", (out, NET + 105), (out, USED + 20))
    for words, x in (("C", out), ("C8", eight), ("V", v), ("C4", four)):
        yield label(words, x, USED + 40, "k", size=18)


def legend():
    lines = ("A box marked xor is an exclusive or of its inputs: high when an odd number of them is. Wires join at a dot; dashed, p and q go on to their gate.",
             "Net k(i) = p(i) xor q(i) xor s(i) is the carry into position i: what the low i bits of p, q and the carry in sum to is 2^i or more.",
             "C4 is net 4; C8, the carry out, is net 8, which is the sum's ninth bit; V is net 7 xor net 8. The other nets go to no flag.",
             "In a subtract each bit of x is inverted, so that q = 255 - x, and C is the borrow, the carry out inverted. Else q = x and C is C8.")
    for row, words in enumerate(lines):
        yield label(words, 40, USED + 100 + 28 * row, anchor="start")


def picture():
    parts = [*subtracting(), *adder(), *result(), *top_position(), *(part for i in range(8) for part in position(i)),
             *name_of_adder(), *nets(), *flags(), *legend()]
    title = "The byte adder and its carry nets"
    return "\n".join([
        f'<svg xmlns="http://www.w3.org/2000/svg" viewBox="0 0 {WIDTH} {HEIGHT}" font-family="sans-serif" fill="none" stroke-width="1.6" role="img">',
        f"<title>{title}</title>",
        f'<rect width="{WIDTH}" height="{HEIGHT}" fill="#fff"/>',
        label(title, 40, 40, anchor="start", size=20), *parts, "</svg>"])


if __name__ == "__main__":
    print(picture())
