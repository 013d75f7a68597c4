"""Typing mistakes in a sheet, those that `tools/mend-sheet --fix` mends and others; drawn as in sheets.py."""

import sheets

MARK = b"\xef\xbb\xbf"  # a byte order mark
NO_LAST_FEED = "mended: the last line feed was missing"


def blanks(rng, least=1):
    return bytes(rng.choices(b"  \t", k=rng.randint(least, 4)))


def commented(rng, line):
    """A comment behind a line, or in a line of its own before it: any bytes but line ends."""
    comment = b"#" + bytes(rng.choices(b"## 0123456789\t,VWROS\x00\xc3\xa4", k=rng.randint(0, 12)))
    return rng.choice((line + comment, line + b" " + comment, comment + b"\n" + line))


def more_blanks(rng, line):
    """Further blanks behind one of the blanks of a line."""
    at = rng.choice(sheets.places(line, b" \t")) + 1
    return line[:at] + blanks(rng) + line[at:]


def tabs(rng, line):
    return line.replace(b" ", b"\t", rng.choice((1, -1)))


# Each mistake that --fix mends within a line, by the tool's word for it.
MENDABLE = {
    "Windows line ends": lambda rng, line: line + b"\r",
    "tabs": tabs,
    "several blanks in a row": more_blanks,
    "blanks at the end": lambda rng, line: line + blanks(rng),
    "blanks at the beginning": lambda rng, line: blanks(rng) + line,
    "a comment": commented,
    "no text": lambda rng, line: rng.choice((line + b"\n" + blanks(rng, 0), blanks(rng, 0) + b"\n" + line)),
}


def mistype(rng, kind, lines):
    """One kind of mistake in some of the lines: how many."""
    some = rng.sample(range(len(lines)), rng.choice((1, len(lines), rng.randint(1, len(lines)))))
    for at in some:
        lines[at] = MENDABLE[kind](rng, lines[at])
    return len(some)


def one_mistake(rng, sheet):
    """The sheet with one kind of mistake, and what the tool has to say of it."""
    kind = rng.choice((*MENDABLE, MARK, None))
    if kind is None:
        return sheet[:-1], NO_LAST_FEED
    if kind == MARK:
        return MARK + sheet, "mended: 1 line with a byte order mark"
    lines = sheet.split(b"\n")[:-1]
    number = mistype(rng, kind, lines)
    return b"\n".join(lines + [b""]), f"mended: {number} line{'s' * (number > 1)} with {kind}"


def mistakes(rng, sheet):
    """Several kinds of mistakes that --fix mends."""
    lines = sheet.split(b"\n")[:-1]
    for kind in rng.choices(list(MENDABLE), k=rng.randint(1, 8)):
        mistype(rng, kind, lines)
    sheet = b"\n".join(lines) + rng.choice((b"\n", b"\n", b""))
    return rng.choice((b"", b"", MARK, b"\n" + MARK, b"# 1\r\n " + MARK + b" ")) + sheet


def other_damage(rng, sheet):
    """Something that --fix does not mend, somewhere: mostly one byte changed, added, left out or exchanged."""
    at = rng.randrange(len(sheet) + 1)
    byte, after = sheet[at : at + 1], sheet[at + 1 :]
    new = rng.choice((byte.swapcase(), b",", b"\r", b"\n", b"#", b"0", b"7", MARK, rng.randbytes(1)))
    exchanged = after[:1] + byte + after[1:]
    return sheet[:at] + rng.choice((new + after, new + byte + after, after, byte * 2 + after, exchanged))


def draw(rng):
    """A sheet; where --fix has to give it back the sheet before the mistakes; where there is one, what is said."""
    kind = rng.randrange(8)
    before = sheets.formed(rng)
    if kind < 4:
        return sheets.sheet(rng), None, None
    if kind == 4:
        sheet, said = one_mistake(rng, before)
        return sheet, before, said
    if kind == 5:
        return mistakes(rng, before), before, None
    sheet = mistakes(rng, before) if kind == 6 else before
    for _ in range(rng.randint(1, 3)):
        sheet = other_damage(rng, sheet)
    return sheet, None, None
