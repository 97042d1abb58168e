#!/usr/bin/env python3
"""Shows the places that a refusal names: file, line and column, the source line, and carets below.

A refusal's line has its places as LO..HI, in bytes of the file. A column counts characters from 1.
Carets go by how wide a terminal shows a character, and a tab is as wide as its next stop of eight.
"""
import re
import unicodedata

SPAN = re.compile(rb"(\d+)\.\.(\d+)")
TAB = 8
# A line is cut beyond these widths around what is marked, so that one very long line fits a screen.
BEFORE, WIDEST = 60, 140
# Of a place over more lines than this, the first two and the last are shown.
MOST_LINES = 4

TYPE_NOTES = {
    "EndlessType": "this type contains itself outside Box",
    "NestedBorrow": "a borrow stands inside a type that can't hold one",
    "NoRegion": "no region is known for this reference",
    "Mismatch": "this has another type than is expected here",
    "NoType": "no type is found for this",
    "Arity": "the number of parts is wrong",
    "Field": "no such field, or one that is missing or stands twice",
    "NotPlace": "an assignment or a borrow needs a place",
    "NotMutable": "this place isn't mutable",
    "MoveOut": "this value would be taken out of a reference",
    "Uncovered": "some value meets no arm",
    "LiteralRange": "this literal is outside its type",
    "NotInteger": "the operator doesn't take a value of this type",
    "Outside": "this belongs in a loop that takes it",
}
SYNTAX = "no program goes on so"
SYNTAX_AT_END = "the program ends too early"


def borrow_notes(function, why):
    """Returns a note for each place of a refusal of the loan rules."""
    name, _, rest = why.partition("(")
    parts = [it.strip() for it in rest.rstrip(")").split(",")]
    first, second = {
        "Moved": ("the value was moved before", "moved here"),
        "Ended": (f"loan {parts[0]} has ended before", "it ended here"),
        "Unassigned": ("nothing is assigned yet", ""),
        "Joined": (f"it is lost where the rounds of loop {parts[0]} join", ""),
    }.get(name, ("", ""))
    if name == "RegionMismatch" and len(parts) == 3:
        first = f"loan {parts[0]} is returned under region {parts[1]}, and {parts[2]} lends it"
    if name == "ReturnsLocal" and len(parts) == 2:
        first = f"loan {parts[0]} of the local {parts[1]} would leave the function"
    return [f"in {function}: {first or why}", second]


def notes_of(kind, rest, is_at_end):
    """Returns a note for each place of a refusal of this kind, in the order of its line."""
    words = rest.split()
    if kind == "syntax":
        return [SYNTAX_AT_END if is_at_end else SYNTAX]
    if kind == "unsupported":
        return ["this word is outside the language"]
    if kind == "unknown":
        return ["nothing has this name here"]
    if kind == "twice":
        return ["declared here", "and here again"]
    if kind == "type" and len(words) == 2:
        return [f"{words[1]}: {TYPE_NOTES[words[1]]}" if words[1] in TYPE_NOTES else words[1]]
    if kind == "borrow" and len(words) > 2:
        return borrow_notes(words[0], " ".join(words[2:]))
    if kind == "text":
        return ["the text ends too early" if is_at_end else "the first fault of the printed text"]
    return []


def places(line, content):
    """Returns the kind of a refusal and its places with their notes, or None where its line names none."""
    found = re.match(rb"refused \d+ (\w+) ?(.*)\n?\Z", line)
    if not found:
        return None
    kind, rest = found[1].decode(), found[2]
    spans = [(int(low), int(high)) for low, high in SPAN.findall(rest)]
    if kind == "utf8" and rest.isdigit():
        return kind, [(int(rest), int(rest), "from here on this is no UTF-8")]
    spans = [it for it in spans if it[0] <= it[1] <= len(content)]
    if not spans:
        return None
    is_at_end = spans[0] == (len(content), len(content))
    notes = notes_of(kind, rest.decode(errors="replace"), is_at_end)
    notes += [""] * len(spans)
    return kind, [(low, high, note) for (low, high), note in zip(spans, notes)]


def shown(character):
    """Returns what a terminal is given for a character: controls and marks of direction are made visible."""
    if character < " ":
        return chr(0x2400 + ord(character))
    return "\N{REPLACEMENT CHARACTER}" if unicodedata.category(character) in ("Cc", "Cf") else character


def width(character):
    """Returns the columns that a character takes."""
    if unicodedata.category(character) in ("Mn", "Me"):
        return 0
    return 2 if unicodedata.east_asian_width(character) in ("W", "F") else 1


def row(text, low, high, column):
    """Returns a line and the carets below its characters low to high, both begun at this column."""
    line, below, at, from_column, before = "", "", low, column, 0
    while at and before <= BEFORE:
        at -= 1
        before += width(text[at])
    if at:
        line, below, column = "…", " ", column + 1
    # A mark that combines has no column of its own, so it is marked together with the character before.
    while low < high and 0 < low < len(text) and not width(text[low]):
        low -= 1
    for place, character in enumerate(text[at:], at):
        if column - from_column > WIDEST and place >= low:
            line += "…"
            break
        is_tab = character == "\t"
        wide = TAB - column % TAB if is_tab else width(shown(character))
        line += "\t" if is_tab else shown(character)
        if low <= place < high:
            below += "^" * wide
        elif place < low:
            below += "\t" if is_tab else " " * wide
        column += wide
    return line, below.rstrip() if "^" in below else below + "^"


def lines_of(content, low, high):
    """Returns the lines that a place touches: number, text, and the characters marked in it."""
    start = content.rfind(b"\n", 0, low) + 1
    number = content.count(b"\n", 0, low) + 1
    while True:
        end = content.find(b"\n", start)
        end = len(content) if end < 0 else end
        whole = content[start : end - content.endswith(b"\r", start, end)]
        first, last = (
            len(whole[: max(it - start, 0)].decode(errors="replace")) for it in (low, high)
        )
        text = whole.decode(errors="replace")
        if start > low:
            first = min(len(text) - len(text.lstrip()), last)
        yield number, text, first, last
        start, number = end + 1, number + 1
        if start >= high or end == len(content):
            return


def show_place(name, content, low, high, note):
    """Returns the lines that show one place of the file."""
    lines = list(lines_of(content, low, high))
    first, _, at, _ = lines[0]
    marked = {number: (text, *counts) for number, text, *counts in lines}
    before = content[: content.rfind(b"\n", 0, low) + 1].rstrip()
    if not lines[0][1].strip() and before:
        # An empty line tells little: what stands last before it is shown too.
        start = before.rfind(b"\n") + 1
        text = before[start:].decode(errors="replace")
        marked = {before.count(b"\n") + 1: (text, None, None), **marked}
    gutter = len(str(max(marked)))
    out = [f"{'':{gutter}}--> {name}:{first}:{at + 1}", f"{'':{gutter}} |"]
    cut = len(lines) > MOST_LINES
    for number, (text, start, end) in marked.items():
        if cut and first + 1 < number < max(marked):
            out += ["..."] * (number == first + 2)
            continue
        line, below = row(text, start or 0, end or 0, gutter + 3)
        out.append(f"{number:>{gutter}} | {line}".rstrip(" "))
        is_last = number == max(marked)
        if start is not None and (start < end or number == first or is_last):
            out.append(f"{'':{gutter}} | {below} {note * is_last}".rstrip())
    return out


def show(name, content, line):
    """Returns what is written for a refusal's line on this file, or nothing where it names no place."""
    found = places(line, content)
    if not found:
        return ""
    kind, spans = found
    out = [f"refused: {kind}"]
    for low, high, note in spans:
        out += show_place(name, content, low, high, note)
    return "\n".join(out) + "\n"
