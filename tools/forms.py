#!/usr/bin/env python3
"""Counts the old forms that docs/DESIGN-PASS.md lists, in crates/*/src: a number for each point, and with --list each place.

    python3 tools/forms.py [--list] [POINT]
"""
import glob
import re
import sys
from collections import defaultdict
from pathlib import Path

TOP = Path(__file__).resolve().parent.parent
ITEM = re.compile(r"^( *)(?:pub(?:\(crate\))? )?fn (\w+)", re.M)
NUMBERS = "number|refusal"
FLAGS = "more|told|on|stuck|begun|refused|failed"
MEMORIES = {"slots", "pool", "books"}
BATCH = {"records", "body", "rows"}


def sources():
    """Each source file with its text, comments at the heads of items included."""
    for path in sorted(TOP.glob("crates/*/src/*.rt")):
        yield path.relative_to(TOP), path.read_text()


def functions(text):
    """Name, line, header comment, signature and body of each function."""
    lines = text.split("\n")
    for at, line in enumerate(lines):
        found = ITEM.match(line)
        if not found:
            continue
        pad = found.group(1)
        open_at = next((k for k in range(at, len(lines)) if lines[k] == pad + "{" or lines[k].endswith(" {")), None)
        if open_at is None:
            continue
        end = next((k for k in range(open_at + 1, len(lines)) if lines[k] == pad + "}"), open_at)
        head = at
        while head and lines[head - 1].strip().startswith("//"):
            head -= 1
        yield found.group(2), at + 1, "\n".join(lines[head:at]), "\n".join(lines[at : open_at + 1]), "\n".join(lines[open_at + 1 : end])


def blocks(text, word):
    """Name, line and lines of each struct or enum."""
    for found in re.finditer(rf"^(?:pub(?:\(crate\))? )?{word} (\w+) \{{\n((?:    .*\n)+)\}}", text, re.M):
        yield found.group(1), text[: found.start()].count("\n") + 1, found.group(2).strip().split("\n")


def shapes(file, text):
    """1: enums of the shape of Option or Result, a flag or a refusal's number beside a value, kinds and refusals as numbers."""
    for name, line, body in blocks(text, "enum"):
        if len(body) == 2 and sum("(" in it for it in body) >= 1:
            yield line, f"enum {name}: of the shape of Option or Result"
        elif any(re.match(r" *Refused\(", it) for it in body):
            yield line, f"enum {name}: a refusal's number beside other answers"
    for name, line, body in blocks(text, "struct"):
        fields = [it.strip() for it in body]
        if any(re.match(rf"(pub )?({NUMBERS}): u32", it) for it in fields):
            yield line, f"struct {name}: a refusal's number, or 0, beside a value"
        elif any(re.match(rf"(pub )?({FLAGS}): bool", it) for it in fields):
            yield line, f"struct {name}: a flag beside a value"
    for name, line, head, sign, body in functions(text):
        if re.search(r"-> u32", sign) and re.search(r"refusal|refused|\b13\b|the test of|The tests", head, re.I):
            yield line, f"fn {name}: a refusal's number, or 0"
        if re.search(r"\b(kind|what): u32", sign):
            yield line, f"fn {name}: a kind as a number"
    for found in re.finditer(r"^    pub (kind|what): u32", text, re.M):
        yield text[: found.start()].count("\n") + 1, f"field {found.group(1)}: a kind as a number"


def twins(every):
    """2: functions with bodies of three lines or more that are alike up to names and numbers."""
    like = defaultdict(list)
    for file, text in every:
        for name, line, head, sign, body in functions(text):
            if body.count("\n") < 2:
                continue
            form = re.sub(r"//.*", "", body)
            form = re.sub(r'b?"[^"]*"', "S", form)
            form = re.sub(r"\b\d+\b", "N", re.sub(r"\b(?!let|mut|if|else|while|for|in|match|return|as|u8|u32|u64|usize|Ok|Err|Some|None)[A-Za-z_]\w*", "x", form))
            like[re.sub(r"\s+", " ", form)].append((file, line, name))
    for places in like.values():
        if len(places) > 1:
            for file, line, name in places:
                yield file, line, f"fn {name}: like {', '.join(n + ' of ' + str(f).split('/')[1] for f, l, n in places if (f, l) != (file, line))}"


def loops(file, text):
    """3: loops that count by hand."""
    for found in re.finditer(r"^ *while .*\{$", text, re.M):
        yield text[: found.start()].count("\n") + 1, found.group(0).strip()


def by_hand(file, text):
    """4: packing, unpacking and printing by hand: functions that do nothing but write to a stream piece by piece, or put a value into another form."""
    for name, line, head, sign, body in functions(text):
        if re.search(r"impl (Print|Eprint)\b|impl Print \+|&\(impl Print", sign) and re.search(r"\b(say|write|eprint!|print!|eprintln!)\b", body):
            yield line, f"fn {name}: prints by hand"
        elif re.match(r"(flag|both|pack|larger|smaller|least|is_zero|answer_in|value_of|same)$", name):
            yield line, f"fn {name}: a conversion or comparison by hand"


def together(file, text):
    """5: parameters that travel together: all of slots, pool and books, or all of records, body and rows."""
    for name, line, head, sign, body in functions(text):
        names = set(re.findall(r"(\w+):", sign.split("->")[0]))
        if MEMORIES <= names or BATCH <= names:
            yield line, f"fn {name}: {', '.join(sorted((MEMORIES | BATCH) & names))}"


def lengths(file, text):
    """6: a buffer with a length, a place or a count beside it, and arrays beside a count."""
    for name, line, head, sign, body in functions(text):
        params = sign.split("->")[0]
        if re.search(r"&(mut )?(?:'a )?\[u8\]", params) and re.search(r"\b(n|count|size|len|used|m): (u32|usize|RowCount)", params):
            yield line, f"fn {name}: a buffer and its length"
    for name, line, body in blocks(text, "struct"):
        for it in body:
            if re.search(r": \[\w+; 16\]", it):
                yield line, f"struct {name}: an array beside a count"


def switches(file, text):
    """7: a match, or a test, on which step to run."""
    for found in re.finditer(r"^ *(?:\w+ = )?match ((?:self\.)?(?:what|job|route|way|memory|x\.what|f\.call\.what|limit))\b.*$", text, re.M):
        yield text[: found.start()].count("\n") + 1, found.group(0).strip()
    for found in re.finditer(r"^ *(?:\} else )?if .*\b(what|job)\b (==|!=) \d.*$", text, re.M):
        yield text[: found.start()].count("\n") + 1, found.group(0).strip()


def answers(only_files):
    """8: answers and lemmas written in proofs/, of every crate."""
    for path in sorted(TOP.glob("crates/*/proofs/*/Answers.antt")) + sorted(TOP.glob("crates/*/proofs/*/Invariants.antt")):
        for found in re.finditer(r"^(?:pub )?([\w'-]+) (?:\w+ )*=", path.read_text(), re.M):
            yield path.relative_to(TOP), path.read_text()[: found.start()].count("\n") + 1, found.group(1)


POINTS = {1: shapes, 3: loops, 4: by_hand, 5: together, 6: lengths, 7: switches}


def places(point):
    """The places of a point: file, line, what stands there."""
    if point == 2:
        return list(twins(list(sources())))
    if point == 8:
        return list(answers(None))
    return [(file, line, what) for file, text in sources() for line, what in POINTS[point](file, text)]


def main():
    wanted = [int(it) for it in sys.argv[1:] if it.isdigit()] or range(1, 9)
    for point in wanted:
        found = places(point)
        print(f"{point}: {len(found)}")
        if "--list" in sys.argv:
            for file, line, what in found:
                print(f"   {file}:{line}: {what}")


if __name__ == "__main__":
    main()
