"""check_json.py [--all-refusals] OUT FILES: holds what `stagecheck --json` wrote to what the proved program prints.

OUT is the output. FILES has for each object, in order, three names, each ended by a zero byte: the file as the program
was given it, the listing, and the proved program's text of it. With --all-refusals every refusal must be met but
those that hang on what is lent.
"""

import codecs
import json
import re
import sys

# A sheet that is too short, and a buffer that is too short, which no check is lent.
OF_LENT = {4, 20}

# A byte of no character becomes one U+FFFD.
codecs.register_error("each", lambda error: ("\ufffd", error.start + 1))


def rows():
    """For each refusal the name and the names of its fields, from the header's table."""
    found = {}
    for line in open("include/stagecheck.h", encoding="ascii"):
        row = re.fullmatch(r" \* +(\d+) ([A-Z][A-Za-z]+) +(.+)\n", line)
        if row:
            found[int(row[1])] = (row[2], row[3].split())
    assert sorted(found) == list(range(1, 21)), found
    return found


def line_of(listing, chunk, ip):
    """The line, counted from 1, of an instruction."""
    chunks, ops = -1, -1
    for number, line in enumerate(listing.split(b"\n"), 1):
        if line.startswith(b"(chunk "):
            chunks, ops = chunks + 1, -1
        if line.startswith(b"(op "):
            ops += 1
            if (chunks, ops) == (chunk, ip):
                return number
    raise AssertionError("no such instruction")


def accepted(text):
    first, *lines = text.splitlines()
    _, chunks, instructions = first.split()
    words = [line.split() for line in lines]
    return {
        "accepted": True,
        "chunks": int(chunks),
        "instructions": int(instructions),
        "heights": [None if height == "-" else int(height) for _, _, height, _ in words],
        "marks": [mark == "blind" for _, _, _, mark in words],
    }


def refused(text, listing, line, names):
    number, chunk, *values = map(int, text.split()[1:])
    name, fields = names[number]
    is_at = fields[0] == "ip" and not (number == 2 and values[1] <= 3)
    if is_at:
        line = line_of(listing, chunk, values[0])
    return {
        "accepted": False,
        "number": number,
        "name": name,
        "chunk": chunk if is_at else None,
        "ip": values[0] if is_at else None,
        "line": line,
        "values": values,
        "named": dict(zip(fields, values, strict=True)),
    }


def main():
    *options, out, files = sys.argv[1:]
    names = rows()
    wanted = open(files, "rb").read().split(b"\0")[:-1]
    objects = open(out, encoding="utf-8", newline="\n").read().split("\n")
    assert objects.pop() == "", "the last object has no LF"
    assert len(objects) * 3 == len(wanted), f"{len(objects)} objects for {len(wanted) // 3} files"
    met = set()
    for given, (file, listing, text) in zip(objects, zip(*[iter(wanted)] * 3)):
        given = json.loads(given)
        text = open(text, encoding="ascii").read()
        listing = open(listing, "rb").read()
        right = {"file": file.decode("utf-8", "each")}
        if text.startswith("accepted"):
            right |= accepted(text)
        else:
            # Where no instruction is at fault, only that the line is one of the listing, the end's included, or null.
            line = given["line"]
            assert line is None or 1 <= line <= listing.count(b"\n") + 1, given
            right |= refused(text, listing, line, names)
            met.add(right["number"])
        assert list(given.items()) == list(right.items()), f"{given}\nis not\n{right}"
    if options == ["--all-refusals"]:
        assert met == set(names) - OF_LENT, f"only met {sorted(met)}"
    print(f"desk: {len(objects)} JSON objects as the proved program")


main()
