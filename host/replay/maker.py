"""Makes a record `PBR`, of version 1 or 2, from a readable text, and shows a record as such a text. It knows nothing of the library: host/replay/check
compares what it makes with the examples, which the library's writer makes of the same texts (host/rust/examples/write_examples.rs). Who wants a record
takes `masks record`.

One item to a line, words parted by blanks; `#` starts a comment. The lines may come in any order, but vertices and slices are numbered
from 0 in the order of their lines:

    version 2                       1 where this line is missing
    selector or_and                 or: not_xor, or a number from 0 to 255
    tolerance 1/1024 1/4096         of x and of y, or one for both: a fraction, a decimal number, nan, inf, or the 16 hex digits of a bit pattern after 0x
    editions 7 3                    of the outlines, in version 2; 0 where this line is missing
    starts 1 2 2                    where the slices of outline 2, the overlaps of 1 and the overlaps of 2 begin
    1 0 0 0                         a vertex of outline 1: x y bulge
    2 2 2 0                         a vertex of outline 2
    slice 1 + 2 3  2 4 0  0  4 2    source, + or - (inverted), start, offset; start x y bulge; end bulge; end x y; and, in version 2, an edition where
                                    it is not the outline's

In their place `of NAME` stands for the text NAME.txt beside this one. So that refusals can be shown, edits of the bytes may follow. They are made in turn:

    set 9 02 00                     the bytes from place 9 on are these, in hex
    drop 26 72                      72 bytes are taken out from place 26 on
    copy 272 54 27                  the 54 bytes from place 272 on are added at the end, 27 times
    cut 1                           1 byte is taken off at the end
    pad 1                           1 byte 0 is added at the end
"""

import math
import struct
import sys
from fractions import Fraction
from pathlib import Path

HEADS = {1: "<3sHHHBdHHHH", 2: "<3sHHHBddIIHHHH"}
SLICES = {1: "<BBHH6d", 2: "<BBHH6dI"}
SELECTORS = {"or_and": 0, "not_xor": 1}
SIGNS = {"+": 0, "-": 1}


def number(word):
    """A number's eight bytes."""
    if word.lower().startswith("0x") and len(word) == 18:
        return struct.pack("<Q", int(word, 16))
    if "/" in word:
        return struct.pack("<d", float(Fraction(word)))
    return struct.pack("<d", float(word))


def edited(made, first, rest):
    """The bytes after an edit."""
    if first == "set" and len(rest) >= 2:
        at, these = int(rest[0]), bytes(int(w, 16) for w in rest[1:])
        if at + len(these) > len(made):
            raise ValueError("it goes past the end")
        return made[:at] + these + made[at + len(these) :]
    values = [int(w) for w in rest]
    if first == "drop" and len(values) == 2:
        return made[: values[0]] + made[sum(values) :]
    if first == "copy" and len(values) == 3:
        return made + made[values[0] :][: values[1]] * values[2]
    if first == "cut" and len(values) == 1:
        return made[: len(made) - values[0]]
    if first == "pad" and len(values) == 1:
        return made + bytes(values[0])
    raise ValueError("not understood")


def packed(items, outlines, slices):
    """The bytes of a stitch."""
    version, editions = int(items.get("version", ["1"])[0]), [int(w) for w in items.get("editions", ["0", "0"])]
    tolerances = [number(w) for w in items.get("tolerance", ["1/1024"])]
    x, y = tolerances[0], tolerances[-1]
    if version == 1 and (x != y or editions != [0, 0]):
        raise ValueError("version 1 has one tolerance, and no editions")
    word = items.get("selector", ["or_and"])[0]
    selector = SELECTORS[word] if word in SELECTORS else int(word)
    starts = [int(w) for w in items.get("starts", ["0", "0", "0"])]
    made = b"PBR" + struct.pack("<HHHB", version, len(outlines["1"]), len(outlines["2"]), selector) + x
    made += y + struct.pack("<II", *editions) if version == 2 else b""
    made += struct.pack("<HHHH", *starts, len(slices)) + b"".join(outlines["1"] + outlines["2"])
    for words in slices:
        sign = SIGNS[words[1]] if words[1] in SIGNS else int(words[1])
        made += struct.pack("<BBHH", int(words[0]), sign, int(words[2]), int(words[3])) + b"".join(map(number, words[4:10]))
        if version == 2:
            made += struct.pack("<I", int(words[10]) if len(words) == 11 else editions[int(words[0]) - 1])
    return made


LENGTHS = {"version": (1,), "selector": (1,), "tolerance": (1, 2), "editions": (2,), "starts": (3,)}


def record(text, folder):
    """The bytes of a record. `folder` has the texts that this one may name."""
    items, outlines, slices, made, edits = {}, {"1": [], "2": []}, [], None, []
    for at, line in enumerate(text.split("\n"), 1):
        words = line.split("#")[0].split()
        if not words:
            continue
        first, rest = words[0], words[1:]
        try:
            if first == "of" and len(rest) == 1:
                made = record((Path(folder) / f"{rest[0]}.txt").read_text(), folder)
            elif first in outlines and len(rest) == 3:
                outlines[first].append(b"".join(map(number, rest)))
            elif first == "slice" and len(rest) in (10, 11):
                slices.append(rest)
            elif len(rest) in LENGTHS.get(first, ()):
                items[first] = rest
            else:
                edited(bytes(100000), first, rest)
                edits.append((first, rest))
        except (ValueError, OSError, struct.error) as why:
            sys.exit(f"record: line {at}: {line.strip()}: {why}")
    try:
        made = packed(items, outlines, slices) if made is None else made
        for first, rest in edits:
            made = edited(made, first, rest)
    except (ValueError, IndexError, struct.error) as why:
        sys.exit(f"record: {why}")
    return made


def word(data):
    """A number as a short text that gives the same bits: whole where it is whole, else a decimal number, else its pattern."""
    x = struct.unpack("<d", data)[0]
    tries = [repr(int(x)), repr(x)] if math.isfinite(x) else []
    return next((t for t in tries if number(t) == data), "0x%016x" % struct.unpack("<Q", data)[0])


def show(data):
    version = int.from_bytes(data[3:5], "little")
    if data[:3] != b"PBR" or version not in HEADS or len(data) < struct.calcsize(HEADS[version]):
        sys.exit("record: no whole head")
    at, stride = struct.calcsize(HEADS[version]), struct.calcsize(SLICES[version])
    _, _, vc1, vc2, selector, *_, first, second, third, n = struct.unpack_from(HEADS[version], data)
    if len(data) != at + 24 * (vc1 + vc2) + stride * n:
        sys.exit("record: the length is not as the counts say")
    names = {code: name for name, code in SELECTORS.items()}
    lines = [f"version {version}", f"selector {names.get(selector, selector)}"]
    if version == 1:
        lines += [f"tolerance {word(data[10:18])}"]
    else:
        lines += [f"tolerance {word(data[10:18])} {word(data[18:26])}", "editions %d %d" % struct.unpack_from("<II", data, 26)]
    lines.append(f"starts {first} {second} {third}")
    for k in range(vc1 + vc2):
        lines.append(" ".join(["1" if k < vc1 else "2"] + [word(data[at + 8 * i : at + 8 * i + 8]) for i in range(3)]))
        at += 24
    signs = {code: sign for sign, code in SIGNS.items()}
    for _ in range(n):
        source, inverted, start, offset = struct.unpack_from("<BBHH", data, at)
        numbers = [word(data[at + 6 + 8 * i : at + 14 + 8 * i]) for i in range(6)]
        edition = list(struct.unpack_from("<I", data, at + 54)) if version == 2 else []
        lines.append(" ".join(map(str, ["slice", source, signs.get(inverted, inverted), start, offset, *numbers, *edition])))
        at += stride
    return "\n".join(lines) + "\n"
