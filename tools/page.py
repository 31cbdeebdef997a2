#!/usr/bin/env python3
"""Writes crates/page/stdin and stdout: a stored page of 40 panes of all five kinds, with sections of other letters between them, and the lines that the program must print;
then panes and sections whose names and letters would make lines of their own, were they printed as they are.

Run in the repository's root. The page is laid out here by document 01, and the lines follow from what was laid out: nothing is shared with the Rattle code.
"""
import random
import re
import struct
from pathlib import Path

from hexadecimal_lines import put

PARENTS = ["N_Root", "N_Header", "N_List", "N_Footer", "L_Dialog_00"]
LABELS = ["Continue", "Übersicht", "設定", ""]
TEXTS = ["Start", "Größe", "終了", "🙂", ""]


def base(rng, name):
    floats = [rng.choice([0.0, -0.0, 1.0, 0.5, -640.0, 360.0, 12.25]) for _ in range(10)]
    fixed = bytes([rng.randrange(256), 0x00, 255, 0x00])
    return fixed + name.encode().ljust(24, b"\0") + b"".ljust(8, b"\0") + struct.pack("<10f", *floats)


def colors(rng, count):
    return rng.randbytes(4 * count)


def quads(rng, count):
    return struct.pack(f"<{8 * count}f", *[rng.choice([0.0, 1.0, 0.25]) for _ in range(8 * count)])


def pan1(rng, name):
    return base(rng, name)


def pic1(rng, name):
    count, shape = rng.randrange(4), rng.randrange(2)
    own = colors(rng, 4) + struct.pack("<HBB", rng.randrange(20), count, shape) + quads(rng, count)
    return base(rng, name) + own + (struct.pack("<I", rng.randrange(9)) if shape else b"")


def aligned(parts, place):
    return parts + bytes(-(place + len(parts)) % 4)


def txt1(rng, name):
    """Text at 168, then the label with its NUL, then the line table, each part at a multiple of 4 of the place (the section stands at one)."""
    text, label = rng.choice(TEXTS).encode("utf-16-le"), rng.choice(LABELS).encode()
    lines = rng.randrange(3)
    parts, offsets = text, [168]
    parts = aligned(parts, 0)
    offsets.append(168 + len(parts))
    parts = aligned(parts + label + b"\0", 0)
    offsets.append(168 + len(parts))
    parts += bytes([lines]) + struct.pack(f"<{2 * lines}f", *[1.5] * (2 * lines))
    own = struct.pack("<4H", 64, len(text), 1, 2) + bytes([0x05, 2]) + struct.pack("<H", 0x0040) + struct.pack("<fI", 0.0, offsets[0])
    own += colors(rng, 2) + struct.pack("<4f", 20.0, 20.0, 0.0, 2.0) + struct.pack("<I", offsets[1])
    own += struct.pack("<4f", 1.0, -1.0, 1.0, 1.0) + colors(rng, 2) + struct.pack("<fII", 0.0, offsets[2], 0)
    return base(rng, name) + own + parts


def wnd1(rng, name):
    count, frames = rng.randrange(3), rng.choice([1, 4, 8])
    content = colors(rng, 4) + struct.pack("<HBB", 3, count, 0) + quads(rng, count)
    table = 112 + len(content)
    offsets = [table + 4 * frames + 4 * i for i in range(frames)]
    own = struct.pack("<8h", 1, -1, 2, -2, 16, 16, 16, 16) + struct.pack("<BBHII", frames, 0x08, 0, 112, table)
    kept = b"".join(struct.pack("<HBB", i, i % 6, 0) for i in range(frames))
    return base(rng, name) + own + content + struct.pack(f"<{frames}I", *offsets) + kept


def ali1(rng, name):
    return base(rng, name) + struct.pack("<IfBBH", rng.randrange(2), 4.0, 1, 0, 0)


def sections():
    """The letters, the name and the body of each section."""
    rng = random.Random(2)
    kinds = [pan1, pic1, txt1, wnd1, ali1]
    for i in range(40):
        kind = kinds[i] if i < 5 else rng.choice(kinds)
        name = rng.choice(PARENTS) if kind is pan1 else "%s_%02d" % (rng.choice(["P_Icon", "T_Name", "W_Base", "A_Row"]), i)
        yield kind.__name__, name if i != 7 else "N_24_bytes_fill_the_name", kind(rng, name if i != 7 else "N_24_bytes_fill_the_name")
        if rng.random() < 0.3:
            letters = rng.choice(["pas1", "pae1", "usd1", "grp1"])
            yield letters, None, rng.randbytes(rng.choice([0, 4, 32]))
    for name in FORGED:
        yield "pan1", name, pan1(rng, name)
    for letters in ODD:
        yield letters, None, b""


# names of at most 24 bytes: a line feed and a quote, a backslash at the end, all controls of ASCII but NUL, U+0080 to U+009F, line ends beyond ASCII, and letters that stay as they are
FORGED = ['x" at 0, 84 bytes\n', "\n", '"', "\\", 'a\\" at 0, 84 bytes\nend at 84'[:24], "".join(map(chr, range(1, 25))), "".join(map(chr, range(25, 32))) + "\x7f\x1b[2J",
          "\x7f" * 24, "\x80\x85\x9b\x9f\xa0", "a\u2028b\u2029c\u2027\u2030", "\u2028" * 8, "é€😀設定"]
# letters of no kind, each a byte
ODD = ["\n\n\n\n", '"\\"\\', "\x00\x1f\x20\x7e", "\x7f\x80\xc2\x85", "\xff\xfe\xfd\xe2", "PAN1"]


def shown(text, ascii):
    """The text between quotes: \\" and \\\\, and \\xHH for each byte of a character that is a control or ends a line, or with ascii is beyond ASCII."""
    def one(found):
        char = found.group()
        if char in '"\\':
            return "\\" + char
        return "".join("\\x%02X" % byte for byte in char.encode("latin-1" if ascii else "utf-8"))
    return re.sub('["\\\\\0-\x1f\x7f-\x9f\u2028\u2029' + ("\x80-\xff]" if ascii else "]"), one, text)


def main():
    page, lines = b"", []
    for letters, name, body in sections():
        whole = put(letters.encode("latin-1"), body)
        what = 'pass "%s"' % shown(letters, True) if name is None else '%s "%s"' % (letters, shown(name, False))
        lines.append("%s at %d, %d bytes" % (what, len(page), len(whole)))
        page += whole
    lines.append("end at %d" % len(page))
    crate = Path("crates/page")
    crate.joinpath("stdin").write_bytes(page)
    crate.joinpath("stdout").write_text("".join(line + "\n" for line in lines))
    print(len(lines) - 1, "sections,", len(page), "bytes")


if __name__ == "__main__":
    main()
