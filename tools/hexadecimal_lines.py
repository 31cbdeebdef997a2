#!/usr/bin/env python3
"""Writes crates/hexadecimal/stdin and stdout: lines for the hexadecimal program and what it must print.

Run in the repository's root. The answers come from `answer` below, a reading of document 01 and of document 02's Note 4 that shares nothing with the Rattle code.
The last lines are those of docs/REFUSALS.md, each with the answer that the page states before it; `answer` must agree with the page.
With --check nothing is written: it tells whether the stored files are those that would be, and exits with 1 if not.
KINDS names the kinds that the strip has; letters of others are passed.
"""
import random
import re
import struct
import sys
from pathlib import Path

KINDS = ["pan1", "pic1", "txt1", "wnd1", "ali1"]


class No(Exception):
    """A refusal: its number and figures."""


class Reader:
    """Reads at a place, with refusal 4 where bytes run out. `reach` is the first place past all bytes that were read; a seek alone leaves it."""

    def __init__(self, s, at):
        self.s, self.at, self.reach = s, at, at

    def take(self, count):
        part = self.s[self.at : self.at + count]
        self.at += count
        if count:
            self.reach = max(self.reach, self.at)
        return part

    def number(self, width):
        if self.at + width > len(self.s):
            raise No(4, self.at, width)
        return int.from_bytes(self.take(width), "little")

    def numbers(self, count, width):
        for _ in range(count):
            self.number(width)

    def string(self, width):
        if self.at >= len(self.s):
            raise No(4, self.at, width)
        place = self.at
        return place, self.take(min(width, len(self.s) - place)).split(b"\0")[0]

    def until_nul(self):
        """A string and the NUL that ends it, which is read too."""
        place, end = self.at, self.s.find(b"\0", self.at)
        if end < 0:
            raise No(5, place, 0)
        return place, self.take(end + 1 - place)[:-1]

    def seek(self, to):
        if to > len(self.s):
            raise No(4, len(self.s), to - len(self.s))
        self.at = to


def base(r):
    r.numbers(4, 1)
    name, user = r.string(24), r.string(8)
    r.numbers(10, 4)
    return [(1, name), (2, user)]


def picture(r):
    r.numbers(16, 1)
    r.number(2)
    count, shape = r.number(1), r.number(1)
    r.numbers(8 * count, 4)
    if shape:
        r.number(4)


def text_box(r, body, texts):
    r.number(2)
    length = r.number(2)
    r.numbers(2, 2)
    r.numbers(2, 1)
    flags = r.number(2)
    r.number(4)
    text = r.number(4)
    r.numbers(8, 1)
    r.numbers(4, 4)
    label = r.number(4)
    r.numbers(4, 4)
    r.numbers(8, 1)
    r.number(4)
    lines, character = r.number(4), r.number(4)
    after = r.at
    if text:
        r.seek(body - 8 + text)
        r.numbers(length // 2, 2)
    if label:
        r.seek(body - 8 + label)
        texts.append((3, r.until_nul()))
    if flags >> 6 & 1 and lines:
        r.seek(body - 8 + lines)
        r.numbers(2 * r.number(1), 4)
    if flags >> 4 & 1 and character:
        raise No(6, character, 0)
    r.at = after


def window(r, body):
    r.numbers(8, 2)
    frames = r.number(1)
    r.number(1)
    r.number(2)
    content, table = r.number(4), r.number(4)
    after = r.at
    r.seek(body - 8 + content)
    r.numbers(16, 1)
    r.number(2)
    quads = r.number(1)
    r.number(1)
    r.numbers(8 * quads, 4)
    r.seek(body - 8 + table)
    for offset in [r.number(4) for _ in range(frames)]:
        r.seek(body - 8 + offset)
        r.number(2)
        r.numbers(2, 1)
    r.at = after


def section(s):
    if not s:
        return "end"
    r = Reader(s, 0)
    r.number(4)
    size = r.number(4)
    if size < 8 or size % 4 or size > len(s):
        raise No(8, 4, size)
    kind = s[:4].decode("latin-1")
    if kind not in KINDS:
        return f"pass {size}"
    texts = base(r)
    if kind == "pic1":
        picture(r)
    elif kind == "txt1":
        text_box(r, 8, texts)
    elif kind == "wnd1":
        window(r, 8)
    elif kind == "ali1":
        r.numbers(2, 4)
        r.numbers(2, 1)
        r.number(2)
    for which, (place, text) in texts:
        try:
            text.decode("utf-8")
        except UnicodeDecodeError:
            raise No(7, place, which)
    if r.reach > size:
        raise No(19, r.reach, size)
    return f"pane {r.at} {size}"


def answer(line):
    if len(line) % 2 or len(line) > 8192 or any(c not in b"0123456789abcdefABCDEF" for c in line):
        return "bad"
    try:
        return section(bytes.fromhex(line.decode()))
    except No as no:
        return "no %d %d %d" % no.args


def put(letters, body, size=None):
    """A section with this body: padded, or with the size given."""
    if size is None:
        body += bytes(-len(body) % 4)
        size = 8 + len(body)
    return letters + struct.pack("<I", size) + body


NAMES = [
    b"", b"N_Root", "é€😀".encode(), b"\xc0\x80", b"\xc1\xbf", b"\xc2", b"\xc2\x7f", b"\xdf\xbf", b"\xe0\x9f\xbf", b"\xe0\xa0\x80", b"\xec\xbf\xbf",
    b"\xed\x9f\xbf", b"\xed\xa0\x80", b"\xee\x80\x80", b"\xef\xbf\xc0", b"\xf0\x8f\xbf\xbf", b"\xf0\x90\x80\x80", b"\xf3\xbf\xbf\xbf", b"\xf4\x8f\xbf\xbf",
    b"\xf4\x90\x80\x80", b"\xf5\x80\x80\x80", b"\x80", b"\xff", b"a\xe2\x82", b"a\0\xff",
]


def pane_body(name=b"pane", user=b"user", rest=bytes(40)):
    return bytes([1, 0x59, 255, 0xFF]) + name[:24].ljust(24, b"\0") + user[:8].ljust(8, b"\0") + rest


def text_body(rng, text=0, label=0, lines=0, character=0, flags=0, length=0, tail=b""):
    """A text box with these offsets."""
    own = struct.pack("<4H2BHII", 9, length, 1, 2, 0xF9, 4, flags, 0x3F800000, text) + rng.randbytes(24) + struct.pack("<I", label)
    own += rng.randbytes(28) + struct.pack("<II", lines, character)
    return pane_body() + own + tail


def window_body(rng, frames, content, table, tail=b""):
    return pane_body() + rng.randbytes(16) + struct.pack("<BBHII", frames, 0xEC, 0, content, table) + tail


def lines():
    rng = random.Random(1)
    yield b""
    yield b"616C693108000000"
    yield b"616C693160000000" + b"0" * 176
    for bad in (b"0", b"616C69310800000", b"6g", b"61 6C", b"616C693108000000\r", b"-1", b"0x00", b"\xff\xff", b"0" * 8193, b"0" * 8194, b"0" * 20000):
        yield bad
    yield b"0" * 8192
    yield b"616c693108000000"
    yield b"616c6931" + b"00100000" + b"Aa" * 4088
    for letters in (b"ali1", b"pan1", b"grp1", b"PAN1", b"\0\0\0\0"):
        whole = put(letters, bytes(92))
        for n in range(9):
            yield whole[:n].hex().encode()
        for size in (0, 1, 4, 7, 8, 9, 10, 11, 12, 96, 100, 101, 104, 0xFFFFFFFC, 0xFFFFFFFF):
            yield put(letters, bytes(92), size).hex().encode()
    bodies = {b"pan1": pane_body(rest=rng.randbytes(40)), b"ali1": pane_body(rest=rng.randbytes(52))}
    bodies[b"pic1"] = pane_body(rest=rng.randbytes(40)) + rng.randbytes(18) + b"\x01\x07" + rng.randbytes(36)
    content = rng.randbytes(18) + b"\x01\x09" + rng.randbytes(32)
    bodies[b"wnd1"] = window_body(rng, 2, 112, 164, content + struct.pack("<II", 172, 176) + bytes([1, 0, 6, 9, 2, 0, 5, 9]))
    parts = b"\x41\x00\0\0" + b"ab\0\0" + b"\x01" + rng.randbytes(8)
    bodies[b"txt1"] = text_body(rng, 168, 172, 176, 7, 0x9040, 3, parts)
    for letters, body in bodies.items():
        yield put(letters, body).hex().encode()
        for n in range(8, len(put(letters, body)) + 1):
            yield put(letters, body, 8)[:n].hex().encode()
    for name in NAMES:
        yield put(b"pan1", pane_body(name)).hex().encode()
        yield put(b"ali1", pane_body(b"ok", name, bytes(52))).hex().encode()
        yield put(b"pan1", pane_body(b"x" * 20 + name, b"y" * 5 + name)).hex().encode()
        yield put(b"txt1", text_body(rng, label=168, tail=name + b"\0")).hex().encode()
    far = (0, 1, 7, 8, 84, 100, 160, 167, 168, 169, 200, 500, 0x7FFFFFFF, 0xFFFFFFFF)
    for at in far:
        for length in (0, 1, 2, 5, 0xFFFF):
            yield put(b"txt1", text_body(rng, text=at, length=length, tail=rng.randbytes(8))).hex().encode()
        yield put(b"txt1", text_body(rng, label=at, tail=b"\x41" * 5)).hex().encode()
        yield put(b"txt1", text_body(rng, label=at, tail=b"\x41" * 8)).hex().encode()
        for flags in (0, 0x40, 0x10, 0x50):
            yield put(b"txt1", text_body(rng, lines=at, character=at, flags=flags, tail=b"\x01" + rng.randbytes(7))).hex().encode()
        for frames in (0, 1, 2):
            yield put(b"wnd1", window_body(rng, frames, at, 112, rng.randbytes(60))).hex().encode()
            yield put(b"wnd1", window_body(rng, frames, 112, at, content + rng.randbytes(60))).hex().encode()
    for count in (0, 1, 2, 7, 255):
        for shape in (0, 1, 255):
            yield put(b"pic1", pane_body() + rng.randbytes(18) + bytes([count, shape]) + rng.randbytes(100)).hex().encode()
    for _ in range(300):
        letters = rng.choice([b"pan1", b"ali1", b"pic1", b"txt1", b"wnd1"])
        body = bytearray(pane_body(b"r", b"s", rng.randbytes(40)) + rng.randbytes(rng.randrange(120)))
        for at in range(76, min(len(body), 160), 4):
            if rng.random() < 0.5:
                body[at : at + 4] = struct.pack("<I", rng.randrange(200))
        line = put(letters, bytes(body))
        yield (line.hex() if rng.random() < 0.5 else line.hex().upper()).encode()


def past():
    """Panes whose parts end at the section's end, before it or behind it; offsets behind it where nothing is read; panes in which another refusal comes first."""
    rng = random.Random(4)
    frame = struct.pack("<I", 116) + bytes(4)
    parts = {
        "pan1": [pane_body(rest=rng.randbytes(40))],
        "ali1": [pane_body(rest=rng.randbytes(52))],
        "pic1": [pane_body() + bytes(18) + bytes([count, shape]) + rng.randbytes(32 * count + 4 * shape) for count, shape in ((0, 0), (0, 1), (1, 0), (2, 1))],
        "txt1": [text_body(rng, text=168, length=7, tail=b"abcdef"), text_body(rng, label=169, tail=b"_label\0"), text_body(rng, label=171, tail=b"___\0"),
                 text_body(rng, lines=170, flags=0x40, tail=b"__\x01" + rng.randbytes(8)), text_body(rng, lines=168, flags=0x40, tail=b"\0")],
        "wnd1": [window_body(rng, 0, 112, 112, rng.randbytes(18) + b"\0\0"), window_body(rng, 0, 112, 112, rng.randbytes(18) + b"\x01\0" + rng.randbytes(32)),
                 window_body(rng, 1, 8, 112, frame), window_body(rng, 1, 8, 113, b"_" + struct.pack("<I", 8)), window_body(rng, 0, 8, 110)],
    }
    for letters, bodies in parts.items():
        for body in bodies:
            reach = 8 + len(body)
            for size in range(reach // 4 * 4 - 8, reach + 12, 4):
                yield put(letters.encode(), body + bytes(16), size)
    for offset in (168, 171, 172, 173):
        yield put(b"txt1", text_body(rng, text=offset, length=1, tail=bytes(4)), 168)
        yield put(b"wnd1", window_body(rng, 0, 8, offset - 56, bytes(4)), 112)
    yield put(b"txt1", text_body(rng, label=168, tail=b"\xff\0"), 168)
    yield put(b"txt1", text_body(rng, label=168, tail=b"\xff\xff"), 168)
    yield put(b"txt1", text_body(rng, label=168, flags=0x10, character=9, tail=b"ab\0"), 168)
    yield put(b"txt1", text_body(rng, text=168, length=6, tail=b"abcd"), 168)
    yield put(b"txt1", text_body(rng, text=168, length=4, tail=b"\0\xd8\0\xd8"), 168)
    yield put(b"ali1", pane_body(b"\xff", b"", bytes(52)), 8)
    yield put(b"ali1", pane_body(b"", b"\xff", bytes(52)), 8)
    yield put(b"usd1", pane_body(b"\xff", b"", bytes(52)), 8)


def of_page(text):
    """The lines of hexadecimal in docs/REFUSALS.md, each with the answer that ends the paragraph before it: `no 4 0 4`:"""
    found = re.findall(r"`((?:no|pane|pass|end)[0-9 ]*)`:\n\n {4,6}([0-9A-F]+)\n", text)
    indented = re.findall(r"^ {4,}(.*)$", text, re.M)
    if not found or [line for _, line in found] != indented:
        sys.exit("docs/REFUSALS.md: an indented line is no line of hexadecimal, or has no answer right before it")
    for stated, line in found:
        if answer(line.encode()) != stated:
            sys.exit(f"docs/REFUSALS.md states {stated} where the documents have {answer(line.encode())}: {line}")
    return found


def main():
    crate = Path("crates/hexadecimal")
    every = list(lines()) + [section.hex().upper().encode() for section in past()]
    page = of_page(Path("docs/REFUSALS.md").read_text())
    given = b"\n".join(every + [line.encode() for _, line in page])
    asked = "".join(said + "\n" for said in [answer(line) for line in every] + [stated for stated, _ in page])
    stored = {crate / "stdin": given, crate / "stdout": asked.encode()}
    if "--check" in sys.argv[1:]:
        others = [str(path) for path, text in stored.items() if path.read_bytes() != text]
        print(", ".join(others) + " differ: run tools/hexadecimal_lines.py" if others else "the stored lines are those of this tool and of docs/REFUSALS.md")
        return 1 if others else 0
    for path, text in stored.items():
        path.write_bytes(text)
    print(len(every) + len(page), "lines,", len(page), "of them those of docs/REFUSALS.md")
    return 0


if __name__ == "__main__":
    sys.exit(main())
