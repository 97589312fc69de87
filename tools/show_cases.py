#!/usr/bin/env python3
"""Makes what the program `show_cases` reads and what it must write, from docs/RULES.md alone.

  show_cases.py        writes crates/show_cases/stdin and crates/show_cases/stdout
  show_cases.py -n     only says how many frames there are

stdin is a record for each frame: its length in two bytes, low byte first, then the frame. stdout is the text of each
frame, then a line with two dashes."""
import os
import sys


def read(frame):
    """A refusal's number and place, or the lines of docs/RULES.md, "Reading" and "Text"."""
    n = len(frame)
    if n > 255:
        return 12, n
    if n < 12:
        return 1, n
    if frame[0] & 3 != 0:
        return 2, 0
    kind = frame[0] >> 5
    if kind > 5:
        return 3, 0
    if kind == 0:
        if n != 23:
            return 4, n
        return [
            "type 0",
            "app " + frame[1:9].hex(),
            "dev " + frame[9:17].hex(),
            "nonce " + frame[17:19].hex(),
            "mic " + frame[-4:].hex(),
        ]
    if kind == 1:
        if n not in (17, 33):
            return 4, n
        return ["type 1", "length %d" % n]
    header = 7 + frame[5] % 16
    if 5 + header > n:
        return 4, 5
    port = "%d" % frame[1 + header] if n >= header + 6 else "none"
    payload = "none" if n < header + 6 else "%d %d" % (header + 2, n - 4 - (header + 2))
    return [
        "type %d" % kind,
        "addr " + frame[1:5].hex(),
        "fctrl %02x" % frame[5],
        "fcnt %d" % (frame[6] + 256 * frame[7]),
        "fopts %d" % len(frame[8:1 + header]),
        "port " + port,
        "payload " + payload,
        "mic " + frame[-4:].hex(),
    ]


def text(frame):
    lines = read(frame)
    if isinstance(lines, tuple):
        lines = ["refused %d at %d" % lines]
    return "".join(line + "\n" for line in lines)


def some(n, first, start=0, **at):
    """n bytes that differ from place to place, the first as given, others as named b5=.., b8=.."""
    frame = bytearray((start + 37 * i + 11) % 256 for i in range(n))
    if n > 0:
        frame[0] = first
    for name, value in at.items():
        if int(name[1:]) < n:
            frame[int(name[1:])] = value
    return bytes(frame)


def frames():
    yield bytes.fromhex("40" "04030201" "00" "0500" "00" "aa" "11223344")
    # too short, and too long: both sides of 12 and of 255
    for n in (0, 1, 9, 10, 11, 12, 13):
        yield some(n, 0x40, b5=0)
    yield some(11, 0x43)
    for n in (254, 255, 256, 257, 300, 511, 512):
        yield some(n, 0x40, 5, b5=0x80)
    yield some(256, 0x43)
    # the version
    for first in (0x41, 0x42, 0x43, 0x01, 0x21, 0xC1, 0xE3):
        yield some(23, first)
    # the types that there are not
    for first in (0xC0, 0xE0, 0xDC, 0xFC):
        yield some(12, first)
        yield some(33, first)
    # bits 2 to 4 of byte 0 count for nothing
    for first in (0x5C, 0x44, 0x48, 0x50):
        yield some(12, first, b5=0)
    # join-requests: 23 bytes and no other number
    for n in (12, 17, 22, 23, 24, 33, 255):
        yield some(n, 0x00, 3)
    yield some(23, 0x1C, 200)
    yield bytes(23)
    yield bytes([0]) + bytes([255]) * 22
    # join-accepts: 17 or 33
    for n in (12, 16, 17, 18, 23, 32, 33, 34, 255):
        yield some(n, 0x20, 7)
    yield some(17, 0x3C)
    # data: every type, up and down, at the least length and with a port
    for first in (0x40, 0x60, 0x80, 0xA0):
        yield some(12, first, 9, b5=0x70)
        yield some(20, first, 90, b5=0xF1, b9=1)
    # 5 + H and H + 6: one byte less than the header needs, just enough, a byte for the port, a byte of payload
    for fopts in (0, 1, 2, 8, 14, 15):
        for n in range(11 + fopts, 16 + fopts):
            yield some(n, 0x80, fopts, b5=0x10 + fopts)
    # ports: 0 means commands, 255 is the last
    for port in (0, 1, 9, 10, 99, 100, 223, 224, 255):
        yield some(14, 0x60, b5=0, b8=port)
    # counters with one digit to five
    for count in (0, 9, 10, 99, 100, 999, 1000, 9999, 10000, 10001, 65535, 256, 255):
        yield some(14, 0x40, b5=0x20, b6=count % 256, b7=count // 256)
    # places and lengths of a payload with one digit to three
    for n in (22, 23, 24, 112, 113, 114, 255):
        yield some(n, 0xA0, 17, b5=0)
        yield some(n, 0xA0, 23, b5=0x0F)
    # FCtrl with every bit, and all bytes alike
    yield bytes([0x40]) + bytes([255]) * 30
    yield bytes([0x40]) + bytes(30)


def main():
    everything = list(frames())
    if sys.argv[1:] == ["-n"]:
        print(len(everything))
        return
    home = os.path.join(os.path.dirname(os.path.abspath(__file__)), "..", "crates", "show_cases")
    with open(os.path.join(home, "stdin"), "wb") as f:
        for frame in everything:
            f.write(bytes([len(frame) % 256, len(frame) // 256]) + frame)
    with open(os.path.join(home, "stdout"), "w", encoding="ascii", newline="\n") as f:
        for frame in everything:
            f.write(text(frame) + "--\n")


if __name__ == "__main__":
    main()
