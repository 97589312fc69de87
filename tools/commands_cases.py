#!/usr/bin/env python3
"""Makes what the program `commands_cases` reads and what it must write, from docs/RULES.md alone.

  commands_cases.py        writes crates/commands_cases/stdin and crates/commands_cases/stdout
  commands_cases.py -n     only says how many frames there are

stdin is a record for each frame: its length in two bytes, low byte first, a byte that is 1 where the payload on port 0 is
taken as decrypted and 0 where not, then the frame. stdout is the text of each frame, then a line with two dashes."""
import os
import sys

from show_cases import read, some

# A line for each command: its direction and identifier, its name, and its bytes (LoRaWAN 1.0.2, section 5). A comma ends a
# number of whole bytes, which stands low byte first; its fields go from its highest bits down, each with how many it has.
# `-` is a reserved field, `~` ahead of a name says that its bits are a number in two's complement.
TABLE = """
down 02 LinkCheckAns: margin 8, gateways 8
down 03 LinkADRReq: data_rate 4 tx_power 4, mask 16, - 1 control 3 transmissions 4
down 04 DutyCycleReq: - 4 max 4
down 05 RXParamSetupReq: - 1 rx1_offset 3 rx2_data_rate 4, frequency 24
down 06 DevStatusReq:
down 07 NewChannelReq: index 8, frequency 24, max_data_rate 4 min_data_rate 4
down 08 RXTimingSetupReq: - 4 delay 4
down 09 TxParamSetupReq: - 2 downlink_dwell 1 uplink_dwell 1 max_eirp 4
down 0A DlChannelReq: index 8, frequency 24
up 02 LinkCheckReq:
up 03 LinkADRAns: - 5 power 1 data_rate 1 mask 1
up 04 DutyCycleAns:
up 05 RXParamSetupAns: - 5 rx1_offset 1 rx2_data_rate 1 channel 1
up 06 DevStatusAns: battery 8, - 2 ~margin 6
up 07 NewChannelAns: - 6 range 1 frequency 1
up 08 RXTimingSetupAns:
up 09 TxParamSetupAns:
up 0A DlChannelAns: - 6 uplink 1 frequency 1
"""
UP, DOWN = (0x40, 0x80), (0x60, 0xA0)
UNKNOWN = (0x00, 0x01, 0x0B, 0x0C, 0x0D, 0x7F, 0x80, 0x82, 0xFF)


def commands_of(table):
    """By direction and identifier: the name, and the numbers, each a list of fields with their widths."""
    there = {}
    for line in table.strip().splitlines():
        head, _, layout = line.partition(":")
        direction, identifier, name = head.split()
        words = [number.split() for number in layout.split(",") if number.strip()]
        numbers = [[(w[i], int(w[i + 1])) for i in range(0, len(w), 2)] for w in words]
        there[direction, int(identifier, 16)] = name, numbers
    return there


COMMANDS = commands_of(TABLE)


def width(number):
    return sum(bits for _, bits in number)


def size(numbers):
    """How many bytes stand behind the identifier."""
    return sum(width(number) // 8 for number in numbers)


def fields(numbers):
    """The fields that are not reserved, and how many bits each has."""
    return [(name, bits) for number in numbers for name, bits in number if name != "-"]


def line_of(name, numbers, data):
    """The name, then each field with its value."""
    words = [name]
    for number in numbers:
        left, n = width(number), width(number) // 8
        value, data = int.from_bytes(data[:n], "little"), data[n:]
        for field, bits in number:
            left -= bits
            x = value >> left & (1 << bits) - 1
            if field.startswith("~") and x >> bits - 1:
                x -= 1 << bits
            if field != "-":
                words += [field.lstrip("~"), str(x)]
    return " ".join(words)


def list_lines(direction, frame, start, end):
    """A line for each command of the bytes start..end, and for the fault that ends them."""
    while start < end:
        if (direction, frame[start]) not in COMMANDS:
            yield "refused 16 at %d" % start
            return
        name, numbers = COMMANDS[direction, frame[start]]
        following = start + 1 + size(numbers)
        if following > end:
            yield "refused 17 at %d" % start
            return
        yield "%d %s" % (start, line_of(name, numbers, frame[start + 1:following]))
        start = following


def lines(frame, clear):
    refusal = read(frame)
    if isinstance(refusal, tuple):
        return ["refused %d at %d" % refusal]
    if frame[0] >> 5 < 2:
        return ["refused 4 at 0"]
    direction = "down" if frame[0] >> 5 & 1 else "up"
    fopts_end = 8 + frame[5] % 16
    start, end = fopts_end + 1, len(frame) - 4
    shown = ["direction " + direction, "fopts %d" % (fopts_end - 8), *list_lines(direction, frame, 8, fopts_end)]
    if start <= end and frame[fopts_end] == 0:
        if clear:
            shown += ["payload %d" % (end - start), *list_lines(direction, frame, start, end)]
        else:
            shown += ["payload encrypted"]
    return shown


def text(frame, clear):
    return "".join(line + "\n" for line in lines(frame, clear))


def bytes_of(direction, identifier, values):
    """The command with these values by the names of its fields, 0 where none is given; `-` names all reserved ones."""
    out = bytes([identifier])
    for number in COMMANDS[direction, identifier][1]:
        value = 0
        for field, bits in number:
            value = value << bits | values.get(field, 0) & (1 << bits) - 1
        out += value.to_bytes(width(number) // 8, "little")
    return out


def greatest(direction, identifier):
    """The command with every bit set that is not reserved."""
    return bytes_of(direction, identifier, {name: -1 for name, _ in fields(COMMANDS[direction, identifier][1])})


def framed(first, fopts=b"", port=None, payload=b"", fctrl=0):
    head = bytes([first, 4, 3, 2, 1, fctrl + len(fopts), 5, 0])
    return head + fopts + (b"" if port is None else bytes([port])) + payload + bytes([0x11, 0x22, 0x33, 0x44])


def both(frame):
    """The frame as it comes from the air, and decrypted."""
    yield frame, False
    yield frame, True


def listed(first, data):
    """The list in FOpts, where it fits, and on port 0."""
    if len(data) < 16:
        yield framed(first, data), False
    yield framed(first, b"", 0, data), True


def edges(bits):
    """Values of a field: of a short one all, of another 0, the greatest, and some in between."""
    most = (1 << bits) - 1
    return range(most + 1) if bits <= 4 else (0, 1, most // 3, most // 2, most // 2 + 1, most - 1, most)


def every_value(direction, identifier):
    """The command at each edge of each field, the other fields at values that differ from one another."""
    there = fields(COMMANDS[direction, identifier][1])
    others = {name: 37 * k + 11 for k, (name, _) in enumerate(there)}
    for name, bits in there:
        for x in edges(bits):
            yield bytes_of(direction, identifier, {**others, name: x})


def several(commands, most):
    """The commands one after the other, as many to a list as fit into so many bytes."""
    run = b""
    for command in commands:
        if len(run + command) > most:
            yield run
            run = b""
        run += command
    if run:
        yield run


def values():
    """Every command with every field, alone and in lists, with its reserved bits set; every margin."""
    for direction, identifier in COMMANDS:
        least, reserved = (bytes_of(direction, identifier, values) for values in ({}, {"-": -1}))
        most = greatest(direction, identifier)
        for first in UP if direction == "up" else DOWN:
            for data in (least, most, reserved):
                yield from both(framed(first, data))
                yield from both(framed(first, b"", 0, data))
            for data in several(every_value(direction, identifier), 15):
                yield framed(first, data), False
            for data in several(every_value(direction, identifier), 242):
                yield framed(first, b"", 0, data), True
    margins = [bytes_of("up", 6, {"battery": 224 + m, "~margin": m}) for m in range(-32, 32)]
    yield framed(0x40, b"", 0, b"".join(margins)), True
    for battery, margin in ((0, -32), (255, 31), (0, 0), (255, -1), (9, 9), (10, -9), (99, 10), (100, -10)):
        yield from listed(0x80, bytes_of("up", 6, {"battery": battery, "~margin": margin}))


def faults():
    """An unknown identifier, and each cut of each command, alone and behind commands, in each list."""
    for first, direction, some_ahead in ((0x40, "up", "020608f904"), (0xA0, "down", "060206ff0403")):
        for ahead in (b"", bytes.fromhex(some_ahead)):
            for unknown in UNKNOWN:
                yield from listed(first, ahead + bytes([unknown]))
                yield from listed(first, ahead + bytes([unknown]) + ahead)
            for identifier in range(2, 11):
                whole = greatest(direction, identifier)
                for cut in range(1, len(whole)):
                    yield from listed(first, ahead + whole[:cut])


def mixed():
    """All commands of a direction in one frame, in both lists at once; a fault in one of the two; the longest lists."""
    for first, direction, short in ((0x40, "up", b"\x08"), (0x60, "down", b"\x06"), (0x80, "up", b"\x02"), (0xA0, "down", b"\x06")):
        commands = [greatest(direction, identifier) for identifier in range(2, 11)]
        payload = b"".join(commands)
        for fopts in several(commands, 14):
            yield from both(framed(first, fopts, 0, payload))
            yield from both(framed(first | 0x1C, fopts, 0, payload[:-1] + b"\x0d", 0xF0))
            yield from both(framed(first, fopts + b"\x0d", 0, payload))
        yield from both(framed(first, short * 15))
        yield from both(framed(first, short * 15, 0, short * 227))
    for first, short, last in ((0x40, b"\x04", b"\x09"), (0x80, b"\x08", b"\x0d"), (0x60, b"\x06", b"\x06"), (0xA0, b"\x06", b"\x03")):
        yield from both(framed(first, b"", 0, short * 241 + last))


def ports():
    """No port, other ports, and port 0 with and without a payload, behind FOpts of commands and of faults."""
    for first in UP + DOWN:
        for fopts in (b"", b"\x04\x04", b"\x09\x00"):
            yield from both(framed(first, fopts))
            for port in (0, 1, 255):
                for payload in (b"", b"\x04", b"\x02\x02"):
                    yield from both(framed(first, fopts, port, payload))


def refused():
    """Frames that the reader refuses, with those on the other side of each limit, and join messages."""
    for n in (0, 1, 8, 11, 12, 13):
        yield some(n, 0x40, b5=0)
    for n in (254, 255, 256, 257, 300, 511, 512):
        yield some(n, 0x60, 5, b5=0x8F, b8=6, b9=6)
    yield some(256, 0x43)
    for first in (0x41, 0x62, 0x83, 0xC1, 0x01, 0x21):
        yield some(23, first)
    for first in (0xC0, 0xE0, 0xFC):
        yield some(17, first)
    for n in (12, 17, 22, 23, 24, 33):
        yield some(n, 0x00)
        yield some(n, 0x20)
    for fopts in (1, 2, 15):
        for n in range(11 + fopts, 15 + fopts):
            yield some(n, 0x80, fopts, b5=0x30 + fopts, b8=6)


def cases():
    # the example of docs/RULES.md
    yield from both(framed(0x40, bytes.fromhex("0306" "06ff39"), 0, b"\x02"))
    for made in (values, faults, mixed, ports):
        yield from made()
    for frame in refused():
        yield from both(frame)


def main():
    everything = list(cases())
    if sys.argv[1:] == ["-n"]:
        print(len(everything))
        return
    home = os.path.join(os.path.dirname(os.path.abspath(__file__)), "..", "crates", "commands_cases")
    with open(os.path.join(home, "stdin"), "wb") as f:
        for frame, clear in everything:
            f.write(bytes([len(frame) % 256, len(frame) // 256, clear]) + frame)
    with open(os.path.join(home, "stdout"), "w", encoding="ascii", newline="\n") as f:
        for frame, clear in everything:
            f.write(text(frame, clear) + "--\n")


if __name__ == "__main__":
    main()
