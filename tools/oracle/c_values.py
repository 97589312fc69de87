#!/usr/bin/env python3
"""Writes host/c/expected.h: what host/c/every_call.c lends to each call of the C interface, and what must come of it.

Run: python3 tools/oracle/c_values.py. All that is computed here is computed by oracle.py; the codec is not asked.
"""

import pathlib

import generate
import oracle
import records

HEADER = pathlib.Path(__file__).resolve().parent.parent.parent / "host" / "c" / "expected.h"
NETWORK, APPLICATION = generate.DOCUMENTED_NETWORK_KEY, generate.DOCUMENTED_APPLICATION_KEY
DATA, REQUEST, ACCEPT = generate.DOCUMENTED_DATA, generate.DOCUMENTED_JOIN_REQUEST, generate.DOCUMENTED_JOIN_ACCEPT

# A confirmed frame down with commands as its payload, and an unconfirmed one down with FOpts and text.
DOWN_FIELDS = oracle.DataFields(True, False, bytes.fromhex("112233f4"), 0x30, 0x0001FFFE, 0)
DOWN_COMMANDS = bytes(range(17))
FOPTS_FIELDS = oracle.DataFields(False, False, bytes.fromhex("00ff00fe"), 0x90, 0xFFFFFFFE, 200)
FOPTS_COMMANDS, FOPTS_PAYLOAD = b"\2\3", b"twenty bytes of text"
BARE_FIELDS = oracle.DataFields(False, True, bytes(4), 0, 0, None)
LONGEST_FIELDS = oracle.DataFields(True, True, bytes.fromhex("04030201"), 0, 1, 1)

# Every command up and every one down, by identifiers; numbers that no command has; the largest offset.
LIST_UP = bytes.fromhex("02 0305 04 0502 06ff39 0702 08 09 0a01")
LIST_DOWN = bytes.fromhex("021407 035201ff71 040b 05634ea284 06 07083a86a152 080c 092d 0a03f07684")
UNKNOWN = (0, 1, 11, 13, 128, 255, 256 + 2, 2**32 + 2, -1, -(2**31), -(2**63), 2**63 - 1)
LARGEST = 2**64 - 1

# By number; 0 refuses nothing.
NAMES = """none InvalidPayload UnsupportedMajorVersion InvalidMessageType InvalidData InvalidMic InvalidKey
    BufferTooShort InvalidChannelList MacCommandTooBigForFOpts DataAndMacCommandsInPayloadNotAllowed
    FRMPayloadWithFportZero FrameTooLong FOptsLenSet CounterMismatch OffsetOutside UnknownCommand CommandCutShort
    ValueOutOfRange""".split()

PREAMBLE = """\
/* Written by tools/oracle/c_values.py, from the rules and over OpenSSL: what every_call.c lends, and what must come of it. */
#ifndef EXPECTED_H
#define EXPECTED_H

#include <stddef.h>
#include <stdint.h>
"""

READING = """
/* A frame, its reading as one number, and the fields that are taken out of that; of a refused frame number and place alone. */
struct reading {
    const char *what;
    const uint8_t *frame;
    size_t len;
    uint64_t reading;
    uint64_t refusal, place, type, has_port, port, payload_kind, payload_at, payload_len, mic_at, fctrl, fopts_len, fcnt;
};
"""

COMMAND_READ = """
/* A step of reading a list: what it answers and, where that is a command (a low byte of 0 and more above it), the command that is
 * stored; else nothing is. */
struct command_read {
    const char *what;
    uint8_t uplink;
    const uint8_t *bytes;
    size_t len, offset;
    uint64_t answer;
    int64_t command[6];
};
"""

COMMAND_WRITTEN = """
/* A command written at an offset of a slice that is filled with 0xa5: what it answers, and the whole slice afterwards. */
struct command_written {
    const char *what;
    uint8_t uplink;
    int64_t command[6];
    size_t offset;
    uint64_t answer;
    size_t len;
    uint8_t out[10];
};
"""


def array(name, value, comment):
    """A constant array, sixteen bytes to a line; C fills it up with the zeros at its end."""
    written = value.rstrip(b"\0") or b"\0"
    lines = [", ".join(f"0x{b:02x}" for b in written[i : i + 16]) for i in range(0, len(written), 16)]
    return f"\n/* {comment} */\nstatic const uint8_t {name}[{len(value)}] = {{\n    " + ",\n    ".join(lines) + "};\n"


def fields(frame):
    """What the inline functions of the header take out of a reading, in the order of the struct above."""
    try:
        reading = oracle.read(frame)
    except oracle.Refused as refused:
        return [*refused.refusal] + [0] * 10
    if not isinstance(reading, oracle.Data):
        mic = len(frame) - 4
        return [*oracle.ACCEPTED, reading.mtype, 0, 0, 0, mic, 0, mic, 0, 0, 0]
    at, end = reading.payload or (len(frame) - 4, len(frame) - 4)
    kind = 0 if reading.payload is None else 2 if reading.commands else 1
    has_port, port = int(reading.port is not None), reading.port or 0
    header = [reading.fctrl, reading.fctrl % 16, reading.fcnt]
    return [*oracle.ACCEPTED, reading.mtype, has_port, port, kind, at, end - at, end, *header]


def packed(values):
    """The number that the header's table of bits makes of them."""
    refusal, place, mtype, has_port, port, kind, at, _, mic, fctrl, _, fcnt = values
    if refusal:
        return place % 2**56 << 8 | refusal
    return mtype << 8 | has_port << 11 | kind << 12 | port << 16 | at << 24 | mic << 32 | fctrl << 40 | fcnt << 48


def reading_row(what, name, frame):
    values = fields(frame)
    listed = ", ".join(str(v) for v in values)
    return f'    {{"{what}", {name}, {len(frame)}, 0x{packed(values):016x}, {listed}}},\n'


def build(of, commands, payload):
    return oracle.build_data(of, commands, payload, NETWORK, APPLICATION, 255)


def clear_accept(rest):
    """A clear join-accept with these bytes behind the first, under the documented key."""
    message = bytes([0x20]) + rest
    return message + oracle.mic(generate.DOCUMENTED_APP_KEY, message)


def accept_fields(frame):
    said = oracle.read_clear_join_accept(frame)
    fixed = b"".join(frame[slice(*p)] for p in (said.app_nonce, said.net_id, said.dev_addr))
    kind = 1 if said.channels else 2 if said.masks else 0
    masks = frame[slice(*said.masks)] if said.masks else bytes(9)
    frequencies = b"".join(c.to_bytes(4, "little") for c in said.channels or [0] * 5)
    return fixed + bytes([said.dl_settings, said.rx_delay, kind]) + masks + frequencies


def join_messages():
    clear = oracle.decrypt_join_accept(generate.DOCUMENTED_APP_KEY, ACCEPT)
    row_1 = bytes([1] * 3), bytes([1] * 3), bytes([1] * 4), 2, 1
    listed = oracle.build_join_accept(*row_1, [8678000, 8676000], bytes([1] * 16), 33)
    listed_clear = oracle.decrypt_join_accept(bytes([1] * 16), listed)
    masks = clear_accept(bytes(range(1, 11)) + b"\x47\xf5" + bytes(range(0xC0, 0xCF)) + b"\1")
    keys = oracle.session_keys(generate.DOCUMENTED_APP_KEY, generate.DOCUMENTED_DEV_NONCE, clear)
    return [
        ("APP_KEY", generate.DOCUMENTED_APP_KEY, "the AppKey of ACCEPT and MASKS_CLEAR"),
        ("REQUEST", REQUEST, "the join-request of the crate's documentation, under APP"),
        ("REQUEST_FIELDS", records.request_fields(REQUEST), "its fields"),
        ("ACCEPT", ACCEPT, "the join-accept of the crate's documentation"),
        ("ACCEPT_CLEAR", clear, "decrypted"),
        ("ACCEPT_FIELDS", accept_fields(clear), "its fields: no list"),
        ("DEV_NONCE", generate.DOCUMENTED_DEV_NONCE, "the nonce of its session"),
        ("SESSION_KEYS", keys[0] + keys[1], "the keys of its session"),
        ("LISTED", listed, "docs/DIFFERENCES.md, row 1, under APP"),
        ("LISTED_CLEAR", listed_clear, "decrypted"),
        ("LISTED_FIELDS", accept_fields(listed_clear), "its fields: two frequencies"),
        ("MASKS_CLEAR", masks, "a clear join-accept with nine masks, RxDelay 0xf5, under APP_KEY"),
        ("MASKS_FIELDS", accept_fields(masks), "its fields"),
    ]


def data_frames():
    bare, down = build(BARE_FIELDS, b"", b""), build(DOWN_FIELDS, DOWN_COMMANDS, b"")
    fopts = build(FOPTS_FIELDS, FOPTS_COMMANDS, FOPTS_PAYLOAD)
    port_alone, no_commands = (build(BARE_FIELDS._replace(port=port), b"", b"") for port in (9, 0))
    return [
        ("NWK", NETWORK, "the network key of all data frames here"),
        ("APP", APPLICATION, "their application key"),
        ("DATA", DATA, "the data frame of the crate's documentation: counter 1, port 1, hello"),
        ("DATA_CLEAR", oracle.decrypt_data(NETWORK, APPLICATION, 1, DATA), "decrypted"),
        ("DOWN", down, "confirmed down, counter 0x1fffe, commands on port 0"),
        ("DOWN_CLEAR", oracle.decrypt_data(NETWORK, None, 0x0001FFFE, down), "decrypted"),
        ("DOWN_ADDR", DOWN_FIELDS.dev_addr, "its address"),
        ("DOWN_COMMANDS", DOWN_COMMANDS, "its commands"),
        ("FOPTS", fopts, "unconfirmed down, counter 0xfffffffe, FOpts, port 200"),
        ("FOPTS_ADDR", FOPTS_FIELDS.dev_addr, "its address"),
        ("FOPTS_COMMANDS", FOPTS_COMMANDS, "its commands"),
        ("FOPTS_PAYLOAD", FOPTS_PAYLOAD, "its payload"),
        ("BARE", bare, "up, counter 0, neither port nor payload"),
        ("PORT_ALONE", port_alone, "the same with port 9 and no payload behind it"),
        ("NO_COMMANDS", no_commands, "the same with port 0 and no command behind it"),
        ("LONGEST", build(LONGEST_FIELDS, b"", bytes(242)), "confirmed up, counter 1, port 1, 242 zeros: 255 bytes"),
        ("VERSION", bytes([0x41]) + bytes(11), "docs/RULES.md: version 1"),
        ("TYPE_6", bytes([0xC0]) + bytes(11), "type 6"),
        ("HEADER_SHORT", bytes([0x40, 0, 0, 0, 0, 1]) + bytes(6), "FOpts that are not there"),
        ("LONG", bytes([0x40] * 256), "256 bytes"),
        ("LONGER", bytes([0x40]) + bytes(69999), "70,000 bytes"),
    ]


def held_frames():
    jello = oracle.amend_all(NETWORK, APPLICATION, 1, DATA, [(0, ord("j"))])[2]
    jelly = oracle.amend_all(NETWORK, APPLICATION, 1, DATA, [(0, ord("j")), (3, ord("l")), (4, ord("y"))])[2]
    hold = lambda frame: oracle.held_bytes(NETWORK, APPLICATION, 1, frame)
    return [
        ("JELLO", jello, "DATA with the first byte of its payload set to j, built afresh"),
        ("JELLY", jelly, "and with l and y at offsets 3 and 4"),
        ("HELD_DATA", hold(DATA), "the bytes that hold DATA open (docs/RULES.md, Amendments)"),
        ("HELD_JELLO", hold(jello), "JELLO held open"),
        ("HELD_JELLY", hold(jelly), "JELLY held open"),
        ("HELD_BARE", oracle.held_bytes(NETWORK, APPLICATION, 0, build(BARE_FIELDS, b"", b"")), "BARE held open"),
        ("HELD_LONGEST", hold(build(LONGEST_FIELDS, b"", bytes(242))), "LONGEST held open"),
        ("HELD_NOTHING", bytes(868), "a buffer that holds a frame of no bytes"),
    ]


def six_numbers(command):
    """A command as C has it: its identifier and five values, zeros behind the last."""
    return [command.identifier, *command.values] + [0] * (5 - len(command.values))


def in_braces(values):
    return "{" + ", ".join(int_literal(value) for value in values) + "}"


def int_literal(value):
    """The least number of 64 bits has no name of its own in C."""
    return "INT64_MIN" if value == -(2**63) else str(value)


def command_lists():
    """Each with its direction."""
    return [
        (1, "LIST_UP", LIST_UP, "every command that goes up"),
        (0, "LIST_DOWN", LIST_DOWN, "every command that goes down"),
        (1, "RESERVED_UP", bytes.fromhex("03fd 05fa 0600f9 07fd 0afe"), "commands up with every reserved bit set"),
        (0, "RESERVED_DOWN", bytes.fromhex("03000000af 04f5 0593000000 08f1 09e5"), "and commands down"),
        (1, "LIST_UNKNOWN", bytes.fromhex("02040b0203"), "commands up ahead of an unknown identifier"),
        (0, "LIST_0D", bytes.fromhex("060d"), "a command down, then an identifier of a later version as the last byte"),
    ]


def step_answer(uplink, data, offset):
    """What a step answers as one number, and the command that it stores, or zeros."""
    try:
        command = oracle.read_command(uplink, data, offset)
    except oracle.Refused as refused:
        return refused.refusal.place << 8 | refused.refusal.number, [0] * 6
    return (0, [0] * 6) if command is None else (command.end << 8, six_numbers(command))


def step_row(what, uplink, name, data, offset):
    """A step at an offset; 1 alone is up."""
    answer, command = step_answer(uplink == 1, data, offset)
    return f'    {{"{what}", {uplink}, {name}, {len(data)}, 0x{offset:x}, 0x{answer:04x}, {in_braces(command)}}},\n'


def whole_list(uplink, name, data):
    """The steps from the start, one after the other, and the last one."""
    commands, refusal = oracle.read_commands(uplink == 1, data)
    end = refusal.place if refusal.number else len(data)
    offsets = [command.start for command in commands] + [end]
    return [step_row(f"{name} at {offset}", uplink, name, data, offset) for offset in offsets]


def each_cut(uplink, name, data):
    """Every command of a list without its last byte."""
    commands, _ = oracle.read_commands(uplink == 1, data)
    cuts = [(command.start, command.end - 1) for command in commands if command.end > command.start + 1]
    return [step_row(f"{name} cut at {end}", uplink, name, data[:end], start) for start, end in cuts]


def commands_read():
    rows = []
    for uplink, name, data, _ in command_lists():
        rows += whole_list(uplink, name, data)
    rows += each_cut(1, "LIST_UP", LIST_UP) + each_cut(0, "LIST_DOWN", LIST_DOWN)
    rows += [step_row(f"direction {number}", number, "LIST_DOWN", LIST_DOWN, 3) for number in (2, 255)]
    rows += [step_row("past the end", 1, "LIST_UP", LIST_UP, offset) for offset in (len(LIST_UP) + 1, 2**32, LARGEST)]
    rows += [step_row("no byte", 1, "LIST_UP", b"", offset) for offset in (0, 1, LARGEST)]
    return COMMAND_READ + "\nstatic const struct command_read COMMANDS_READ[] = {\n" + "".join(rows) + "};\n"


def write_row(what, uplink, command, room, offset):
    """A command of six numbers, written at an offset of so many bytes; 1 alone is up."""
    out = bytes([records.FILL]) * room
    try:
        out, end = oracle.write_command(uplink == 1, command[0], command[1:], out, offset)
        answer = end << 8
    except oracle.Refused as refused:
        answer = refused.refusal.number
    numbers, after = in_braces(command), in_braces(out or [0])
    return f'    {{"{what}", {uplink}, {numbers}, 0x{offset:x}, 0x{answer:04x}, {room}, {after}}},\n'


def each_written(uplink, data):
    """Every command of a list into just enough room, between other bytes, and into one byte too few."""
    rows = []
    for command in oracle.read_commands(uplink == 1, data)[0]:
        name, numbers = oracle.layout_of(uplink == 1, command.identifier).name, six_numbers(command)
        length = command.end - command.start
        rows.append(write_row(name, uplink, numbers, length, 0))
        rows.append(write_row(f"{name} between bytes", uplink, numbers, length + 4, 2))
        rows.append(write_row(f"{name} without room", uplink, numbers, length + 1, 2))
    return rows


def each_limit(uplink, layouts):
    """Every field at the least and the largest value that it holds, and beyond each, by 32 bits too; the other fields are 0."""
    rows = []
    for identifier, found in layouts.items():
        for place, field in enumerate(found.fields):
            held = oracle.values_held(field)
            for value in (held[0] - 1, held[0], held[-1], held[-1] + 1, 2**32):
                values = [0] * place + [value] + [0] * (4 - place)
                what = f"{found.name}, {field.name} {value}"
                rows.append(write_row(what, uplink, [identifier, *values], 1 + found.length, 0))
    return rows


def orders_of_refusal():
    """16 ahead of 18 ahead of 7; values that the command lacks, which are not looked at; offsets past the end."""
    beyond = [-1] * 5
    rows = [write_row("unknown", way, [number, *beyond], 0, 0) for way in (0, 1) for number in UNKNOWN]
    rows += [write_row("value ahead of room", 1, [3, 2, 0, 0, 0, 0], 0, 0)]
    rows += [write_row("value ahead of room", 0, [8, 16, 0, 0, 0, 0], 1, LARGEST)]
    rows += [write_row("values of no field", 1, [6, 255, -7, -1, 2**63 - 1, -(2**63)], 3, 0)]
    rows += [write_row("values of no field", 0, [6, *beyond], 1, 0)]
    rows += [write_row("direction 255", 255, [2, 20, 7, 0, 0, 0], 3, 0)]
    rows += [write_row("outside", 1, [2, *beyond], 1, offset) for offset in (1, 2, 2**32, LARGEST)]
    rows += [write_row("outside", 0, [2, 20, 7, 0, 0, 0], 9, offset) for offset in (7, 9, LARGEST - 2, LARGEST)]
    return rows


def commands_written():
    rows = each_written(1, LIST_UP) + each_written(0, LIST_DOWN)
    rows += each_limit(1, oracle.UP) + each_limit(0, oracle.DOWN) + orders_of_refusal()
    return COMMAND_WRITTEN + "\nstatic const struct command_written COMMANDS_WRITTEN[] = {\n" + "".join(rows) + "};\n"


def readings(arrays):
    frames = {name: value for name, value, _ in arrays}
    good = "DATA DOWN FOPTS BARE PORT_ALONE NO_COMMANDS LONGEST REQUEST ACCEPT LISTED"
    bad = "VERSION TYPE_6 HEADER_SHORT LONG LONGER"
    cuts = [("no byte", "DATA", 0), ("eleven bytes", "DATA", 11), ("a join-request cut short", "REQUEST", 22)]
    cuts += [("a join-accept cut short", "ACCEPT", 16), ("a longer one cut short", "LISTED", 32)]
    rows = [reading_row(name, name, frames[name]) for name in f"{good} {bad}".split()]
    rows += [reading_row(what, name, frames[name][:length]) for what, name, length in cuts]
    return "\nstatic const struct reading READINGS[] = {\n" + "".join(rows) + "};\n"


def nwk_ids():
    addresses = [bytes.fromhex(a) for a in ("04030201", "112233f4", "00ff00fe", "fefefe01", "000000ff", "ffffff00")]
    rows = "".join(f"    {{{{{', '.join(map(str, a))}}}, {oracle.nwk_id(a)}}},\n" for a in addresses)
    head = "\n/* Addresses in frame order, and their NwkID. */\n"
    return head + "static const struct { uint8_t addr[4], nwk_id; } NWK_IDS[] = {\n" + rows + "};\n"


def names():
    rows = "".join(f'    "{name}",\n' for name in NAMES)
    head = "\n/* The names of the refusals by their numbers (docs/RULES.md, Refusals); 0 refuses nothing. */\n"
    return head + "static const char *const NAMES[] = {\n" + rows + "};\n"


def text():
    arrays = data_frames() + join_messages() + held_frames()
    parts = [array(*entry) for entry in arrays + [(name, *rest) for _, name, *rest in command_lists()]]
    parts += [READING, readings(arrays), nwk_ids(), commands_read(), commands_written(), names()]
    return PREAMBLE + "".join(parts) + "\n#endif\n"


if __name__ == "__main__":
    HEADER.write_text(text())
