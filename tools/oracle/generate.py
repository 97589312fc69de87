"""Writes the case files and their right answers: the same seed, the same files.

Run: python3 tools/oracle/generate.py [seed [folder]]; the recorded files are those of the default seed, in out/.
"""

import itertools
import pathlib
import random
import sys

import oracle
import records
from records import (
    AMEND,
    AMEND_LENT,
    BUILD_DATA,
    BUILD_JOIN_ACCEPT,
    BUILD_JOIN_REQUEST,
    DECRYPT_DATA,
    DECRYPT_DATA_CHECKED,
    DECRYPT_JOIN_ACCEPT,
    DECRYPT_JOIN_ACCEPT_CHECKED,
    FRAME_COMMANDS,
    HOLD,
    MIC_DATA,
    MIC_JOIN_ACCEPT,
    MIC_JOIN_REQUEST,
    READ,
    READ_CLEAR_JOIN_ACCEPT,
    READ_COMMANDS,
    READ_JOIN_REQUEST,
    SESSION_KEYS,
    WRITE_COMMAND,
)

SEED = 20100
PAYLOADS = (0, 1, 15, 16, 17, 32, 240, 241, 242)
PORTS = (0, 1, 255)
COUNTERS = (0, 1, 65534, 65535, 65536, 65537, 131071, 131072, 0xFFFEFFFF, 0xFFFF0000, 0xFFFFFFFE, 0xFFFFFFFF)
FIRST_BYTES = (0x40, 0x60, 0x80, 0xA0)

# The frames of the crate's own documentation, with the keys that it gives them there.
DOCUMENTED_JOIN_REQUEST = bytes.fromhex("00040302010403020105040302050403022d106a990e12")
DOCUMENTED_JOIN_ACCEPT = bytes.fromhex("20493eeb51fba2116f810edb3742975142")
DOCUMENTED_APP_KEY = bytes.fromhex("00112233445566778899aabbccddeeff")
DOCUMENTED_DEV_NONCE = bytes.fromhex("ccdd")
DOCUMENTED_DATA = bytes.fromhex("400403020180010001a694642615d6c3b582")
DOCUMENTED_NETWORK_KEY = bytes([2] * 16)
DOCUMENTED_APPLICATION_KEY = bytes([1] * 16)


class Source:
    """Bytes and numbers that the seed decides."""

    def __init__(self, seed):
        self.random = random.Random(seed)

    def bytes(self, length):
        return bytes(self.random.getrandbits(8) for _ in range(length))

    def key(self):
        return self.bytes(16)

    def counter(self):
        return self.random.getrandbits(32)

    def byte(self):
        return self.random.getrandbits(8)

    def pick(self, values):
        return values[self.random.getrandbits(16) % len(values)]


def flipped(data, place, bit=0):
    return data[:place] + bytes([data[place] ^ 1 << bit]) + data[place + 1 :]


def sealed(source, keys, first, counter, fopts=0, port=None, payload=0, high=None):
    """A good data frame; lengths of FOpts and payload are given, their bytes are drawn."""
    fctrl = (source.byte() & 0xF0 if high is None else high) + fopts
    head = bytes([first]) + source.bytes(4) + bytes([fctrl]) + (counter % 65536).to_bytes(2, "little")
    tail = b"" if port is None else bytes([port]) + source.bytes(payload)
    return oracle.seal_data(head + source.bytes(fopts) + tail, *keys, counter)


# ---- read: places and numbers -----------------------------------------------------------------------------------


def each_first_byte(source):
    """Each value of byte 0, at lengths that suit some type and at those that suit none."""
    for first in range(256):
        for length in (12, 17, 23, 33) if first % 4 == 0 else (source.pick((11, 12, 17, 23)),):
            yield READ, [bytes([first]) + source.bytes(4) + bytes([source.byte() & 0xF0]) + source.bytes(length - 6)]


def each_length(source):
    """Each length from 0 to 40 and around 255, for each type; every byte but the first is drawn."""
    for mtype, length in itertools.product(range(8), (*range(41), 254, 255, 256, 257)):
        if length <= 40 or mtype in (0, 2):
            yield READ, [(bytes([mtype << 5]) + source.bytes(length))[:length]]


def each_header_length(source):
    """Around the end of the header: FOpts, port and payload come and go; port 0 and another."""
    for fopts, past in itertools.product(range(16), range(-1, 4)):
        for port in (0, 1):
            head = bytes([source.pick(FIRST_BYTES)]) + source.bytes(4) + bytes([(source.byte() & 0xF0) + fopts])
            tail = source.bytes(2 + fopts) + bytes([port]) + source.bytes(8)
            yield READ, [(head + tail)[: 12 + fopts + past]]


def clear_join_accepts(source):
    for length, list_type in itertools.product((17, 33), (0, 1, 2, 255)):
        for first in (0x20, 0x3C):
            clear = bytes([first]) + source.bytes(length - 1)
            yield READ_CLEAR_JOIN_ACCEPT, [clear[:28] + bytes([list_type]) + clear[29:] if length == 33 else clear]
    for first, length in ((0, 0), (0x21, 17), (0xC0, 17), (0x20, 18), (0x00, 23), (0x40, 17), (0x20, 256)):
        yield READ_CLEAR_JOIN_ACCEPT, [(bytes([first]) + bytes(length))[:length]]


def join_request_fields(source):
    yield READ_JOIN_REQUEST, [DOCUMENTED_JOIN_REQUEST]
    for first in (0x00, 0x04, 0x1C):
        yield READ_JOIN_REQUEST, [bytes([first]) + source.bytes(22)]


def read(seed):
    source = Source(seed + 3)
    yield READ, [DOCUMENTED_JOIN_REQUEST]
    yield READ, [DOCUMENTED_JOIN_ACCEPT]
    yield READ, [DOCUMENTED_DATA]
    yield READ, [bytes.fromhex("4004030201000500 00aa11223344")]
    yield from each_first_byte(source)
    yield from each_length(source)
    yield from each_header_length(source)
    yield from clear_join_accepts(source)
    yield from join_request_fields(source)


# ---- opened: MIC tests, decryption, session keys ---------------------------------------------------------------


def documented():
    clear = oracle.decrypt_join_accept(DOCUMENTED_APP_KEY, DOCUMENTED_JOIN_ACCEPT)
    yield MIC_JOIN_REQUEST, [bytes([1] * 16), DOCUMENTED_JOIN_REQUEST]
    yield DECRYPT_JOIN_ACCEPT, [DOCUMENTED_APP_KEY, DOCUMENTED_JOIN_ACCEPT]
    yield DECRYPT_JOIN_ACCEPT_CHECKED, [DOCUMENTED_APP_KEY, DOCUMENTED_JOIN_ACCEPT]
    yield DECRYPT_JOIN_ACCEPT_CHECKED, [bytes([2] * 16), DOCUMENTED_JOIN_ACCEPT]
    yield MIC_JOIN_ACCEPT, [DOCUMENTED_APP_KEY, clear]
    yield SESSION_KEYS, [DOCUMENTED_APP_KEY, DOCUMENTED_DEV_NONCE, clear]
    yield MIC_DATA, [DOCUMENTED_NETWORK_KEY, 1, DOCUMENTED_DATA]
    yield DECRYPT_DATA, [None, DOCUMENTED_APPLICATION_KEY, 1, DOCUMENTED_DATA]
    yield DECRYPT_DATA_CHECKED, [DOCUMENTED_NETWORK_KEY, DOCUMENTED_APPLICATION_KEY, 1, DOCUMENTED_DATA]


def data_of_each_length(source):
    """Every type, payload length and port, with a good MIC: plain, checked, and the MIC alone."""
    counters = itertools.cycle(COUNTERS)
    for first, length, port in itertools.product(FIRST_BYTES, PAYLOADS, PORTS):
        keys, counter = (source.key(), source.key()), next(counters)
        frame = sealed(source, keys, first, counter, port=port, payload=length)
        yield DECRYPT_DATA, [*keys, counter, frame]
        yield DECRYPT_DATA_CHECKED, [*keys, counter, frame]
        if port == 1:
            yield MIC_DATA, [keys[0], counter, frame]


def data_with_fopts(source):
    """FOpts of 0, 1 and 15 bytes: no port, a port with nothing behind it, one byte, and up to 255 bytes."""
    for first, fopts in itertools.product(FIRST_BYTES, (0, 1, 15)):
        for port, length in ((None, 0), (0, 0), (9, 0), (0, 1), (200, 242 - fopts)):
            keys, counter = (source.key(), source.key()), source.counter()
            frame = sealed(source, keys, first, counter, fopts, port, length)
            yield MIC_DATA, [keys[0], counter, frame]
            if length < 2:
                yield DECRYPT_DATA, [*keys, counter, frame]
            yield DECRYPT_DATA_CHECKED, [*keys, counter, frame]


def keys_given_or_not(source):
    for port, length in ((None, 0), (0, 0), (0, 5), (1, 0), (1, 5), (255, 20)):
        keys, counter = (source.key(), source.key()), source.counter()
        frame = sealed(source, keys, source.pick(FIRST_BYTES), counter, port=port, payload=length)
        for network, application in itertools.product((keys[0], None), (keys[1], None)):
            yield DECRYPT_DATA, [network, application, counter, frame]
        yield DECRYPT_DATA_CHECKED, [keys[0], None, counter, frame]
        yield DECRYPT_DATA_CHECKED, [keys[0], None, counter, flipped(frame, len(frame) - 1)]
        yield DECRYPT_DATA_CHECKED, [keys[1], keys[0], counter, frame]


def damaged_data(source):
    """One bit off: in each byte of the MIC, of the header, in the port, in the payload."""
    keys, counter = (source.key(), source.key()), source.counter()
    for first in FIRST_BYTES:
        frame = sealed(source, keys, first, counter, fopts=2, port=7, payload=18, high=0x80)
        for place in range(len(frame) - 4, len(frame)):
            yield MIC_DATA, [keys[0], counter, flipped(frame, place, place % 8)]
            yield DECRYPT_DATA_CHECKED, [*keys, counter, flipped(frame, place, 7)]
        for place in (1, 4, 6, 7, 8, 9, 10, 11, 28):
            yield MIC_DATA, [keys[0], counter, flipped(frame, place)]
        for bit in range(8):
            yield MIC_DATA, [keys[0], counter, flipped(frame, 0, bit)]
        yield MIC_DATA, [keys[1], counter, frame]


def counters_around_limits(source):
    """The frame's own counter, another low half, another high half, and one off."""
    for counter in COUNTERS:
        keys = (source.key(), source.key())
        frame = sealed(source, keys, source.pick(FIRST_BYTES), counter, port=3, payload=9)
        other_low, other_high = counter ^ 0x00008001, counter ^ 0x80010000
        for given in (counter, other_low, other_high, (counter + 1) % 2**32, (counter - 1) % 2**32):
            yield MIC_DATA, [keys[0], given, frame]
            yield DECRYPT_DATA, [*keys, given, frame]
        yield DECRYPT_DATA_CHECKED, [*keys, other_low, frame]
        yield DECRYPT_DATA_CHECKED, [*keys, other_high, frame]
    keys = (source.key(), source.key())
    yield DECRYPT_DATA, [*keys, 0x0001FFFF, sealed(source, keys, 0x40, 0x00010002, port=1, payload=4)]


def join_requests(source):
    for first in (0x00, 0x1C, 0x04):
        key, message = source.key(), bytes([first]) + source.bytes(18)
        frame = message + oracle.mic(key, message)
        yield MIC_JOIN_REQUEST, [key, frame]
        yield MIC_JOIN_REQUEST, [source.key(), frame]
        for place in (0, 1, 8, 16, 18, 19, 20, 21, 22):
            yield MIC_JOIN_REQUEST, [key, flipped(frame, place, 3)]


def join_accepts(source):
    """17 and 33 bytes, each kind of list, bits 2 to 4 of byte 0 set or not; good and with one bit off."""
    for first, list_type in itertools.product((0x20, 0x3C), (None, 0, 1, 2, 255)):
        key, message = source.key(), bytes([first]) + source.bytes(12)
        if list_type is not None:
            message += source.bytes(15) + bytes([list_type])
        clear = message + oracle.mic(key, message)
        frame = oracle.each_block(oracle.aes_decrypt, key, clear)
        for good_key in (key, source.key()):
            yield MIC_JOIN_ACCEPT, [good_key, clear]
            yield DECRYPT_JOIN_ACCEPT, [good_key, frame]
            yield DECRYPT_JOIN_ACCEPT_CHECKED, [good_key, frame]
            yield SESSION_KEYS, [good_key, source.bytes(2), clear]
        for place in (0, 1, len(clear) - 5, *range(len(clear) - 4, len(clear))):
            off = flipped(clear, place, 2)
            yield MIC_JOIN_ACCEPT, [key, off]
            yield DECRYPT_JOIN_ACCEPT_CHECKED, [key, oracle.each_block(oracle.aes_decrypt, key, off)]


def calls_on(source, frame):
    """Each call that reads, on one frame."""
    key, counter = source.key(), source.counter()
    yield MIC_JOIN_REQUEST, [key, frame]
    yield MIC_JOIN_ACCEPT, [key, frame]
    yield MIC_DATA, [key, counter, frame]
    yield DECRYPT_DATA, [key, key, counter, frame]
    yield DECRYPT_DATA_CHECKED, [key, key, counter, frame]
    yield DECRYPT_JOIN_ACCEPT, [key, frame]
    yield DECRYPT_JOIN_ACCEPT_CHECKED, [key, frame]
    yield SESSION_KEYS, [key, source.bytes(2), frame]


def one_call_on(source, turn, frame):
    return list(calls_on(source, frame))[turn % 8]


def other_types_and_lengths(source):
    """Each call on each type, at lengths that suit a type and at those on both sides; then versions and headers."""
    for mtype, length in ((0, 23), (1, 17), (1, 33), (2, 23), (3, 17), (4, 33), (5, 12), (6, 23), (7, 17)):
        yield from calls_on(source, bytes([mtype << 5]) + source.bytes(4) + b"\0" + source.bytes(length - 6))
    turn = 0
    for mtype in range(8):
        for length in (0, 1, 11, 12, 16, 18, 22, 24, 32, 34, 255, 256):
            body = bytes([mtype << 5]) + source.bytes(4) + b"\5" + source.bytes(length)
            yield one_call_on(source, turn, body[:length])
            turn += 3
    for first in (0x01, 0x22, 0x43, 0xE2):
        yield from calls_on(source, bytes([first]) + source.bytes(21))
    for first, length in itertools.product((0x03, 0x21, 0x43, 0xC1), (11, 256)):
        yield one_call_on(source, turn, bytes([first]) + source.bytes(length - 1))
        turn += 1
    for fopts in range(16):
        for length in (11 + fopts, 12 + fopts):
            frame = bytes([source.pick(FIRST_BYTES)]) + source.bytes(4) + bytes([fopts]) + source.bytes(length - 6)
            key = source.key()
            yield DECRYPT_DATA, [key, None, source.counter(), frame]
    yield from calls_on(source, source.bytes(300))
    yield from calls_on(source, b"")


def opened(seed):
    source = Source(seed)
    yield from documented()
    yield from data_of_each_length(source)
    yield from data_with_fopts(source)
    yield from keys_given_or_not(source)
    yield from damaged_data(source)
    yield from counters_around_limits(source)
    yield from join_requests(source)
    yield from join_accepts(source)
    yield from other_types_and_lengths(source)


# ---- built: the three builders ----------------------------------------------------------------------------------


def built_join_requests(source):
    for room in (0, 1, 12, 22, 23, 24, 64, 23, 23, 23):
        yield BUILD_JOIN_REQUEST, [source.bytes(8), source.bytes(8), source.bytes(2), source.key(), room]
    yield BUILD_JOIN_REQUEST, [bytes([1] * 8), bytes([2] * 8), bytes([3] * 2), bytes([7] * 16), 23]
    yield BUILD_JOIN_REQUEST, [bytes(8), bytes([255] * 8), bytes(2), bytes(16), 23]


def join_accept_call(source, channels, room, rx_delay=None):
    delay = source.byte() if rx_delay is None else rx_delay
    return BUILD_JOIN_ACCEPT, [
        source.bytes(3),
        source.bytes(3),
        source.bytes(4),
        source.byte(),
        delay,
        channels,
        source.key(),
        room,
    ]


def built_join_accepts(source):
    """Each count of channels and no list, outputs shorter, exact and longer; each limit of a channel at each place."""
    lists = [None] + [[source.random.getrandbits(24) for _ in range(count)] for count in range(7)]
    for channels in lists:
        for room in (0, 16, 17, 18, 32, 33, 34, 60):
            yield join_accept_call(source, channels, room)
    for count in range(1, 6):
        for place, value in itertools.product(range(count), (0, 16777215, 16777216, 4294967295)):
            channels = [source.random.getrandbits(24) for _ in range(count)]
            channels[place] = value
            yield join_accept_call(source, channels, 33)
    for value in (16777215, 16777216, 4294967295):
        yield join_accept_call(source, [1, value], 32)
    for channels in ([16777215] * 5, [0] * 5, [16777216] * 6, [1] * 16, [4294967295] * 7):
        yield join_accept_call(source, channels, 33)
        yield join_accept_call(source, channels, 10)
    for rx_delay in (0, 1, 15, 16, 255):
        yield join_accept_call(source, None, 17, rx_delay)
        yield join_accept_call(source, [8671000, 8673000], 33, rx_delay)
    documented = [bytes([1] * 3), bytes([1] * 3), bytes([1] * 4), 2, 1]
    channels = [0x846E58, 0x846688]
    yield BUILD_JOIN_ACCEPT, [*documented, channels, bytes([1] * 16), 33]
    yield BUILD_JOIN_ACCEPT, [*documented, None, bytes([1] * 16), 17]


def data_call(source, port, commands, payload, room=255, fctrl=0, first=None, counter=None):
    kind = source.pick((0, 1, 2, 3)) if first is None else first
    given = source.pick(COUNTERS) if counter is None else counter
    fields = [kind // 2, 1 - kind % 2, source.bytes(4), fctrl, given, port]
    return BUILD_DATA, [*fields, source.bytes(commands), source.bytes(payload), source.key(), source.key(), room]


def refusals_in_every_order(source):
    """Each joint occurrence of the six conditions that can be had; a short output is mostly a very short one."""
    commands, payloads = (0, 1, 15, 16, 242, 243), (0, 1, 243)
    for port, fctrl, n, m in itertools.product((None, 0, 1), (0x80, 0x8F), commands, payloads):
        yield data_call(source, port, n, m, fctrl=fctrl)
    for port, fctrl, n, m in itertools.product((None, 0, 1), (0x80, 0x8F), (0, 16, 243), payloads):
        yield data_call(source, port, n, m, room=254 if n == m == 0 else 9, fctrl=fctrl)


def built_data(source):
    """Every type and port; both sides of 255 bytes; FCtrl and counters at their limits; longer outputs."""
    for kind, port in itertools.product(range(4), (None, 0, 1, 255)):
        for commands, payload in ((0, 0), (3, 0)) if port in (None, 0) else ((0, 0), (0, 17), (15, 16)):
            yield data_call(source, port, commands, payload, fctrl=source.byte() & 0xF0, first=kind)
    for commands in range(16):
        for payload in (242 - commands, 243 - commands):
            yield data_call(source, 1 + commands, commands, payload)
    for commands in (15, 16, 17, 32, 240, 241, 242, 243, 244):
        yield data_call(source, 0, commands, 0)
    for payload in PAYLOADS:
        yield data_call(source, 255, 0, payload, room=255 + payload % 3)
    for room in (0, 1, 12, 253, 254, 256, 257, 300):
        yield data_call(source, 5, 2, 11, room)
    for fctrl in (0x10, 0x20, 0x40, 0x80, 0xF0, 0x01, 0x02, 0x04, 0x08, 0xFF):
        yield data_call(source, 5, 4, 2, fctrl=fctrl)
    for counter in COUNTERS:
        yield data_call(source, source.pick(PORTS[1:]), 0, 3, counter=counter)


def documented_builds():
    network, application = DOCUMENTED_NETWORK_KEY, DOCUMENTED_APPLICATION_KEY
    address = bytes([4, 3, 2, 1])
    yield BUILD_DATA, [0, 1, address, 0x80, 1, 1, b"", b"hello", network, application, 255]
    yield BUILD_DATA, [1, 1, address, 0x80, 76543, 42, b"", b"hello lora", network, application, 256]
    yield BUILD_DATA, [0, 1, bytes(4), 0, 0, None, bytes([2, 3, 5]), b"", network, application, 255]


def built(seed):
    source = Source(seed + 1)
    yield from documented_builds()
    yield from built_join_requests(source)
    yield from built_join_accepts(source)
    yield from refusals_in_every_order(source)
    yield from built_data(source)


# ---- amended: lists of amendments --------------------------------------------------------------------------------


class Held:
    """A good frame with what opens it."""

    def __init__(self, source, first=None, fopts=0, port=1, payload=16, counter=None):
        self.source = source
        self.keys = (source.key(), source.key())
        self.counter = source.counter() if counter is None else counter
        self.length = payload
        self.start = 9 + fopts
        self.frame = sealed(
            source, self.keys, source.pick(FIRST_BYTES) if first is None else first, self.counter, fopts, port, payload
        )

    def clear(self, offset):
        return oracle.decrypt_data(*self.keys, self.counter, self.frame)[self.start + offset]

    def call(self, amendments, frame=None, counter=None):
        given = self.counter if counter is None else counter
        return AMEND, [*self.keys, given, self.frame if frame is None else frame, amendments]

    def lent(self, amendments):
        return AMEND_LENT, [*self.keys, self.counter, self.frame, amendments]

    def hold(self, calls, room=None):
        room = len(self.frame) if room is None else room
        return HOLD, [*self.keys, self.counter, self.frame, room, calls]

    def at(self, *offsets):
        return self.call([(offset, self.source.byte()) for offset in offsets])


def first_last_and_outside(source):
    """Each length, uplinks and downlinks, MAC commands and data; both ends, one past the end and far past it."""
    for length, port, first in itertools.product((0, 1, 16, 17, 242), (0, 1, 255), (0x40, 0x60, 0x80, 0xA0)):
        if (length == 242 and port == 255) or (length > 1 and port == 255 and first >= 0x80):
            continue
        held = Held(source, first, 0, port, length)
        last = max(length - 1, 0)
        yield held.at(0, last, length, length + 1, 255, 256, 65535, 65536, 4294967295)


def block_edges(source):
    """Both sides of each edge: of the key stream's blocks, and of the MIC's, which the FOpts move."""
    for block in range(1, 16):
        yield Held(source, port=1, payload=242).at(16 * block - 1, 16 * block)
    for fopts in range(16):
        held = Held(source, fopts=fopts, port=source.pick(PORTS), payload=40)
        edges = [16 * k - held.start for k in range(1, 5) if 0 < 16 * k - held.start < 40]
        for edge in edges:
            yield held.at(edge - 1, edge)
    held = Held(source, port=0, payload=242)
    yield held.at(*[16 * k - held.start for k in range(1, 16)])
    yield held.at(*reversed([16 * k - held.start - 1 for k in range(1, 16)]))


def counters_and_first_bytes(source):
    for counter in COUNTERS:
        yield Held(source, payload=20, counter=counter).at(0, 19, 4)
    for first in FIRST_BYTES:
        for bits in (0x04, 0x08, 0x10, 0x1C):
            yield Held(source, first + bits, 1, source.pick(PORTS), 18).at(17, 0, 18)


def one_byte_twice(source):
    """No amendment, the same value, one byte twice, the original back, each byte in turn."""
    for port, length in ((1, 1), (0, 16), (9, 33)):
        held = Held(source, port=port, payload=length)
        last = length - 1
        yield held.call([])
        yield held.call([(last, held.clear(last))])
        yield held.at(last, last, last)
        yield held.call([(last, held.clear(last) ^ 0x80), (length, 1), (last, held.clear(last))])
        yield held.call([(i, 0) for i in range(length)])
        yield held.call([(i, 255) for i in reversed(range(length))])
    held = Held(source, fopts=15, port=255, payload=227)
    yield held.at(226, 0, 227, 100, 100)


def no_payload(source):
    for fopts, port in itertools.product((0, 1, 15), (None, 0, 9)):
        yield Held(source, fopts=fopts, port=port, payload=0).at(0, 1)


def refused_openings(source, held):
    """Each refusal of an opening: keys, counter and frame."""
    low, high = held.counter ^ 1, held.counter ^ 0x00010000
    for counter in (low, held.counter ^ 0x8000, high, held.counter ^ 0x80000000, low ^ 0x00010000):
        yield held.keys, counter, held.frame
    for place in range(len(held.frame) - 4, len(held.frame)):
        yield held.keys, held.counter, flipped(held.frame, place, 5)
        yield held.keys, low, flipped(held.frame, place, 5)
    for place in (0, 1, 8, 9, 18):
        yield held.keys, held.counter, flipped(held.frame, place, 2)
    for frame in (b"", held.frame[:11], held.frame + source.bytes(256 - len(held.frame)), source.bytes(300)):
        yield held.keys, held.counter, frame
    others = ((0x41, 23), (0x42, 12), (0xC0, 23), (0xE0, 12), (0x00, 23), (0x00, 22), (0x20, 17), (0x20, 33))
    for first, length in others:
        yield held.keys, held.counter, bytes([first]) + source.bytes(length - 1)
    for fopts in (1, 15):
        short = bytes([0x60]) + source.bytes(4) + bytes([fopts]) + source.bytes(5 + fopts)
        yield held.keys, held.counter, short
    yield (held.keys[1], held.keys[0]), held.counter, held.frame


def amended_unopened(source):
    held = Held(source, payload=10)
    for keys, counter, frame in refused_openings(source, held):
        yield AMEND, [*keys, counter, frame, [(0, 1), (9, 2), (10, 3)]]
    yield held.call([], counter=held.counter ^ 1)


def amended_lent(source):
    """Lists on a frame that is lent: none, both ends, one byte twice, one outside; and openings that are refused."""
    for length, port in itertools.product((0, 1, 17, 242), PORTS):
        held = Held(source, port=port, payload=length)
        value, last = source.byte, max(length - 1, 0)
        yield held.lent([])
        yield held.lent([(last, value()), (0, value()), (last, value())])
        yield held.lent([(0, value()), (length, value()), (last, value())])
    held = Held(source, payload=10)
    for outside in (10, 255, 256, 65536, 0xFFFFFF):
        yield held.lent([(9, source.byte()), (outside, source.byte())])
    for keys, counter, frame in refused_openings(source, held):
        yield AMEND_LENT, [*keys, counter, frame, [(9, 2), (10, 3)]]


def amended(seed):
    source = Source(seed + 2)
    documented = [(i, c) for i, c in enumerate(b"HELLO")]
    yield AMEND, [DOCUMENTED_NETWORK_KEY, DOCUMENTED_APPLICATION_KEY, 1, DOCUMENTED_DATA, documented]
    yield from first_last_and_outside(source)
    yield from block_edges(source)
    yield from counters_and_first_bytes(source)
    yield from one_byte_twice(source)
    yield from no_payload(source)
    yield from amended_unopened(source)
    yield from amended_lent(source)


# ---- held: a frame held open, and a history of calls --------------------------------------------------------------


def rooms(source):
    """Each length of frame into no room, one byte too few, just enough and more."""
    for fopts, port, payload in ((0, None, 0), (0, 1, 0), (0, 0, 1), (3, 7, 17), (0, 255, 242)):
        held = Held(source, fopts=fopts, port=port, payload=payload)
        length = len(held.frame)
        for room in (0, length - 1, length, length + 1, 300):
            yield held.hold([(0, source.byte()), [(0, source.byte())]], room)


def mixed_histories(source):
    """Single ones and lists in turn, at both ends and outside, on each length and port."""
    for length, port in itertools.product((1, 15, 16, 17, 33, 242), PORTS):
        held = Held(source, fopts=source.byte() % 3 if length < 242 else 0, port=port, payload=length)
        value, last = source.byte, length - 1
        yield held.hold([(0, value()), [(last, value()), (0, value())], (last, value()), [(last // 2, value())]])
        yield held.hold([[(0, value()), (length, value())], (length, value()), (last, value()), [(last, value())]])


def refused_members(source):
    """Lists whose first, middle or last member is outside, by one and by far: nothing of them is made."""
    for outside, place in itertools.product((20, 21, 255, 65536, 0xFFFFFF), range(3)):
        held = Held(source, port=source.pick(PORTS), payload=20)
        members = [(0, source.byte()), (19, source.byte())]
        members.insert(place, (outside, source.byte()))
        yield held.hold([members, (7, source.byte()), [(8, source.byte())], members])
    held = Held(source, payload=20)
    yield held.hold([(outside, 1) for outside in (20, 255, 256, 65535, 65536, 0xFFFFFF, 0xFFFFFFFF)] + [(19, 1)])


def empty_lists(source):
    """No call at all; lists without a member, alone and between others."""
    for port, payload in ((None, 0), (9, 0), (0, 1), (1, 40)):
        held = Held(source, port=port, payload=payload)
        yield held.hold([])
        yield held.hold([[]])
        yield held.hold([[], (0, source.byte()), [], [(0, source.byte())], []])


def one_byte_held_twice(source):
    """The same byte by two calls, twice in a list, back to what it was, and to the value that it has."""
    for port, length in ((1, 1), (0, 16), (9, 33)):
        held = Held(source, port=port, payload=length)
        last, first, second = length - 1, source.byte(), source.byte()
        was = held.clear(last)
        yield held.hold([(last, first), (last, second)])
        yield held.hold([[(last, first), (last, second)], [(last, second), (last, first)]])
        yield held.hold([(last, was ^ 0x80), [(last, was)]])
        yield held.hold([[(last, was)], (last, was)])


def blocks_up_and_down(source):
    """Lists over every block of a long frame, which is signed from the lowest place on, in both directions."""
    held = Held(source, port=1, payload=242)
    ups = [(offset, source.byte()) for offset in range(0, 242, 34)]
    edges = [(16 * block - held.start, source.byte()) for block in range(1, 16)]
    yield held.hold([ups])
    yield held.hold([ups[::-1]])
    yield held.hold([edges, ups, edges[::-1]])
    yield held.hold([ups[-1], ups[4:], ups[0], ups[:4]])
    yield held.hold([[(offset, 0) for offset in range(60)], [(offset, 255) for offset in reversed(range(60))]])


def held_without_payload(source):
    for fopts, port in itertools.product((0, 1, 15), (None, 0, 9)):
        yield Held(source, fopts=fopts, port=port, payload=0).hold([(0, 1), [(0, 1)], [], (255, 1)])


def held_headers(source):
    """Every counter and the bits of byte 0 that the reader ignores."""
    for counter in COUNTERS:
        yield Held(source, payload=20, counter=counter).hold([(19, source.byte()), [(0, source.byte()), (4, 4)]])
    for first, bits in itertools.product(FIRST_BYTES, (0x04, 0x18)):
        yield Held(source, first + bits, 1, source.pick(PORTS), 18).hold([[(17, source.byte())], (0, 0), (18, 1)])


def held_unopened(source):
    """Calls after an opening that was refused: there is a frame of no bytes then."""
    held = Held(source, payload=10)
    for turn, (keys, counter, frame) in enumerate(refused_openings(source, held)):
        yield HOLD, [*keys, counter, frame, turn % 3, [(0, 1), [(0, 1)], [], (9, 2)]]


def held(seed):
    source = Source(seed + 4)
    hello = [(0, ord("H")), [(1, ord("E")), (2, ord("L"))], [(5, ord("!"))], (3, ord("L")), [(4, ord("O"))]]
    yield HOLD, [DOCUMENTED_NETWORK_KEY, DOCUMENTED_APPLICATION_KEY, 1, DOCUMENTED_DATA, 18, hello]
    yield from rooms(source)
    yield from mixed_histories(source)
    yield from refused_members(source)
    yield from empty_lists(source)
    yield from one_byte_held_twice(source)
    yield from blocks_up_and_down(source)
    yield from held_without_payload(source)
    yield from held_headers(source)
    yield from held_unopened(source)


# ---- places: where a frame is bad, as every call that reads first says it -----------------------------------------


def bad_frames(source):
    """Each refusal of reading: lengths that no frame has, versions, types, lengths of no join message, headers."""
    for length in (0, 1, 11, 256, 257, 900):
        yield source.bytes(length)
    for first in (0x41, 0x02, 0x23, 0xC0, 0xE0):
        yield bytes([first]) + source.bytes(22)
    for first, length in ((0x00, 12), (0x00, 22), (0x1C, 24), (0x00, 255)):
        yield bytes([first]) + source.bytes(length - 1)
    for first, length in ((0x20, 12), (0x20, 16), (0x3C, 18), (0x20, 32), (0x20, 34), (0x20, 255)):
        yield bytes([first]) + source.bytes(length - 1)
    for fopts, length in ((1, 12), (15, 12), (11, 22), (15, 26)):
        head = bytes([source.pick(FIRST_BYTES)]) + source.bytes(4) + bytes([source.byte() & 0xF0 | fopts])
        yield head + source.bytes(length - 6)


def good_frames(source):
    """One of each type and length of a join message, which most calls refuse without a place."""
    for first, length in ((0x00, 23), (0x20, 17), (0x20, 33), (0x40, 23), (0x60, 17), (0x80, 33), (0xA0, 12)):
        yield bytes([first]) + source.bytes(4) + b"\0" + source.bytes(length - 6)


def every_call_on(source, frame):
    """Each call that reads first, on one frame."""
    yield READ, [frame]
    yield READ_JOIN_REQUEST, [frame]
    yield READ_CLEAR_JOIN_ACCEPT, [frame]
    yield from calls_on(source, frame)
    opening = [source.key(), source.key(), source.counter(), frame]
    yield AMEND, [*opening, [(0, 1)]]
    yield AMEND_LENT, [*opening, [(0, 1)]]
    yield HOLD, [*opening, 0, [(0, 1)]]


def places(seed):
    source = Source(seed + 5)
    for frame in itertools.chain(bad_frames(source), good_frames(source)):
        yield from every_call_on(source, frame)


# ---- commands: MAC commands, read and written, and those of a frame -------------------------------------------------

DIRECTIONS = (1, 0)
UNKNOWN_IDENTIFIERS = (0x00, 0x01, 0x0B, 0x0C, 0x0D, 0x0F, 0x10, 0x42, 0x80, 0x82, 0xFF)
LARGEST_OFFSET = 2**64 - 1


def layouts(uplink):
    return (oracle.UP if uplink else oracle.DOWN).items()


def every_layout():
    for uplink in DIRECTIONS:
        for identifier, layout in layouts(uplink):
            yield uplink, identifier, layout


def drawn_values(source, layout):
    """Values that the fields hold, then any in the place of those that there are not."""
    held = [oracle.values_held(field) for field in layout.fields]
    return [h[source.counter() % len(h)] for h in held] + [source.counter() - 2**31 for _ in range(5 - len(held))]


def drawn_command(source, uplink, identifier=None):
    """A command with its reserved bits 0; where no identifier is given, a drawn one."""
    identifier = source.pick(range(2, 11)) if identifier is None else identifier
    layout = oracle.layout_of(uplink == 1, identifier)
    return oracle.command_bytes(uplink == 1, identifier, drawn_values(source, layout))


def drawn_list(source, uplink, length):
    """Commands of so many bytes in all; one without values fills up what is left over."""
    data = b""
    while len(data) < length:
        command = drawn_command(source, uplink)
        fits = len(data) + len(command) <= length
        data += command if fits else bytes([2 if uplink else 6])
    return data


def listed_from(uplink, data, offset=0):
    return READ_COMMANDS, [uplink, offset, data]


def each_bit(source):
    """Every command without a bit, with all bits, with each bit alone, reserved ones too, and with drawn ones."""
    for uplink, identifier, layout in every_layout():
        bits = 8 * layout.length
        numbers = [0, (1 << bits) - 1] + [1 << bit for bit in range(bits)]
        numbers.append(int.from_bytes(source.bytes(layout.length), "little"))
        data = [bytes([identifier]) + number.to_bytes(layout.length, "little") for number in numbers]
        yield listed_from(uplink, b"".join(data))


def each_margin():
    """Every value of the byte that holds the margin."""
    for start in range(0, 256, 64):
        yield listed_from(1, b"".join(bytes([6, 255 - byte, byte]) for byte in range(start, start + 64)))


def each_cut(source):
    """Every command at every shorter length, alone and behind others, and whole with one byte more."""
    for uplink, identifier, layout in every_layout():
        for length in range(1, 1 + layout.length):
            command = drawn_command(source, uplink, identifier)[:length]
            yield listed_from(uplink, command)
            yield listed_from(uplink, drawn_list(source, uplink, 9) + command)
        yield listed_from(uplink, drawn_command(source, uplink, identifier) + bytes([identifier]))


def unknown_identifiers(source):
    """First, between others, and as the last byte, where a known one would be cut short."""
    for uplink, identifier in itertools.product(DIRECTIONS, UNKNOWN_IDENTIFIERS):
        ahead, unknown = drawn_list(source, uplink, 7), bytes([identifier])
        yield listed_from(uplink, unknown + ahead)
        yield listed_from(uplink, ahead + unknown + source.bytes(6))
        yield listed_from(uplink, ahead + unknown)


def each_offset(source):
    """A list from each of its bytes on, also from inside a command, and from its end and beyond."""
    for uplink in DIRECTIONS:
        data = b"".join(drawn_command(source, uplink, identifier) for identifier, _ in layouts(uplink))
        beyond = (len(data) + 1, 255, 256, 65536, 2**32, 2**63, LARGEST_OFFSET)
        for offset in (*range(len(data) + 1), *beyond):
            yield listed_from(uplink, data, offset)
        for offset in (0, 1, 2**32, LARGEST_OFFSET):
            yield listed_from(uplink, b"", offset)


def long_lists(source):
    """As many bytes as a payload has at most, with the most commands and others; faults far from the start."""
    yield listed_from(1, bytes([2] * 242))
    yield listed_from(0, bytes([7] * 242))
    for uplink in DIRECTIONS:
        yield listed_from(uplink, drawn_list(source, uplink, 242))
        yield listed_from(uplink, drawn_list(source, uplink, 300) + b"\x0b", 260)
        yield listed_from(uplink, drawn_list(source, uplink, 900) + b"\3", 880)


def drawn_lists(source):
    """Commands that are right, and bytes of which about every other one is an identifier."""
    for uplink in DIRECTIONS:
        for _ in range(12):
            yield listed_from(uplink, drawn_list(source, uplink, source.byte() % 40))
            mixed = bytes(source.pick((*range(2, 11), source.byte())) for _ in range(source.byte() % 30))
            yield listed_from(uplink, mixed, source.byte() % 4)


def written(uplink, identifier, values, room, offset=0):
    return WRITE_COMMAND, [uplink, identifier, values, room, offset]


def each_limit(source):
    """Every field at both ends of what it holds, at 0, next to these, and far beyond; the others are drawn."""
    for uplink, identifier, layout in every_layout():
        for place, field in enumerate(layout.fields):
            held = oracle.values_held(field)
            near = {held[0] - 1, held[0], -1, 0, held[-1], held[-1] + 1}
            for value in (*sorted(near), 2**31 - 1, -(2**31)):
                values = drawn_values(source, layout)
                values[place] = value
                yield written(uplink, identifier, values, 1 + layout.length)


def each_room(source):
    """Every command into just enough room, more and less of it, at the start and behind other bytes."""
    for uplink, identifier, layout in every_layout():
        values, length = drawn_values(source, layout), 1 + layout.length
        start = {(0, 0), (length - 1, 0), (length, 0)}
        behind = {(length + 2, 3), (length + 3, 3), (length + 7, 3)}
        past = {(9, offset) for offset in (9, 10, 2**32, 2**64 - length, LARGEST_OFFSET)}
        for room, offset in sorted(start | behind | past):
            yield written(uplink, identifier, values, room, offset)


def refusals_of_writing(source):
    """16 ahead of 18 ahead of 7, each pair and all three; values of fields that a command lacks."""
    for uplink, identifier in itertools.product(DIRECTIONS, UNKNOWN_IDENTIFIERS):
        for values, room in (([0] * 5, 6), ([-1] * 5, 6), ([-1] * 5, 0)):
            yield written(uplink, identifier, values, room)
    for uplink, identifier, layout in every_layout():
        yield written(uplink, identifier, [-1] * 5, 6)
        yield written(uplink, identifier, [2**31 - 1] * 5, 0)
        yield written(uplink, identifier, [16777216] * 5, 6, LARGEST_OFFSET)
    for place in range(5):
        values = drawn_values(source, oracle.DOWN[3])
        values[place] = -1
        yield written(0, 3, values, 0)
    yield written(1, 6, [254, -7, -1, 2**31 - 1, -(2**31)], 242, 239)
    yield written(1, 6, [254, -7, -1, 2**31 - 1, -(2**31)], 242, 240)


def drawn_frame(source, first, fopts=b"", port=None, payload=b""):
    """A data frame with a clear payload; nothing here asks for its MIC."""
    head = bytes([first]) + source.bytes(4) + bytes([source.byte() & 0xF0 | len(fopts)]) + source.bytes(2)
    return head + fopts + (b"" if port is None else bytes([port]) + payload) + source.bytes(4)


def is_up(first):
    return 0 if first & 0x20 else 1


def lists_in_frames(source):
    """Every type of data frame with either list, both and none; ports that hold no commands; the longest."""
    for first in (*FIRST_BYTES, 0x5C, 0x7C):
        lists = [drawn_list(source, is_up(first), length) for length in (0, 1, 11, 15)]
        for fopts, port in itertools.product(lists, (None, 0, 1, 255)):
            yield drawn_frame(source, first, fopts, port, drawn_list(source, is_up(first), 9))
        yield drawn_frame(source, first, lists[2], 0, b"")
        yield drawn_frame(source, first, lists[2], 9, b"")
    for first in FIRST_BYTES[2:]:
        yield drawn_frame(source, first, b"", 0, drawn_list(source, is_up(first), 242))
        yield drawn_frame(source, first, drawn_list(source, is_up(first), 15), 0, drawn_list(source, is_up(first), 227))


def faults_in_frames(source):
    """Unknown and cut in FOpts and in the payload, where bytes of the frame follow; the other list is read as well."""
    for first in FIRST_BYTES:
        good, ahead = drawn_list(source, is_up(first), 6), drawn_list(source, is_up(first), 4)
        cut = b"\6\1" if is_up(first) else b"\3\1"
        for bad in (b"\x0b", b"\x0d", b"\3", cut, ahead + cut, ahead + b"\0" + good):
            yield drawn_frame(source, first, bad)
            yield drawn_frame(source, first, bad, 0, good)
            yield drawn_frame(source, first, good, 0, bad)
            yield drawn_frame(source, first, bad, 0, ahead + bad)
            yield drawn_frame(source, first, bad, 7, bad)


def commands(seed):
    source = Source(seed + 6)
    yield listed_from(1, bytes.fromhex("0307"))
    yield listed_from(1, bytes.fromhex("06ff39"))
    for cases in (each_bit, each_cut, unknown_identifiers, each_offset, long_lists, drawn_lists):
        yield from cases(source)
    yield from each_margin()
    for cases in (each_limit, each_room, refusals_of_writing):
        yield from cases(source)
    for frames in (lists_in_frames, faults_in_frames, bad_frames, good_frames):
        for frame in frames(source):
            yield FRAME_COMMANDS, [frame]


LISTS = {
    "read": read,
    "opened": opened,
    "built": built,
    "amended": amended,
    "held": held,
    "places": places,
    "commands": commands,
}


def bodies_of(cases):
    return [records.write_body(kind, arguments) for kind, arguments in cases]


def main(seed=SEED, folder=pathlib.Path(__file__).parent / "out"):
    out = pathlib.Path(folder)
    out.mkdir(exist_ok=True)
    for name, cases in LISTS.items():
        bodies = bodies_of(cases(int(seed)))
        (out / f"{name}.stdin").write_bytes(records.write_file(bodies))
        (out / f"{name}.stdout").write_text(records.answers(bodies))
        print(f"{name}: {len(bodies)} cases")


if __name__ == "__main__":
    main(*sys.argv[1:])
