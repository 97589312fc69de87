"""Case files: how a call is written down as a record, and its right answer as a line. README.md has the formats."""

import oracle
from oracle import Refused

FILL = 0xA5  # every byte of a lent output slice ahead of the call

# ---- Fields: how each is written and read ------------------------------------------------------------------------


class Number:
    def __init__(self, width):
        self.width = width

    def write(self, value):
        return value.to_bytes(self.width, "little")

    def read(self, data, at):
        return int.from_bytes(data[at : at + self.width], "little"), at + self.width


class Fixed:
    def __init__(self, width):
        self.width = width

    def write(self, value):
        assert len(value) == self.width
        return value

    def read(self, data, at):
        return data[at : at + self.width], at + self.width


class Maybe:
    """One byte, 1 for given, then the value, all zeros if it is not given (None)."""

    def __init__(self, width, number=False):
        self.width, self.number = width, number

    def write(self, value):
        if value is None:
            return bytes(1 + self.width)
        return b"\1" + (value.to_bytes(self.width, "little") if self.number else value)

    def read(self, data, at):
        value = data[at + 1 : at + 1 + self.width]
        given = int.from_bytes(value, "little") if self.number else value
        return given if data[at] else None, at + 1 + self.width


class Bytes:
    def write(self, value):
        return len(value).to_bytes(2, "little") + value

    def read(self, data, at):
        end = at + 2 + int.from_bytes(data[at : at + 2], "little")
        return data[at + 2 : end], end


class Channels:
    """One byte, 1 for a list; one byte, their number; each in four bytes."""

    def write(self, value):
        if value is None:
            return bytes(2)
        return bytes([1, len(value)]) + b"".join(c.to_bytes(4, "little") for c in value)

    def read(self, data, at):
        count = data[at + 1]
        places = [at + 2 + 4 * i for i in range(count)]
        values = [int.from_bytes(data[p : p + 4], "little") for p in places]
        return values if data[at] else None, at + 2 + 4 * count


class Amendments:
    """Two bytes, their number; for each its offset in four bytes and its value in one."""

    def write(self, value):
        return len(value).to_bytes(2, "little") + b"".join(o.to_bytes(4, "little") + bytes([v]) for o, v in value)

    def read(self, data, at):
        count = int.from_bytes(data[at : at + 2], "little")
        places = [at + 2 + 5 * i for i in range(count)]
        values = [(int.from_bytes(data[p : p + 4], "little"), data[p + 4]) for p in places]
        return values, at + 2 + 5 * count


class NumberedAmendments:
    """Two bytes, their number; for each offset * 256 + value in four bytes."""

    def write(self, value):
        numbers = (offset * 256 + v for offset, v in value)
        return len(value).to_bytes(2, "little") + b"".join(n.to_bytes(4, "little") for n in numbers)

    def read(self, data, at):
        count = int.from_bytes(data[at : at + 2], "little")
        places = [at + 2 + 4 * i for i in range(count)]
        return [divmod(int.from_bytes(data[p : p + 4], "little"), 256) for p in places], at + 2 + 4 * count


class History:
    """Two bytes, the number of calls; for each a 0 and one amendment by offset and value, or a 1 and numbered ones."""

    def write_call(self, call):
        if isinstance(call, list):
            return b"\1" + NumberedAmendments().write(call)
        offset, value = call
        return b"\0" + offset.to_bytes(4, "little") + bytes([value])

    def read_call(self, data, at):
        if data[at] == 0:
            return (int.from_bytes(data[at + 1 : at + 5], "little"), data[at + 5]), at + 6
        return NumberedAmendments().read(data, at + 1)

    def write(self, value):
        return len(value).to_bytes(2, "little") + b"".join(self.write_call(call) for call in value)

    def read(self, data, at):
        count, at = int.from_bytes(data[at : at + 2], "little"), at + 2
        calls = []
        for _ in range(count):
            call, at = self.read_call(data, at)
            calls.append(call)
        return calls, at


class Values:
    """Five numbers of four bytes, negative ones in two's complement."""

    def write(self, value):
        assert len(value) == 5
        return b"".join(v.to_bytes(4, "little", signed=True) for v in value)

    def read(self, data, at):
        places = range(at, at + 20, 4)
        return [int.from_bytes(data[p : p + 4], "little", signed=True) for p in places], at + 20


BYTE, HALF, WORD, LONG, KEY, MAYBE_KEY = Number(1), Number(2), Number(4), Number(8), Fixed(16), Maybe(16)

# ---- Answers -----------------------------------------------------------------------------------------------------


def ended(refusal):
    """How a call ended, in the one form of all answers: the number, and the place in eight bytes where it is not 0."""
    place = refusal.place.to_bytes(8, "little") if refusal.number else b""
    return bytes([refusal.number]) + place


ACCEPTED = ended(oracle.ACCEPTED)


def tested(call):
    def answer(*arguments):
        try:
            return ACCEPTED + bytes([1 if call(*arguments) else 0])
        except Refused as refused:
            return ended(refused.refusal) + bytes(1)

    return answer


def changed(call, frame=-1):
    """For calls that change the caller's frame; it is the last argument, or the one at the place given."""

    def answer(*arguments):
        try:
            return ACCEPTED + call(*arguments)
        except Refused as refused:
            return ended(refused.refusal) + arguments[frame]

    return answer


def derived(*arguments):
    try:
        network, application = oracle.session_keys(*arguments)
        return ACCEPTED + network + application
    except Refused as refused:
        return ended(refused.refusal) + bytes(32)


def built(call):
    """For calls that build into a slice, whose length is their last argument."""

    def answer(*arguments):
        room = arguments[-1]
        try:
            end, frame = ACCEPTED, call(*arguments)
        except Refused as refused:
            end, frame = ended(refused.refusal), b""
        return end + len(frame).to_bytes(2, "little") + frame + bytes([FILL]) * (room - len(frame))

    return answer


def build_data(confirmed, uplink, dev_addr, fctrl, counter, port, commands, payload, network, application, room):
    fields = oracle.DataFields(confirmed == 1, uplink == 1, dev_addr, fctrl, counter, port)
    return oracle.build_data(fields, commands, payload, network, application, room)


def amended(*arguments):
    refusal, refusals, frame = oracle.amend_all(*arguments)
    return b"".join(ended(r) for r in (refusal, *refusals)) + frame


def held(network, application, counter, frame, room, calls):
    refusal, refusals, kept = oracle.hold(network, application, counter, frame, calls)
    return b"".join(ended(r) for r in (refusal, *refusals)) + built(oracle.take_out)(kept, room)


def maybe_byte(value):
    return bytes(2) if value is None else bytes([1, value])


def shown_data(frame, data):
    """Numbers, flags and places of a data frame."""
    flags = bytes([data.adr, data.adr_ack_req, data.ack, data.f_pending])
    payload = bytes(3) if data.payload is None else bytes([2 if data.commands else 1, *data.payload])
    numbers = bytes([data.fctrl]) + flags + data.fcnt.to_bytes(2, "little")
    fields = frame[slice(*data.dev_addr)] + numbers + bytes(data.fopts) + maybe_byte(data.port) + payload
    return fields + frame[slice(*data.mic)]


def request_fields(frame):
    """What a join-request says, in frame order."""
    request = oracle.read_as(oracle.JoinRequest, frame)
    return b"".join(frame[slice(*p)] for p in (request.app_eui, request.dev_eui, request.dev_nonce, request.mic))


def shown(frame):
    """The reader's answer."""
    try:
        reading = oracle.read(frame)
    except Refused as refused:
        return ended(refused.refusal)
    head = ACCEPTED + bytes([reading.mtype])
    if isinstance(reading, oracle.JoinRequest):
        return head + request_fields(frame)
    if isinstance(reading, oracle.JoinAccept):
        return head + bytes([reading.length])
    return head + shown_data(frame, reading)


def shown_request(frame):
    """The fields of a join-request."""
    try:
        return ACCEPTED + request_fields(frame)
    except Refused as refused:
        return ended(refused.refusal)


def shown_clear(frame):
    """What a clear join-accept says."""
    try:
        oracle.read_as(oracle.JoinAccept, frame)
    except Refused as refused:
        return ended(refused.refusal)
    said = oracle.read_clear_join_accept(frame)
    parts = [frame[slice(*p)] for p in (said.app_nonce, said.net_id, said.dev_addr, said.mic)]
    numbers = bytes([said.dl_settings, said.rx_delay])
    if said.channels is not None:
        listed = b"\1" + b"".join(c.to_bytes(4, "little") for c in said.channels)
    else:
        listed = b"\0" if said.masks is None else b"\2" + frame[slice(*said.masks)]
    return ACCEPTED + b"".join(parts) + numbers + listed


def listed_command(uplink, command):
    """A command that was read, and the bytes that writing it gives back."""
    written = oracle.command_bytes(uplink, command.identifier, command.values)
    places = command.start.to_bytes(2, "little") + command.end.to_bytes(2, "little")
    values = Values().write([*command.values] + [0] * (5 - len(command.values)))
    return bytes([command.identifier]) + places + values + bytes([len(written)]) + written


def listed(uplink, commands, refusal):
    """The commands of a list; behind them a 0, which no identifier is, and how the list ends."""
    return b"".join(listed_command(uplink, command) for command in commands) + b"\0" + ended(refusal)


def read_commands(uplink, offset, data):
    return listed(uplink == 1, *oracle.read_commands(uplink == 1, data, offset))


def write_command(uplink, identifier, values, room, offset):
    out = bytes([FILL]) * room
    try:
        out, end = oracle.write_command(uplink == 1, identifier, values, out, offset)
        return ACCEPTED + end.to_bytes(2, "little") + out
    except Refused as refused:
        return ended(refused.refusal) + bytes(2) + out


def frame_commands(frame):
    """The direction of a data frame, and the commands of its FOpts and of its payload."""
    try:
        uplink, fopts, payload = oracle.commands_of(frame)
    except Refused as refused:
        return ended(refused.refusal)
    return ACCEPTED + bytes([uplink]) + listed(uplink, *fopts) + listed(uplink, *payload)


# ---- Kinds of call: fields in their order, and the answer ----------------------------------------------------------

MIC_JOIN_REQUEST, MIC_JOIN_ACCEPT, MIC_DATA = 1, 2, 3
DECRYPT_DATA, DECRYPT_DATA_CHECKED, DECRYPT_JOIN_ACCEPT, DECRYPT_JOIN_ACCEPT_CHECKED = 4, 5, 6, 7
SESSION_KEYS = 8
BUILD_JOIN_REQUEST, BUILD_JOIN_ACCEPT, BUILD_DATA = 9, 10, 11
AMEND = 12
READ, READ_CLEAR_JOIN_ACCEPT = 13, 14
HOLD = 15
READ_JOIN_REQUEST = 16
AMEND_LENT = 17
READ_COMMANDS, WRITE_COMMAND, FRAME_COMMANDS = 18, 19, 20

KINDS = {
    MIC_JOIN_REQUEST: ([KEY, Bytes()], tested(oracle.test_mic_join_request)),
    MIC_JOIN_ACCEPT: ([KEY, Bytes()], tested(oracle.test_mic_clear_join_accept)),
    MIC_DATA: ([KEY, WORD, Bytes()], tested(oracle.test_mic_data)),
    DECRYPT_DATA: ([MAYBE_KEY, MAYBE_KEY, WORD, Bytes()], changed(oracle.decrypt_data)),
    DECRYPT_DATA_CHECKED: ([KEY, MAYBE_KEY, WORD, Bytes()], changed(oracle.decrypt_data_checked)),
    DECRYPT_JOIN_ACCEPT: ([KEY, Bytes()], changed(oracle.decrypt_join_accept)),
    DECRYPT_JOIN_ACCEPT_CHECKED: ([KEY, Bytes()], changed(oracle.decrypt_join_accept_checked)),
    SESSION_KEYS: ([KEY, Fixed(2), Bytes()], derived),
    BUILD_JOIN_REQUEST: ([Fixed(8), Fixed(8), Fixed(2), KEY, HALF], built(oracle.build_join_request)),
    BUILD_JOIN_ACCEPT: (
        [Fixed(3), Fixed(3), Fixed(4), BYTE, BYTE, Channels(), KEY, HALF],
        built(oracle.build_join_accept),
    ),
    BUILD_DATA: (
        [BYTE, BYTE, Fixed(4), BYTE, WORD, Maybe(1, number=True), Bytes(), Bytes(), KEY, KEY, HALF],
        built(build_data),
    ),
    AMEND: ([KEY, KEY, WORD, Bytes(), Amendments()], amended),
    READ: ([Bytes()], shown),
    READ_CLEAR_JOIN_ACCEPT: ([Bytes()], shown_clear),
    HOLD: ([KEY, KEY, WORD, Bytes(), HALF, History()], held),
    READ_JOIN_REQUEST: ([Bytes()], shown_request),
    AMEND_LENT: ([KEY, KEY, WORD, Bytes(), NumberedAmendments()], changed(oracle.amend_lent, frame=-2)),
    READ_COMMANDS: ([BYTE, LONG, Bytes()], read_commands),
    WRITE_COMMAND: ([BYTE, BYTE, Values(), HALF, LONG], write_command),
    FRAME_COMMANDS: ([Bytes()], frame_commands),
}


def write_body(kind, arguments):
    fields, _ = KINDS[kind]
    assert len(fields) == len(arguments)
    return bytes([kind]) + b"".join(f.write(a) for f, a in zip(fields, arguments))


def read_body(body):
    fields, _ = KINDS[body[0]]
    at, arguments = 1, []
    for field in fields:
        value, at = field.read(body, at)
        arguments.append(value)
    assert at == len(body)
    return body[0], arguments


def answer(body):
    """The line of the right answer to a record's body."""
    kind, arguments = read_body(body)
    return KINDS[kind][1](*arguments).hex()


def write_file(bodies):
    assert all(len(b) < 1000 for b in bodies)
    return b"".join(len(b).to_bytes(2, "little") + b for b in bodies)


def read_file(data):
    at, bodies = 0, []
    while at < len(data):
        end = at + 2 + int.from_bytes(data[at : at + 2], "little")
        bodies.append(data[at + 2 : end])
        at = end
    assert at == len(data)
    return bodies


def answers(bodies):
    return "".join(answer(b) + "\n" for b in bodies) + f"{len(bodies)} cases\n"
