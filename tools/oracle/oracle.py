"""LoRaWAN 1.0 frames and MAC commands by docs/RULES.md and LoRaWAN 1.0, for making right answers.

Nothing here is shared with the codec: the cipher and the MAC are OpenSSL's, the rest is written from the
documents, plainly and without regard to speed. A frame is `bytes`; a call that the codec makes on a lent slice
gives back the whole slice as it stands afterwards.
"""

from collections import namedtuple

from cryptography.hazmat.primitives.ciphers import Cipher, algorithms, modes
from cryptography.hazmat.primitives.cmac import CMAC

# ---- Numbers that a caller may see -----------------------------------------------------------------------------

INVALID_PAYLOAD = 1
UNSUPPORTED_MAJOR_VERSION = 2
INVALID_MESSAGE_TYPE = 3
INVALID_DATA = 4
INVALID_MIC = 5
INVALID_KEY = 6
BUFFER_TOO_SHORT = 7
INVALID_CHANNEL_LIST = 8
MAC_COMMAND_TOO_BIG_FOR_FOPTS = 9
DATA_AND_MAC_COMMANDS_IN_PAYLOAD_NOT_ALLOWED = 10
FRM_PAYLOAD_WITH_FPORT_ZERO = 11
FRAME_TOO_LONG = 12
FOPTS_LEN_SET = 13
COUNTER_MISMATCH = 14
OFFSET_OUTSIDE = 15
UNKNOWN_COMMAND = 16
COMMAND_CUT_SHORT = 17
VALUE_OUT_OF_RANGE = 18

FRAME_MAX = 255
JOIN_REQUEST, JOIN_ACCEPT = 0, 1
DATA_TYPES = (2, 3, 4, 5)


# What a call ends in beside its values: a number of the table with its place, or number 0 where nothing is refused.
Refusal = namedtuple("Refusal", "number place")
ACCEPTED = Refusal(0, 0)


class Refused(Exception):
    """Ends a call with a refusal. Reading a frame or a command names a place; of every other refusal it is 0."""

    def __init__(self, number, place=0):
        super().__init__(number, place)
        self.refusal = Refusal(number, place)


# ---- Cipher and MAC (FIPS 197, RFC 4493), by OpenSSL -------------------------------------------------------------


def aes_encrypt(key, block):
    """AES-128 encryption of one block."""
    assert len(key) == 16 and len(block) == 16
    step = Cipher(algorithms.AES(key), modes.ECB()).encryptor()
    return step.update(block) + step.finalize()


def aes_decrypt(key, block):
    """AES-128 decryption of one block."""
    assert len(key) == 16 and len(block) == 16
    step = Cipher(algorithms.AES(key), modes.ECB()).decryptor()
    return step.update(block) + step.finalize()


def aes_cmac(key, message):
    """The whole tag of 16 bytes."""
    mac = CMAC(algorithms.AES(key))
    mac.update(message)
    return mac.finalize()


def mic(key, message):
    """The tag's first four bytes."""
    return aes_cmac(key, message)[:4]


def xor(a, b):
    return bytes(x ^ y for x, y in zip(a, b))


# ---- Reading -------------------------------------------------------------------------------------------------

JoinRequest = namedtuple("JoinRequest", "mtype app_eui dev_eui dev_nonce mic")
JoinAccept = namedtuple("JoinAccept", "mtype length")
Data = namedtuple(
    "Data",
    "mtype header_length dev_addr fctrl fcnt fopts port payload commands uplink adr adr_ack_req ack f_pending mic",
)
Clear = namedtuple("Clear", "app_nonce net_id dev_addr dl_settings rx_delay channels masks mic")


def read(frame):
    """The reading of a frame: places as pairs (from, to), numbers as numbers. Refuses in the order 12, 1, 2, 3, 4.

    The place of a refusal is the frame's length where that is wrong, else the place of the byte that is.
    """
    if len(frame) > FRAME_MAX:
        raise Refused(FRAME_TOO_LONG, len(frame))
    if len(frame) < 12:
        raise Refused(INVALID_PAYLOAD, len(frame))
    if frame[0] % 4 != 0:
        raise Refused(UNSUPPORTED_MAJOR_VERSION, 0)
    mtype = frame[0] >> 5
    if mtype > 5:
        raise Refused(INVALID_MESSAGE_TYPE, 0)
    if mtype == JOIN_REQUEST:
        return read_join_request(frame)
    if mtype == JOIN_ACCEPT:
        return read_join_accept(frame)
    return read_data(frame)


def read_join_request(frame):
    if len(frame) != 23:
        raise Refused(INVALID_DATA, len(frame))
    return JoinRequest(JOIN_REQUEST, (1, 9), (9, 17), (17, 19), (19, 23))


def read_join_accept(frame):
    if len(frame) not in (17, 33):
        raise Refused(INVALID_DATA, len(frame))
    return JoinAccept(JOIN_ACCEPT, len(frame))


def read_data(frame):
    length = len(frame)
    header = 7 + frame[5] % 16
    if 5 + header > length:
        raise Refused(INVALID_DATA, 5)
    mtype = frame[0] >> 5
    uplink = mtype in (2, 4)
    fctrl = frame[5]
    port = frame[1 + header] if length >= header + 6 else None
    return Data(
        mtype=mtype,
        header_length=header,
        dev_addr=(1, 5),
        fctrl=fctrl,
        fcnt=frame[6] + 256 * frame[7],
        fopts=(8, 1 + header),
        port=port,
        payload=None if port is None else (header + 2, length - 4),
        commands=port == 0,
        uplink=uplink,
        adr=bool(fctrl & 0x80),
        adr_ack_req=uplink and bool(fctrl & 0x40),
        ack=bool(fctrl & 0x20),
        f_pending=not uplink and bool(fctrl & 0x10),
        mic=(length - 4, length),
    )


def read_clear_join_accept(frame):
    """What a decrypted join-accept says; the frame is one that `read` accepts."""
    channels = masks = None
    if len(frame) == 33 and frame[28] == 0:
        channels = [int.from_bytes(frame[13 + 3 * i : 16 + 3 * i], "little") for i in range(5)]
    if len(frame) == 33 and frame[28] == 1:
        masks = (13, 22)
    return Clear((1, 4), (4, 7), (7, 11), frame[11], frame[12] % 16, channels, masks, (len(frame) - 4, len(frame)))


def read_as(kind, frame):
    """The reading, refused with 4 and without a place if it is of another kind."""
    reading = read(frame)
    if not isinstance(reading, kind):
        raise Refused(INVALID_DATA)
    return reading


def nwk_id(dev_addr):
    """The seven highest bits of an address (LoRaWAN 1.0, 6.1.1), whose low byte comes first in a frame."""
    return int.from_bytes(dev_addr, "little") >> 25


# ---- Helper blocks, MIC, key stream (LoRaWAN 1.0, 4.3.3 and 4.4) ---------------------------------------------------


def helper_block(first, frame, counter, last):
    direction = frame[0] >> 5 & 1
    return bytes([first, 0, 0, 0, 0, direction]) + frame[1:5] + counter.to_bytes(4, "little") + bytes([0, last])


def data_mic(network_key, counter, message):
    """The MIC of a data message, which is the frame without its last four bytes."""
    return mic(network_key, helper_block(0x49, message, counter, len(message)) + message)


def key_stream(key, frame, counter, length):
    blocks = (length + 15) // 16
    stream = b"".join(aes_encrypt(key, helper_block(0x01, frame, counter, i + 1)) for i in range(blocks))
    return stream[:length]


def selected_key(reading, network_key, application_key):
    """The network key where there is no byte of payload, and on port 0."""
    start, end = reading.payload or (0, 0)
    return network_key if start == end or reading.port == 0 else application_key


def crypt_payload(frame, reading, key, counter):
    """The frame with its payload encrypted or decrypted, which is the same step."""
    if reading.payload is None:
        return frame
    a, b = reading.payload
    return frame[:a] + xor(frame[a:b], key_stream(key, frame, counter, b - a)) + frame[b:]


def full_counter(counter, fcnt):
    """The caller's high half and the frame's low half."""
    return counter // 65536 * 65536 + fcnt


# ---- MIC tests -----------------------------------------------------------------------------------------------


def test_mic_join_request(app_key, frame):
    read_as(JoinRequest, frame)
    return frame[-4:] == mic(app_key, frame[:-4])


def test_mic_clear_join_accept(app_key, frame):
    read_as(JoinAccept, frame)
    return frame[-4:] == mic(app_key, frame[:-4])


def test_mic_data(network_key, counter, frame):
    read_as(Data, frame)
    return frame[-4:] == data_mic(network_key, counter, frame[:-4])


# ---- Decryption ------------------------------------------------------------------------------------------------


def decrypt_data(network_key, application_key, counter, frame):
    """Plain decryption: reading, 6. A key that was not given is None."""
    reading = read_as(Data, frame)
    key = selected_key(reading, network_key, application_key)
    if key is None:
        raise Refused(INVALID_KEY)
    return crypt_payload(frame, reading, key, full_counter(counter, reading.fcnt))


def decrypt_data_checked(network_key, application_key, counter, frame):
    """Checked decryption: reading, 5, 6."""
    if not test_mic_data(network_key, counter, frame):
        raise Refused(INVALID_MIC)
    return decrypt_data(network_key, application_key, counter, frame)


def each_block(step, key, frame):
    """The frame with each 16-byte block from byte 1 put through AES."""
    blocks = [step(key, frame[i : i + 16]) for i in range(1, len(frame), 16)]
    return frame[:1] + b"".join(blocks)


def decrypt_join_accept(app_key, frame):
    read_as(JoinAccept, frame)
    return each_block(aes_encrypt, app_key, frame)


def decrypt_join_accept_checked(app_key, frame):
    clear = decrypt_join_accept(app_key, frame)
    if not test_mic_clear_join_accept(app_key, clear):
        raise Refused(INVALID_MIC)
    return clear


# ---- Session keys (LoRaWAN 1.0, 6.2.5) ---------------------------------------------------------------------------


def session_keys(app_key, dev_nonce, clear):
    """Network and application session key from a clear join-accept."""
    read_as(JoinAccept, clear)
    rest = clear[1:4] + clear[4:7] + dev_nonce + bytes(7)
    return aes_encrypt(app_key, bytes([1]) + rest), aes_encrypt(app_key, bytes([2]) + rest)


# ---- Building ------------------------------------------------------------------------------------------------


def build_join_request(app_eui, dev_eui, dev_nonce, app_key, room):
    if room < 23:
        raise Refused(BUFFER_TOO_SHORT)
    message = bytes([JOIN_REQUEST << 5]) + app_eui + dev_eui + dev_nonce
    return message + mic(app_key, message)


def channel_list(channels):
    """CFList: five frequencies of three bytes, low byte first, then its type 0 (LoRaWAN 1.0, 6.2.5 and 7.1.4)."""
    filled = list(channels) + [0] * (5 - len(channels))
    return b"".join(c.to_bytes(3, "little") for c in filled) + bytes([0])


def build_join_accept(app_nonce, net_id, dev_addr, dl_settings, rx_delay, channels, app_key, room):
    """`channels` is None without a list. Refuses in the order 8, 7."""
    if channels is not None and (len(channels) > 5 or any(c > 16777215 for c in channels)):
        raise Refused(INVALID_CHANNEL_LIST)
    if room < (17 if channels is None else 33):
        raise Refused(BUFFER_TOO_SHORT)
    message = bytes([JOIN_ACCEPT << 5]) + app_nonce + net_id + dev_addr + bytes([dl_settings, rx_delay])
    if channels is not None:
        message += channel_list(channels)
    return each_block(aes_decrypt, app_key, message + mic(app_key, message))


DataFields = namedtuple("DataFields", "confirmed uplink dev_addr fctrl counter port")


def fill_data(fields, commands, payload, room):
    """The clear frame without its MIC. Refuses in the order 7, 13, 9, 10, 11, 12. An absent port is None."""
    if room < 255:
        raise Refused(BUFFER_TOO_SHORT)
    if fields.fctrl % 16 != 0:
        raise Refused(FOPTS_LEN_SET)
    if len(commands) > 15 and fields.port != 0:
        raise Refused(MAC_COMMAND_TOO_BIG_FOR_FOPTS)
    if fields.port == 0 and payload:
        raise Refused(DATA_AND_MAC_COMMANDS_IN_PAYLOAD_NOT_ALLOWED)
    if fields.port is None and payload:
        raise Refused(FRM_PAYLOAD_WITH_FPORT_ZERO)
    fopts, inner = (b"", commands) if fields.port == 0 else (commands, payload)
    mtype = 2 + (0 if fields.uplink else 1) + (2 if fields.confirmed else 0)
    port = b"" if fields.port is None else bytes([fields.port])
    head = bytes([mtype << 5]) + fields.dev_addr + bytes([fields.fctrl + len(fopts)])
    clear = head + (fields.counter % 65536).to_bytes(2, "little") + fopts + port + inner
    if len(clear) + 4 > FRAME_MAX:
        raise Refused(FRAME_TOO_LONG)
    return clear


def seal_data(clear, network_key, application_key, counter):
    """The clear frame with its payload encrypted and its MIC appended."""
    unsigned = clear + bytes(4)
    reading = read_data(unsigned)
    key = selected_key(reading, network_key, application_key)
    message = crypt_payload(unsigned, reading, key, counter)[:-4]
    return message + data_mic(network_key, counter, message)


def build_data(fields, commands, payload, network_key, application_key, room):
    clear = fill_data(fields, commands, payload, room)
    return seal_data(clear, network_key, application_key, fields.counter)


# ---- Amendments ------------------------------------------------------------------------------------------------


def open_for_amendment(network_key, application_key, counter, frame):
    """The clear frame without its MIC. Refuses in the order reading, 14, 5."""
    reading = read_as(Data, frame)
    if counter % 65536 != reading.fcnt:
        raise Refused(COUNTER_MISMATCH)
    return decrypt_data_checked(network_key, application_key, counter, frame)[:-4]


def amend(clear, offset, value):
    """The clear frame with one payload byte set."""
    place = read_data(clear + bytes(4)).payload
    length = 0 if place is None else place[1] - place[0]
    if offset >= length:
        raise Refused(OFFSET_OUTSIDE)
    at = place[0] + offset
    return clear[:at] + bytes([value]) + clear[at + 1 :]


def amend_list(clear, amendments):
    """The clear frame with a whole list made, or a refusal and then none of it."""
    for offset, value in amendments:
        clear = amend(clear, offset, value)
    return clear


def amend_lent(network_key, application_key, counter, frame, amendments):
    """A list of amendments of a frame that is lent as bytes: reading, 14, 5, 15."""
    clear = open_for_amendment(network_key, application_key, counter, frame)
    return seal_data(amend_list(clear, amendments), network_key, application_key, counter)


def hold(network_key, application_key, counter, frame, calls):
    """The opening's refusal, that of each call, and the frame that is held in the end.

    A call is one amendment (a pair) or a list of them. A refused opening leaves a buffer of zeros, which holds a frame
    of no bytes: each amendment to it is refused, and only a list without one is made.
    """
    lists = [call if isinstance(call, list) else [call] for call in calls]
    try:
        clear = open_for_amendment(network_key, application_key, counter, frame)
    except Refused as refused:
        outside = Refusal(OFFSET_OUTSIDE, 0)
        return refused.refusal, [outside if amendments else ACCEPTED for amendments in lists], b""
    refusals = []
    for amendments in lists:
        try:
            clear = amend_list(clear, amendments)
            refusals.append(ACCEPTED)
        except Refused as refused:
            refusals.append(refused.refusal)
    return ACCEPTED, refusals, seal_data(clear, network_key, application_key, counter)


def take_out(held, room):
    """The frame that is held, as a slice of so many bytes takes it."""
    if len(held) > room:
        raise Refused(BUFFER_TOO_SHORT)
    return held


def amend_all(network_key, application_key, counter, frame, amendments):
    """The opening's refusal, that of each amendment, the caller's frame afterwards.

    Where the opening is refused the frame stays.
    """
    refusal, refusals, held = hold(network_key, application_key, counter, frame, amendments)
    return refusal, refusals, held if refusal == ACCEPTED else frame


# ---- A frame held open in bytes (docs/RULES.md, Amendments) --------------------------------------------------------


def doubled(byte):
    """Multiplication by x in the field of FIPS 197, 4.2."""
    return byte << 1 & 0xFF ^ (0x1B if byte & 0x80 else 0)


def product(a, b):
    """Multiplication in that field: the doublings of a that b's bits select."""
    result = 0
    for bit in range(8):
        result ^= a if b >> bit & 1 else 0
        a = doubled(a)
    return result


def substituted(byte):
    """SubBytes of one byte (FIPS 197, 5.1.1): the inverse, 0 for 0, then the affine map."""
    inverse = next((b for b in range(256) if product(byte, b) == 1), 0)
    turned = [inverse >> (8 - turn) | inverse << turn & 0xFF for turn in range(5)]
    return turned[0] ^ turned[1] ^ turned[2] ^ turned[3] ^ turned[4] ^ 0x63


def key_expansion(key):
    """The 176 bytes of a key schedule (FIPS 197, 5.2)."""
    words, constant = [key[i : i + 4] for i in range(0, 16, 4)], 1
    for i in range(4, 44):
        word = words[i - 1]
        if i % 4 == 0:
            word = bytes(substituted(b) for b in word[1:] + word[:1])
            word, constant = bytes([word[0] ^ constant]) + word[1:], doubled(constant)
        words.append(xor(words[i - 4], word))
    return b"".join(words)


def chain_values(network_key, counter, frame):
    """The chain values of the MIC after every block of its message but the last, then zeros: 256 bytes."""
    message = helper_block(0x49, frame, counter, len(frame) - 4) + frame[:-4]
    values, value = b"", bytes(16)
    for at in range(0, len(message) - 16, 16):
        value = aes_encrypt(network_key, xor(value, message[at : at + 16]))
        values += value
    return values + bytes(256 - len(values))


def held_bytes(network_key, application_key, counter, frame):
    """The 868 bytes that hold a data frame open."""
    schedules = key_expansion(network_key) + key_expansion(application_key)
    chains = chain_values(network_key, counter, frame)
    return frame + bytes(255 - len(frame)) + bytes([len(frame)]) + schedules + chains + counter.to_bytes(4, "little")


# ---- MAC commands (LoRaWAN 1.0.2, section 5) -----------------------------------------------------------------------

# The bytes behind an identifier are one number, low byte first: a field is the bits of it from `low` on, so many as it
# is wide. All other bits are reserved: 0 where they are written, not looked at where they are read.
Field = namedtuple("Field", "name low width signed", defaults=[False])
Layout = namedtuple("Layout", "name length fields")


def layout(name, length, *fields):
    return Layout(name, length, [Field(*field) for field in fields])


DOWN = {
    0x02: layout("LinkCheckAns", 2, ("margin", 0, 8), ("gateways", 8, 8)),
    0x03: layout(
        "LinkADRReq",
        4,
        ("data_rate", 4, 4),
        ("tx_power", 0, 4),
        ("mask", 8, 16),
        ("control", 28, 3),
        ("transmissions", 24, 4),
    ),
    0x04: layout("DutyCycleReq", 1, ("max", 0, 4)),
    0x05: layout("RXParamSetupReq", 4, ("rx1_offset", 4, 3), ("rx2_data_rate", 0, 4), ("frequency", 8, 24)),
    0x06: layout("DevStatusReq", 0),
    0x07: layout(
        "NewChannelReq", 5, ("index", 0, 8), ("frequency", 8, 24), ("max_data_rate", 36, 4), ("min_data_rate", 32, 4)
    ),
    0x08: layout("RXTimingSetupReq", 1, ("delay", 0, 4)),
    0x09: layout("TxParamSetupReq", 1, ("downlink_dwell", 5, 1), ("uplink_dwell", 4, 1), ("max_eirp", 0, 4)),
    0x0A: layout("DlChannelReq", 4, ("index", 0, 8), ("frequency", 8, 24)),
}
UP = {
    0x02: layout("LinkCheckReq", 0),
    0x03: layout("LinkADRAns", 1, ("power", 2, 1), ("data_rate", 1, 1), ("mask", 0, 1)),
    0x04: layout("DutyCycleAns", 0),
    0x05: layout("RXParamSetupAns", 1, ("rx1_offset", 2, 1), ("rx2_data_rate", 1, 1), ("channel", 0, 1)),
    0x06: layout("DevStatusAns", 2, ("battery", 0, 8), ("margin", 8, 6, True)),
    0x07: layout("NewChannelAns", 1, ("range", 1, 1), ("frequency", 0, 1)),
    0x08: layout("RXTimingSetupAns", 0),
    0x09: layout("TxParamSetupAns", 0),
    0x0A: layout("DlChannelAns", 1, ("uplink", 1, 1), ("frequency", 0, 1)),
}

# A command that was read: its place and that of the next, its identifier, its values in the order of the fields.
Command = namedtuple("Command", "start end identifier values")


def layout_of(uplink, identifier):
    """None where the identifier is unknown in this direction."""
    return (UP if uplink else DOWN).get(identifier)


def values_held(field):
    """The values that a field can hold: of a signed one, those of two's complement."""
    least = -(1 << field.width - 1) if field.signed else 0
    return range(least, least + (1 << field.width))


def value_in(field, number):
    value = number >> field.low & (1 << field.width) - 1
    return value if value in values_held(field) else value - (1 << field.width)


def read_command(uplink, data, offset):
    """The command at an offset, or None at or past the end of the list. Refuses in the order 16, 17."""
    if offset >= len(data):
        return None
    identifier = data[offset]
    found = layout_of(uplink, identifier)
    if found is None:
        raise Refused(UNKNOWN_COMMAND, offset)
    end = offset + 1 + found.length
    if end > len(data):
        raise Refused(COMMAND_CUT_SHORT, offset)
    number = int.from_bytes(data[offset + 1 : end], "little")
    return Command(offset, end, identifier, [value_in(field, number) for field in found.fields])


def read_commands(uplink, data, offset=0):
    """The commands from an offset on, and the refusal that ends them, if one does."""
    commands = []
    try:
        while (command := read_command(uplink, data, offset)) is not None:
            commands.append(command)
            offset = command.end
    except Refused as refused:
        return commands, refused.refusal
    return commands, ACCEPTED


def command_bytes(uplink, identifier, values):
    """A command of these values, of which those past its last field are not looked at. Refuses in the order 16, 18."""
    found = layout_of(uplink, identifier)
    if found is None:
        raise Refused(UNKNOWN_COMMAND)
    number = 0
    for field, value in zip(found.fields, values):
        if value not in values_held(field):
            raise Refused(VALUE_OUT_OF_RANGE)
        number += value % (1 << field.width) << field.low
    return bytes([identifier]) + number.to_bytes(found.length, "little")


def write_command(uplink, identifier, values, out, offset):
    """The slice with a command written at an offset, and the offset past it. Refuses in the order 16, 18, 7."""
    written = command_bytes(uplink, identifier, values)
    end = offset + len(written)
    if end > len(out):
        raise Refused(BUFFER_TOO_SHORT)
    return out[:offset] + written + out[end:], end


def commands_of(frame):
    """Whether a data frame goes up, and its commands in FOpts and in a clear payload on port 0.

    Either list is as `read_commands` gives it, with offsets in the frame.
    """
    reading = read_as(Data, frame)
    start, end = reading.payload if reading.commands else (0, 0)
    fopts = read_commands(reading.uplink, frame[: reading.fopts[1]], reading.fopts[0])
    return reading.uplink, fopts, read_commands(reading.uplink, frame[:end], start)
