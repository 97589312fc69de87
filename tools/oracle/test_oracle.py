"""Published vectors, the crate's documentation, the examples of docs/RULES.md, MAC commands, and the written files.

Run: python3 tools/oracle/test_oracle.py
"""

import pathlib
import unittest

import c_values
import generate
import oracle
import records

HEX = bytes.fromhex


def refusal_of(call, *arguments):
    """Number and place."""
    try:
        call(*arguments)
        return oracle.ACCEPTED
    except oracle.Refused as refused:
        return refused.refusal


def frame_of(first, length, **at):
    frame = bytearray([first] + [0xEE] * (length - 1))
    for place, value in at.items():
        frame[int(place[1:])] = value
    return bytes(frame)


class Published(unittest.TestCase):
    def test_fips_197_c1(self):
        key = HEX("000102030405060708090a0b0c0d0e0f")
        clear, secret = HEX("00112233445566778899aabbccddeeff"), HEX("69c4e0d86a7b0430d8cdb78070b4c55a")
        self.assertEqual(oracle.aes_encrypt(key, clear), secret)
        self.assertEqual(oracle.aes_decrypt(key, secret), clear)

    def test_fips_197_b(self):
        key = HEX("2b7e151628aed2a6abf7158809cf4f3c")
        clear, secret = HEX("3243f6a8885a308d313198a2e0370734"), HEX("3925841d02dc09fbdc118597196a0b32")
        self.assertEqual(oracle.aes_encrypt(key, clear), secret)

    def test_fips_197_a1(self):
        schedule = oracle.key_expansion(HEX("2b7e151628aed2a6abf7158809cf4f3c"))
        self.assertEqual((schedule[16:20], schedule[172:]), (HEX("a0fafe17"), HEX("b6630ca6")))

    def test_rfc_4493_4(self):
        key = HEX("2b7e151628aed2a6abf7158809cf4f3c")
        message = HEX(
            "6bc1bee22e409f96e93d7e117393172aae2d8a571e03ac9c9eb76fac45af8e51"
            "30c81c46a35ce411e5fbc1191a0a52eff69f2445df4f9b17ad2b417be66c3710"
        )
        tags = {
            0: "bb1d6929e95937287fa37d129b756746",
            16: "070a16b46b4d4144f79bdd9dd04a287c",
            40: "dfa66747de9ae63030ca32611497c827",
            64: "51f0bebf7e3b9d92fc49741779363cfe",
        }
        for length, tag in tags.items():
            self.assertEqual(oracle.aes_cmac(key, message[:length]), HEX(tag))


class Documented(unittest.TestCase):
    """The frames of the crate's documentation: under the keys beside them there, they open and can be built."""

    def test_join_request(self):
        frame = generate.DOCUMENTED_JOIN_REQUEST
        self.assertTrue(oracle.test_mic_join_request(bytes([1] * 16), frame))
        fields = frame[1:9], frame[9:17], frame[17:19]
        self.assertEqual(oracle.build_join_request(*fields, bytes([1] * 16), 23), frame)

    def test_join_accept(self):
        key, frame = generate.DOCUMENTED_APP_KEY, generate.DOCUMENTED_JOIN_ACCEPT
        clear = oracle.decrypt_join_accept_checked(key, frame)
        said = oracle.read_clear_join_accept(clear)
        self.assertEqual((said.dl_settings, said.rx_delay), (clear[11], clear[12] % 16))
        self.assertEqual((said.channels, said.masks), (None, None))
        fields = clear[1:4], clear[4:7], clear[7:11], clear[11], clear[12]
        self.assertEqual(oracle.build_join_accept(*fields, None, key, 17), frame)

    def test_data(self):
        network, application = generate.DOCUMENTED_NETWORK_KEY, generate.DOCUMENTED_APPLICATION_KEY
        frame = generate.DOCUMENTED_DATA
        clear = oracle.decrypt_data_checked(network, application, 1, frame)
        reading = oracle.read(clear)
        self.assertEqual(clear[slice(*reading.payload)], b"hello")
        fields = oracle.DataFields(False, True, bytes([4, 3, 2, 1]), 0x80, 1, 1)
        self.assertEqual(oracle.build_data(fields, b"", b"hello", network, application, 255), frame)


class Rules(unittest.TestCase):
    """The rows of docs/RULES.md, "Examples"."""

    def refused(self, *frames):
        return [refusal_of(oracle.read, frame) for frame in frames]

    def test_p1_to_p4(self):
        self.assertEqual(self.refused(b"", frame_of(0x43, 11)), [(1, 0), (1, 11)])
        reading = oracle.read(frame_of(0x40, 12, b5=0))
        self.assertEqual((reading.port, reading.payload), (None, None))
        self.assertEqual(self.refused(frame_of(0x40, 12, b5=1)), [(4, 5)])

    def test_p5_to_p7(self):
        reading = oracle.read(frame_of(0x40, 13, b5=1))
        self.assertEqual((reading.fopts, reading.payload), ((8, 9), None))
        reading = oracle.read(frame_of(0x40, 13, b5=0, b8=0))
        self.assertEqual((reading.port, reading.payload, reading.commands), (0, (9, 9), True))
        reading = oracle.read(frame_of(0x40, 14, b5=0, b8=0))
        self.assertEqual((reading.port, reading.payload, reading.commands), (0, (9, 10), True))

    def test_p8_to_p13(self):
        accepted = oracle.ACCEPTED
        self.assertEqual(self.refused(frame_of(0x41, 12), frame_of(0xC0, 12)), [(2, 0), (3, 0)])
        self.assertEqual(self.refused(*(frame_of(0, n) for n in (22, 23))), [(4, 22), accepted])
        self.assertEqual(self.refused(*(frame_of(0x20, n) for n in (17, 18, 33))), [accepted, (4, 18), accepted])
        self.assertEqual(self.refused(frame_of(0x40, 256)), [(12, 256)])
        reading = oracle.read(frame_of(0x5C, 12, b5=0))
        self.assertEqual((reading.mtype, reading.port, reading.payload), (2, None, None))

    def test_p17(self):
        reading = oracle.read(frame_of(0x40, 13, b5=0, b8=5))
        self.assertEqual((reading.port, reading.payload, reading.commands), (5, (9, 9), False))

    def test_a_port_with_nothing_behind_it_is_under_the_network_key(self):
        for port in (0, 5):
            frame = frame_of(0x40, 13, b5=0, b8=port)
            self.assertEqual(oracle.decrypt_data(bytes(16), None, 0, frame), frame)
            self.assertEqual(refusal_of(oracle.decrypt_data, None, bytes(16), 0, frame), (6, 0))

    def test_p14_to_p16(self):
        self.assertEqual(oracle.full_counter(0x0001FFFF, 2), 0x00010002)
        fields = oracle.DataFields(False, True, bytes(4), 0, 0, 1)
        for commands, payload in ((0, 242), (15, 227)):
            frame = oracle.build_data(fields, bytes(commands), bytes(payload), bytes(16), bytes(16), 255)
            self.assertEqual(len(frame), 255)
            longer = fields, bytes(commands), bytes(payload + 1), bytes(16), bytes(16), 255
            self.assertEqual(refusal_of(oracle.build_data, *longer), (12, 0))


class Places(unittest.TestCase):
    """docs/RULES.md, Refusals: the place that each refusal of reading names, and the calls that hand it on."""

    KEY = bytes(16)
    JOIN_REQUEST, JOIN_ACCEPT, DATA = frame_of(0x00, 23), frame_of(0x20, 17), frame_of(0x40, 12, b5=0)

    # Frames that reading refuses, with number and place.
    REFUSED = [
        *(((12, length), frame_of(0x40, length)) for length in (256, 257, 70000)),
        *(((1, length), frame_of(0x43, 11)[:length]) for length in (0, 1, 11)),
        *(((2, 0), frame_of(first, 23)) for first in (0x01, 0x22, 0x43, 0xE3)),
        *(((3, 0), frame_of(first, 23)) for first in (0xC0, 0xFC)),
        *(((4, length), frame_of(0x00, length)) for length in (12, 22, 24, 255)),
        *(((4, length), frame_of(0x20, length)) for length in (12, 16, 18, 32, 34, 255)),
        *(((4, 5), frame_of(first, 11 + n, b5=0xF0 + n)) for first in (0x40, 0x60, 0x80, 0xA0) for n in (1, 9, 15)),
    ]

    # Every call that reads first, with the type that it needs.
    CALLS = [
        (JOIN_REQUEST, lambda frame: oracle.test_mic_join_request(Places.KEY, frame)),
        (JOIN_REQUEST, lambda frame: oracle.read_as(oracle.JoinRequest, frame)),
        (JOIN_ACCEPT, lambda frame: oracle.read_as(oracle.JoinAccept, frame)),
        (JOIN_ACCEPT, lambda frame: oracle.test_mic_clear_join_accept(Places.KEY, frame)),
        (JOIN_ACCEPT, lambda frame: oracle.decrypt_join_accept(Places.KEY, frame)),
        (JOIN_ACCEPT, lambda frame: oracle.decrypt_join_accept_checked(Places.KEY, frame)),
        (JOIN_ACCEPT, lambda frame: oracle.session_keys(Places.KEY, bytes(2), frame)),
        (DATA, lambda frame: oracle.test_mic_data(Places.KEY, 7, frame)),
        (DATA, lambda frame: oracle.decrypt_data(None, None, 7, frame)),
        (DATA, lambda frame: oracle.decrypt_data_checked(Places.KEY, None, 7, frame)),
        (DATA, lambda frame: oracle.open_for_amendment(Places.KEY, Places.KEY, 7, frame)),
        (DATA, lambda frame: oracle.amend_lent(Places.KEY, Places.KEY, 7, frame, [(300, 1)])),
    ]

    def test_each_row(self):
        for refusal, frame in self.REFUSED:
            self.assertEqual(refusal_of(oracle.read, frame), refusal)

    def test_every_call_hands_it_on(self):
        for refusal, frame in self.REFUSED:
            self.assertEqual([refusal_of(call, frame) for _, call in self.CALLS], [refusal] * len(self.CALLS))
            self.assertEqual(oracle.hold(self.KEY, self.KEY, 7, frame, [(0, 1)]), (refusal, [(15, 0)], b""))
            self.assertEqual(oracle.amend_all(self.KEY, self.KEY, 7, frame, [(0, 1)]), (refusal, [(15, 0)], frame))

    def test_another_type_has_no_place(self):
        for needed, call in self.CALLS:
            for frame in (self.JOIN_REQUEST, self.JOIN_ACCEPT, self.DATA):
                self.assertEqual(refusal_of(call, frame) == (4, 0), frame != needed)

    def test_no_other_refusal_has_a_place(self):
        accept = frame_of(0x20, 17)
        self.assertEqual(refusal_of(oracle.decrypt_join_accept_checked, self.KEY, accept), (5, 0))
        self.assertEqual(refusal_of(oracle.decrypt_data, None, None, 0, self.DATA), (6, 0))
        self.assertEqual(refusal_of(oracle.open_for_amendment, self.KEY, self.KEY, 0, self.DATA), (14, 0))
        self.assertEqual(refusal_of(oracle.open_for_amendment, self.KEY, self.KEY, 0xEEEE, self.DATA), (5, 0))
        self.assertEqual(refusal_of(oracle.take_out, self.DATA, 11), (7, 0))
        self.assertEqual(refusal_of(oracle.build_join_request, bytes(8), bytes(8), bytes(2), self.KEY, 22), (7, 0))
        for channels, room, number in (([0] * 6, 33, 8), ([0], 32, 7)):
            call = bytes(3), bytes(3), bytes(4), 0, 0, channels, self.KEY, room
            self.assertEqual(refusal_of(oracle.build_join_accept, *call), (number, 0))

    def test_no_building_of_data_has_a_place(self):
        rows = [(254, 0, 1, 0, 0, 7), (255, 1, 1, 0, 0, 13), (255, 0, 1, 16, 0, 9), (255, 0, 0, 0, 1, 10)]
        rows += [(255, 0, None, 0, 1, 11), (255, 0, 1, 0, 243, 12)]
        for room, fctrl, port, commands, payload, number in rows:
            fields = oracle.DataFields(False, True, bytes(4), fctrl, 0, port)
            call = fields, bytes(commands), bytes(payload), self.KEY, self.KEY, room
            self.assertEqual(refusal_of(oracle.build_data, *call), (number, 0))


class Answers(unittest.TestCase):
    """The one form of a refusal in the answers, of every kind of call."""

    def test_form(self):
        self.assertEqual(records.ended(oracle.ACCEPTED), b"\0")
        self.assertEqual(records.ended(oracle.Refusal(5, 0)), b"\5" + bytes(8))
        self.assertEqual(records.ended(oracle.Refusal(12, 70000)), HEX("0c7011010000000000"))

    def test_every_kind_that_reads_first(self):
        building = {records.BUILD_JOIN_REQUEST, records.BUILD_JOIN_ACCEPT, records.BUILD_DATA}
        without_frame = building | {records.READ_COMMANDS, records.WRITE_COMMAND}
        source = generate.Source(1)
        for refusal, frame in Places.REFUSED:
            cases = [*generate.every_call_on(source, frame[:900]), (records.FRAME_COMMANDS, [frame[:900]])]
            self.assertEqual({kind for kind, _ in cases}, records.KINDS.keys() - without_frame)
            due = records.ended(refusal_of(oracle.read, frame[:900]))
            for body in generate.bodies_of(cases):
                self.assertTrue(HEX(records.answer(body)).startswith(due))


class Amended(unittest.TestCase):
    def test_equals_a_fresh_build(self):
        network, application = bytes(16), bytes([9] * 16)
        fields = oracle.DataFields(True, False, b"addr", 0x10, 65537, 7)
        build = lambda payload: oracle.build_data(fields, b"ab", payload, network, application, 255)
        result = oracle.amend_all(network, application, 65537, build(b"hello"), [(0, 74), (5, 1), (4, 33), (4, 121)])
        accepted, outside = oracle.ACCEPTED, (15, 0)
        self.assertEqual(result, (accepted, [accepted, outside, accepted, accepted], build(b"Jelly")))

    def test_lent_frame(self):
        fields = oracle.DataFields(False, True, b"addr", 0, 7, 1)
        keys = bytes(16), bytes([9] * 16)
        build = lambda payload: oracle.build_data(fields, b"", payload, *keys, 255)
        amended = oracle.amend_lent(*keys, 7, build(b"hello"), [(0, 74), (4, 33), (4, 121)])
        self.assertEqual(amended, build(b"Jelly"))


class HeldOpen(unittest.TestCase):
    """Histories of calls, against the frame built with the payload that they come to."""

    def setUp(self):
        self.keys = bytes(16), bytes([9] * 16)
        self.fields = oracle.DataFields(True, False, b"addr", 0x10, 65537, 7)

    def build(self, payload):
        return oracle.build_data(self.fields, b"ab", payload, *self.keys, 255)

    def hold(self, frame, calls):
        return oracle.hold(*self.keys, 65537, frame, calls)

    def test_equals_a_fresh_build(self):
        calls = [(0, 74), [(4, 33), (4, 121)], (5, 1), [(1, 0), (5, 1)], [], [(3, 108), (2, 108)]]
        accepted, outside = oracle.ACCEPTED, (15, 0)
        due = [accepted, accepted, outside, outside, accepted, accepted]
        self.assertEqual(self.hold(self.build(b"hello"), calls), (accepted, due, self.build(b"Jelly")))

    def test_refused_opening_holds_no_byte(self):
        due = [(15, 0), (15, 0), oracle.ACCEPTED]
        self.assertEqual(self.hold(b"eleven bytes"[:11], [(0, 1), [(0, 1)], []]), ((1, 11), due, b""))
        self.assertEqual(oracle.take_out(b"", 0), b"")

    def test_chain_values_lead_to_the_mic(self):
        """From the last chain value on, the tag of RFC 4493 is one block more: here a padded one."""
        frame = self.build(b"x" * 17)[:-4]
        self.assertEqual(len(frame) % 16, 12)
        chains = oracle.chain_values(self.keys[0], 65537, frame + bytes(4))
        subkey = oracle.aes_encrypt(self.keys[0], bytes(16))
        for _ in range(2):
            carry = subkey[0] >> 7
            subkey = (int.from_bytes(subkey, "big") << 1 & (1 << 128) - 1 ^ 0x87 * carry).to_bytes(16, "big")
        last = oracle.xor(frame[16:] + b"\x80" + bytes(3), subkey)
        tag = oracle.aes_encrypt(self.keys[0], oracle.xor(last, chains[16:32]))
        self.assertEqual(tag[:4], oracle.data_mic(self.keys[0], 65537, frame))
        self.assertEqual(chains[32:], bytes(224))

    def test_room(self):
        frame = self.build(b"hello")
        self.assertEqual(oracle.take_out(frame, len(frame)), frame)
        self.assertEqual(refusal_of(oracle.take_out, frame, len(frame) - 1), (7, 0))


class Commands(unittest.TestCase):
    """MAC commands by hand, from the text of LoRaWAN 1.0.2, section 5."""

    # Whether it goes up, its bytes, its name and its values.
    VECTORS = [
        (True, "02", "LinkCheckReq", []),
        (False, "02 14 07", "LinkCheckAns", [20, 7]),
        (False, "03 52 01 ff 71", "LinkADRReq", [5, 2, 0xFF01, 7, 1]),
        (True, "03 07", "LinkADRAns", [1, 1, 1]),
        (True, "03 04", "LinkADRAns", [1, 0, 0]),
        (True, "03 01", "LinkADRAns", [0, 0, 1]),
        (False, "04 0f", "DutyCycleReq", [15]),
        (True, "04", "DutyCycleAns", []),
        (False, "05 53 d2 ad 84", "RXParamSetupReq", [5, 3, 8695250]),
        (True, "05 06", "RXParamSetupAns", [1, 1, 0]),
        (False, "06", "DevStatusReq", []),
        (True, "06 ff 39", "DevStatusAns", [255, -7]),
        (True, "06 00 1f", "DevStatusAns", [0, 31]),
        (True, "06 01 20", "DevStatusAns", [1, -32]),
        (True, "06 fe 3f", "DevStatusAns", [254, -1]),
        (True, "06 80 00", "DevStatusAns", [128, 0]),
        (False, "07 03 18 4f 84 50", "NewChannelReq", [3, 8671000, 5, 0]),
        (True, "07 02", "NewChannelAns", [1, 0]),
        (False, "08 0f", "RXTimingSetupReq", [15]),
        (True, "08", "RXTimingSetupAns", []),
        (False, "09 2d", "TxParamSetupReq", [1, 0, 13]),
        (True, "09", "TxParamSetupAns", []),
        (False, "0a 10 18 4f 84", "DlChannelReq", [16, 8671000]),
        (True, "0a 01", "DlChannelAns", [0, 1]),
    ]

    # The same with reserved bits set.
    RESERVED = [
        (True, "03 fd", [1, 0, 1]),
        (True, "05 f8", [0, 0, 0]),
        (True, "06 00 f9", [0, -7]),
        (True, "06 00 df", [0, 31]),
        (True, "07 fe", [1, 0]),
        (True, "0a fd", [0, 1]),
        (False, "03 00 00 00 8f", [0, 0, 0, 0, 15]),
        (False, "04 f1", [1]),
        (False, "05 8f 00 00 00", [0, 15, 0]),
        (False, "08 f0", [0]),
        (False, "09 df", [0, 1, 15]),
    ]

    # How many bytes each command has, by identifiers from 2 on: those down, and those up.
    LENGTHS = {False: [3, 5, 2, 5, 1, 6, 2, 2, 5], True: [1, 2, 1, 2, 3, 2, 1, 1, 2]}

    def test_vectors(self):
        for uplink, written, name, values in self.VECTORS:
            data = HEX(written)
            command = oracle.read_command(uplink, data, 0)
            self.assertEqual(command, (0, len(data), data[0], values))
            self.assertEqual(oracle.layout_of(uplink, data[0]).name, name)
            self.assertEqual(oracle.command_bytes(uplink, data[0], values), data)

    def test_reserved_bits_are_not_looked_at_and_written_0(self):
        for uplink, given, values in self.RESERVED:
            data = HEX(given)
            self.assertEqual(oracle.read_command(uplink, data, 0).values, values)
            again = oracle.command_bytes(uplink, data[0], values)
            self.assertNotEqual(again, data)
            self.assertEqual(oracle.read_command(uplink, again, 0).values, values)

    def test_lengths_and_cuts(self):
        for uplink, lengths in self.LENGTHS.items():
            for identifier, length in enumerate(lengths, 2):
                data = b"\2\2\2" + bytes([identifier]) + bytes(length - 1)
                self.assertEqual(oracle.read_command(uplink, data, 3).end, len(data))
                for cut in range(4, len(data)):
                    self.assertEqual(refusal_of(oracle.read_command, uplink, data[:cut], 3), (17, 3))

    def test_each_bit_belongs_to_one_field_or_is_reserved(self):
        for uplink, layouts in ((True, oracle.UP), (False, oracle.DOWN)):
            for identifier, layout in layouts.items():
                masks = [(1 << field.width) - 1 << field.low for field in layout.fields]
                self.assertEqual(sum(masks), sum(masks) & (1 << 8 * layout.length) - 1)
                self.assertEqual(sum(masks).bit_count(), sum(field.width for field in layout.fields))

    def test_unknown_goes_before_cut(self):
        for uplink in (True, False):
            for identifier in (0, 1, 11, 13, 128, 255):
                self.assertEqual(refusal_of(oracle.read_command, uplink, bytes([6, identifier]), 1), (16, 1))

    def test_ahead_of_a_fault(self):
        commands, refusal = oracle.read_commands(True, HEX("02 03 05 0b 02"))
        self.assertEqual((commands, refusal), ([(0, 1, 2, []), (1, 3, 3, [1, 0, 1])], (16, 3)))
        commands, refusal = oracle.read_commands(True, HEX("02 06 ff"))
        self.assertEqual((commands, refusal), ([(0, 1, 2, [])], (17, 1)))

    def test_at_and_past_the_end(self):
        for data, offset in ((b"", 0), (b"\2", 1), (b"\2", 2), (b"\xff", 2**64 - 1)):
            self.assertEqual(oracle.read_commands(True, data, offset), ([], oracle.ACCEPTED))

    def test_writing_refuses_in_order(self):
        out = b"\xa5" * 4
        rows = [(1, [256] * 5, 0, 16), (11, [0] * 5, 9, 16), (-1, [0] * 5, 0, 16), (6, [256, 0], 9, 18)]
        rows += [(6, [0, 32], 0, 18), (6, [0, -33], 0, 18), (6, [-1, 0], 0, 18), (6, [0, 31], 2, 7), (2, [], 4, 7)]
        for identifier, values, offset, number in rows:
            self.assertEqual(refusal_of(oracle.write_command, True, identifier, values, out, offset), (number, 0))
        self.assertEqual(oracle.write_command(True, 6, [255, -7, 999], out, 1), (HEX("a5 06ff39"), 4))

    def test_written_lists_read_back(self):
        source = generate.Source(7)
        for uplink in (True, False):
            data = generate.drawn_list(source, uplink, 242)
            commands, refusal = oracle.read_commands(uplink, data)
            self.assertEqual((refusal, commands[-1].end), (oracle.ACCEPTED, 242))
            again, end = bytes(242), 0
            for command in commands:
                again, end = oracle.write_command(uplink, command.identifier, command.values, again, end)
            self.assertEqual(again, data)

    def test_commands_of_frames(self):
        head, mic = HEX("40 04030201 05 0500"), HEX("11223344")
        fopts, payload = HEX("0306 06ff39"), HEX("02 0a03")
        due = [(8, 10, 3, [1, 1, 0]), (10, 13, 6, [255, -7])], oracle.ACCEPTED
        nothing = [], oracle.ACCEPTED
        inside = [(14, 15, 2, []), (15, 17, 10, [1, 1])], oracle.ACCEPTED
        for tail, found in ((b"", nothing), (b"\0", nothing), (b"\0" + payload, inside), (b"\1" + payload, nothing)):
            self.assertEqual(oracle.commands_of(head + fopts + tail + mic), (True, due, found))
        down = oracle.commands_of(b"\xa0" + head[1:] + fopts + b"\0" + payload + mic)
        whole = [(8, 13, 3, [0, 6, 0xFF06, 3, 9])], [(14, 17, 2, [10, 3])]
        self.assertEqual(down, (False, *((commands, oracle.ACCEPTED) for commands in whole)))

    def test_frames_that_are_refused(self):
        self.assertEqual(refusal_of(oracle.commands_of, frame_of(0x00, 23)), (4, 0))
        self.assertEqual(refusal_of(oracle.commands_of, frame_of(0x20, 17)), (4, 0))
        for refusal, frame in Places.REFUSED:
            self.assertEqual(refusal_of(oracle.commands_of, frame), refusal)


class Files(unittest.TestCase):
    """The written files are what the generator writes now, and their answers what the oracle says to them as read."""

    def test_files(self):
        out = pathlib.Path(generate.__file__).parent / "out"
        for name, cases in generate.LISTS.items():
            bodies = records.read_file((out / f"{name}.stdin").read_bytes())
            self.assertEqual(bodies, generate.bodies_of(cases(generate.SEED)))
            self.assertEqual((out / f"{name}.stdout").read_text(), records.answers(bodies))

    def test_values_for_c(self):
        self.assertEqual(c_values.HEADER.read_text(), c_values.text())

    def test_reading_a_body_undoes_writing_it(self):
        for cases in generate.LISTS.values():
            for kind, arguments in cases(generate.SEED):
                self.assertEqual(records.read_body(records.write_body(kind, arguments)), (kind, arguments))


if __name__ == "__main__":
    unittest.main()
