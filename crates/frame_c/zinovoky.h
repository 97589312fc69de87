/* Zinovoky: a proved LoRaWAN 1.0 frame codec, for C and for whatever calls C.
 *
 * A slice is a pointer and a length; a key is 16 bytes. Pointers must not be null and buffers must not overlap.
 *
 * Unless it says otherwise, a call answers a number whose low byte is 0 where it succeeded, and else a refusal:
 *
 *    1 InvalidPayload            fewer than 12 bytes
 *    2 UnsupportedMajorVersion   the low two bits of byte 0 are not 00
 *    3 InvalidMessageType        type 6 or 7, or, of a data frame to build, above 5
 *    4 InvalidData               a length that is wrong for the type, or a frame of another type than the call needs
 *    5 InvalidMic                the MIC differs
 *    6 InvalidKey                the key of the payload was not given: the network key if it is empty or on port 0
 *    7 BufferTooShort            no room for the answer
 *    8 InvalidChannelList        over five channels, or one above 16,777,215
 *    9 MacCommandTooBigForFOpts  commands over 15 bytes and the port absent or not 0
 *   10 DataAndMacCommandsInPayloadNotAllowed   port 0 and a payload that is not empty
 *   11 FRMPayloadWithFportZero   no port and a payload that is not empty
 *   12 FrameTooLong              over 255 bytes
 *   13 FOptsLenSet               FCtrl with a low nibble that is not 0
 *   14 CounterMismatch           the low half of the counter differs from the frame's FCnt
 *   15 OffsetOutside             an offset at or past the payload's length
 *   16 UnknownCommand            a MAC command with an identifier outside 02 to 0A
 *   17 CommandCutShort           a MAC command of which bytes are missing
 *   18 ValueOutOfRange           a value that the bits of its field cannot hold
 *
 * The bytes above the low one hold, of a refusal, its place: all 56 bits of it, the place modulo 2^56. Reading names the place,
 * and every call that reads a frame first hands it on:
 *
 *   12, 1   the frame's length
 *    2, 3   0, the byte that holds version and type
 *    4      the frame's length, of a join message whose length is wrong; 5, the byte that holds the length of FOpts, of a data
 *           frame whose header does not fit; 0, of a frame that is accepted but of another type than the call needs
 *
 * Reading a list of MAC commands names the offset of the command that it refuses, for 16 and 17. Any other refusal has place 0, so
 * also 12 of a frame to build. Of a frame that was built, or taken out of a buffer, these bytes hold its length, and of a MAC
 * command that was read or written the place past it.
 * A refusal changes no byte that was lent.
 */
#ifndef ZINOVOKY_H
#define ZINOVOKY_H

#include <stddef.h>
#include <stdint.h>

#ifdef __cplusplus
extern "C" {
#endif

/* Reads a frame, and answers all of it in one number, whose fields the functions below take out. Bits:
 *
 *    0 to 7     the refusal, 0 where the frame is accepted
 *    of a refused frame:
 *    8 to 63    the place of the refusal, as above
 *    of an accepted one:
 *    8 to 10    the type: 0 join-request, 1 join-accept, 2 to 5 data
 *   11          whether there is a port
 *   12 and 13   what the port says of the payload, which may have no byte: 0 there is no port, 1 data, 2 commands (port 0)
 *   16 to 23    the port, 0 where there is none
 *   24 to 31    the place of the payload's first byte, which is that of the MIC where it has no byte
 *   32 to 39    the place of the MIC, four bytes, where the payload ends
 *   40 to 47    FCtrl; FOpts are so many bytes from place 8 on as its low nibble says
 *   48 to 63    FCnt
 *
 * A join message has neither port nor payload, and 0 for FCtrl and FCnt. */
uint64_t zinovoky_read(const uint8_t *frame, size_t frame_len);

/* The number and the place of a refusal, of a reading and of every other answer. Where the number is 0, there is no place. */
static inline uint8_t zinovoky_refusal(uint64_t answer) { return (uint8_t)answer; }
static inline uint64_t zinovoky_refusal_place(uint64_t answer) { return answer >> 8; }

/* The name of a refusal by its number, as in the table above: a string that is never freed. Of 0 it is "none", and of a number
 * that is none of the table's "unknown". */
static inline const char *zinovoky_refusal_name(uint8_t number) {
    static const char *const names[] = {
        "none", "InvalidPayload", "UnsupportedMajorVersion", "InvalidMessageType", "InvalidData", "InvalidMic", "InvalidKey",
        "BufferTooShort", "InvalidChannelList", "MacCommandTooBigForFOpts", "DataAndMacCommandsInPayloadNotAllowed",
        "FRMPayloadWithFportZero", "FrameTooLong", "FOptsLenSet", "CounterMismatch", "OffsetOutside", "UnknownCommand",
        "CommandCutShort", "ValueOutOfRange"};
    return number < sizeof names / sizeof *names ? names[number] : "unknown";
}

/* The fields of a reading whose refusal is 0. */
static inline uint8_t zinovoky_type(uint64_t reading) { return reading >> 8 & 7; }
static inline uint8_t zinovoky_has_port(uint64_t reading) { return reading >> 11 & 1; }
static inline uint8_t zinovoky_port(uint64_t reading) { return (uint8_t)(reading >> 16); }
static inline uint8_t zinovoky_payload_kind(uint64_t reading) { return reading >> 12 & 3; }
static inline size_t zinovoky_payload_at(uint64_t reading) { return reading >> 24 & 255; }
static inline size_t zinovoky_payload_len(uint64_t reading) { return (reading >> 32 & 255) - (reading >> 24 & 255); }
static inline size_t zinovoky_mic_at(uint64_t reading) { return reading >> 32 & 255; }
static inline uint8_t zinovoky_fctrl(uint64_t reading) { return (uint8_t)(reading >> 40); }
static inline size_t zinovoky_fopts_len(uint64_t reading) { return reading >> 40 & 15; }
static inline uint16_t zinovoky_fcnt(uint64_t reading) { return (uint16_t)(reading >> 48); }

/* The fields of a join-request: AppEUI (8 bytes), DevEUI (8), DevNonce (2) and MIC (4) in frame order, 22 bytes into `fields`
 * (7, after the reader's own refusals and 4 for a frame of another type, where there is no room for them). */
uint64_t zinovoky_join_request_fields(const uint8_t *frame, size_t frame_len, uint8_t *fields, size_t fields_len);

/* The fields of a clear join-accept, 42 bytes into `fields` (7, as above): AppNonce (3), NetID (3) and DevAddr (4) in frame
 * order, DLSettings, RxDelay (0 to 15), the list that it holds (0 none, 1 frequencies, 2 masks), nine masks, and five
 * frequencies in units of 100 Hz, of four bytes each, low byte first. A list that it does not hold is zeros. */
uint64_t zinovoky_join_accept_fields(const uint8_t *frame, size_t frame_len, uint8_t *fields, size_t fields_len);

/* NwkID of an address of four bytes in frame order, as it stands in a data frame from place 1 on or among the fields of a
 * join-accept: its seven high bits, 0 to 127. The answer is NwkID itself; every address has one, so there is no refusal. */
uint8_t zinovoky_nwk_id(const uint8_t *dev_addr);

/* Tests the MIC of a join-request, of a join-accept that is given clear, and of a data frame. `passes` becomes
 * 1 or 0; where the call answers a refusal it stays as it was. */
uint64_t zinovoky_join_request_mic(const uint8_t *frame, size_t frame_len, const uint8_t *app_key, uint8_t *passes);
uint64_t zinovoky_join_accept_mic(const uint8_t *frame, size_t frame_len, const uint8_t *app_key, uint8_t *passes);
uint64_t zinovoky_data_mic(const uint8_t *frame, size_t frame_len, const uint8_t *nwk_skey, uint32_t counter, uint8_t *passes);

/* Decrypts the payload of a data frame where it lies. `keys_given` says which keys are given: 1 the network key, 2 the
 * application key, 3 both (of another number the two low bits count). A key that is not given is still 16 bytes, which
 * count for nothing. The second call tests the MIC first; it takes the network key as given. */
uint64_t zinovoky_decrypt_data(uint8_t *frame, size_t frame_len, uint8_t keys_given, const uint8_t *nwk_skey, const uint8_t *app_skey, uint32_t counter);
uint64_t zinovoky_decrypt_data_checked(uint8_t *frame, size_t frame_len, uint8_t keys_given, const uint8_t *nwk_skey, const uint8_t *app_skey, uint32_t counter);

/* Decrypts a join-accept where it lies. The second call leaves it as it is where the MIC of the clear text differs. */
uint64_t zinovoky_decrypt_join_accept(uint8_t *frame, size_t frame_len, const uint8_t *app_key);
uint64_t zinovoky_decrypt_join_accept_checked(uint8_t *frame, size_t frame_len, const uint8_t *app_key);

/* Session keys from a clear join-accept and the device's nonce (in frame order): 16 bytes of network key, then 16 bytes of
 * application key into `keys`, which must have room for 32 (7, after the reader's own refusals). */
uint64_t zinovoky_session_keys(const uint8_t *frame, size_t frame_len, const uint8_t *dev_nonce, const uint8_t *app_key, uint8_t *keys, size_t keys_len);

/* Builds a join-request: AppEUI and DevEUI of 8 bytes, DevNonce of 2, in frame order. */
uint64_t zinovoky_build_join_request(const uint8_t *app_eui, const uint8_t *dev_eui, const uint8_t *dev_nonce, const uint8_t *app_key, uint8_t *out, size_t out_len);

/* Builds a join-accept. `fixed` is AppNonce (3 bytes), NetID (3), DevAddr (4), DLSettings and RxDelay, in frame order: 12
 * bytes. With `with_list` 1 the channels, in units of 100 Hz, follow as a list; with any other number they are not looked
 * at. */
uint64_t zinovoky_build_join_accept(const uint8_t *fixed, uint8_t with_list, const uint32_t *channels, size_t channels_len, const uint8_t *app_key, uint8_t *out, size_t out_len);

/* Builds a data frame. `kind` is the type: 2 unconfirmed up, 3 unconfirmed down, 4 confirmed up, 5 confirmed down. Ahead of
 * every other test, 0 and 1, the join messages, answer 4, and a number above 5 answers 3. `port` is 0 to 255, and a number
 * above 255 says that there is no port. */
uint64_t zinovoky_build_data(uint8_t kind, const uint8_t *dev_addr, uint8_t fctrl, uint32_t counter, uint16_t port, const uint8_t *commands, size_t commands_len, const uint8_t *payload, size_t payload_len, const uint8_t *nwk_skey, const uint8_t *app_skey, uint8_t *out, size_t out_len);

/* Amends payload bytes of a data frame where it lies. Each amendment is offset * 256 + value, the value clear. The first
 * refusal of the opening or of an amendment is answered, and then no byte is changed. */
uint64_t zinovoky_amend(uint8_t *frame, size_t frame_len, const uint8_t *nwk_skey, const uint8_t *app_skey, uint32_t counter, const uint32_t *amendments, size_t amendments_len);

/* A frame held open in a buffer of ZINOVOKY_HELD_LEN bytes that the caller lends, so that it is opened once and altered many
 * times. The buffer holds the frame with zeros behind it (255 bytes), its length (1), the expanded network key (176) and
 * application key (176), the chain values of the MIC (256) and the counter (4, low byte first): it is as secret as the keys,
 * and is to be cleared after use. A copy of it is another open frame. Whatever bytes it holds, each call has a determined
 * answer.
 *
 * `zinovoky_hold` opens a frame into the buffer and answers as zinovoky_amend does of the opening. `zinovoky_held_amend` sets
 * the payload byte at the offset to the clear value and signs anew: 15 where there is no such byte. A list of amendments, each
 * offset * 256 + value, is signed once; where any is refused, none is made. `zinovoky_held_frame` copies the frame to the start
 * of `out` and answers its length above the low byte, or 7 where it does not fit. */
#define ZINOVOKY_HELD_LEN 868
uint64_t zinovoky_hold(const uint8_t *frame, size_t frame_len, const uint8_t *nwk_skey, const uint8_t *app_skey, uint32_t counter, uint8_t *buffer);
uint64_t zinovoky_held_amend(uint8_t *buffer, size_t offset, uint8_t value);
uint64_t zinovoky_held_amend_list(uint8_t *buffer, const uint32_t *amendments, size_t amendments_len);
uint64_t zinovoky_held_frame(const uint8_t *buffer, uint8_t *out, size_t out_len);

/* MAC commands of LoRaWAN 1.0.2, section 5. A command is six numbers: its identifier, 2 to 10, then its values in this order, 0
 * past the last one. `uplink` is 1 for a list that goes up, and any other number for one that goes down. Frequencies are in units
 * of 100 Hz; the margin of DevStatusAns is signed, -32 to 31.
 *
 *        down                                                        up
 *    2   LinkCheckAns     margin gateways                            LinkCheckReq
 *    3   LinkADRReq       data_rate tx_power mask control            LinkADRAns       power data_rate mask
 *                         transmissions
 *    4   DutyCycleReq     max                                        DutyCycleAns
 *    5   RXParamSetupReq  rx1_offset rx2_data_rate frequency         RXParamSetupAns  rx1_offset rx2_data_rate channel
 *    6   DevStatusReq                                                DevStatusAns     battery margin
 *    7   NewChannelReq    index frequency max_data_rate              NewChannelAns    range frequency
 *                         min_data_rate
 *    8   RXTimingSetupReq delay                                      RXTimingSetupAns
 *    9   TxParamSetupReq  downlink_dwell uplink_dwell max_eirp       TxParamSetupAns
 *   10   DlChannelReq     index frequency                            DlChannelAns     uplink frequency
 *
 * `zinovoky_read_command` reads the command at an offset of a list and stores its six numbers. It answers the offset of the next
 * one above the low byte, and 0 at the end of the list: for an offset at or past its length. At the end, and where the answer is
 * a refusal, 16 or 17 with the offset as its place, nothing is stored. Reserved bits are not looked at. The commands of a frame
 * that was read stand from 8 on, in FOpts, if the list is the frame's first 8 + zinovoky_fopts_len bytes, and on port 0, in a
 * payload that was decrypted, from zinovoky_payload_at on, if it is the frame's first zinovoky_mic_at bytes.
 *
 * `zinovoky_write_command` writes a command from an offset of the output on, with reserved bits 0, and answers the place past it
 * above the low byte. It refuses 16 another identifier, then 18 a value that its field cannot hold, then 7. Values past the
 * command's last one are not looked at. */
#define ZINOVOKY_COMMAND_LEN 6
uint64_t zinovoky_read_command(uint8_t uplink, const uint8_t *bytes, size_t bytes_len, size_t offset, int64_t *command);
uint64_t zinovoky_write_command(uint8_t uplink, const int64_t *command, uint8_t *out, size_t out_len, size_t offset);

#ifdef __cplusplus
}
#endif

#endif
