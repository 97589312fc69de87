/* Calls every function that crates/frame_c/zinovoky.h declares, the inline ones too, on input that is accepted and, where there
 * is such, on input that is refused. Compared are the number and every byte that was lent, in three ways (lent.h). A line for
 * each mismatch, then 'N passed, M failed'; the exit status is 1 where any failed. `run` builds and runs it.
 *
 * Where the expected values come from: bytes and readings are in expected.h, which tools/oracle computes and which names the
 * source of each. A refusal's number and place are those of docs/RULES.md, Refusals: an answer is the number and 256 times the
 * place, or 256 times the length of what was built, as the header says. Where TRY names a number alone, the place is 0. */
#define _DEFAULT_SOURCE
#include "expected.h"
#include "lent.h"
#include "zinovoky.h"

/* A call whose answer is known, written as it is made. */
#define TRY(due, made) (begin(#made), ended(made, due))

/* A slice as pointer and length: of bytes that stay; of bytes that become others; of room that stays filled; of room at whose
 * start an answer must come to stand; of numbers. */
#define LENT(bytes) lend(bytes, sizeof bytes), sizeof bytes
#define NONE lend("", 0), 0
#define BECOMES(bytes, others) lend_changed(bytes, sizeof bytes, others, sizeof others), sizeof bytes
#define ROOM(len) room(len, "", 0), len
#define ANSWER(len, bytes) room(len, bytes, sizeof bytes), len
#define NUMBERS(list) lend(list, sizeof list), sizeof list / sizeof *list

#define KEY(key) lend(key, 16)
#define LENGTH(n) (256 * (uint64_t)(n))

/* The byte that a MIC test writes, or leaves. */
static uint8_t *verdict(uint8_t passes) { return room(1, &passes, 1); }
static uint8_t *no_verdict(void) { return room(1, "", 0); }

_Static_assert(sizeof HELD_DATA == ZINOVOKY_HELD_LEN, "a buffer of the oracle's is one of the header's");
static const uint8_t HELD_NOTHING[ZINOVOKY_HELD_LEN];
static const uint8_t ZEROS[243];

static void field(const char *name, uint64_t value, uint64_t due) {
    begin(name);
    ended(value, due);
}

static void read_fields(const struct reading *due, uint64_t reading) {
    field("zinovoky_type", zinovoky_type(reading), due->type);
    field("zinovoky_has_port", zinovoky_has_port(reading), due->has_port);
    field("zinovoky_port", zinovoky_port(reading), due->port);
    field("zinovoky_payload_kind", zinovoky_payload_kind(reading), due->payload_kind);
    field("zinovoky_payload_at", zinovoky_payload_at(reading), due->payload_at);
    field("zinovoky_payload_len", zinovoky_payload_len(reading), due->payload_len);
    field("zinovoky_mic_at", zinovoky_mic_at(reading), due->mic_at);
    field("zinovoky_fctrl", zinovoky_fctrl(reading), due->fctrl);
    field("zinovoky_fopts_len", zinovoky_fopts_len(reading), due->fopts_len);
    field("zinovoky_fcnt", zinovoky_fcnt(reading), due->fcnt);
}

/* A call that is named with what it is made on. */
static void begin_of(const char *made, const char *on) {
    static char label[160];
    snprintf(label, sizeof label, "%s of %s", made, on);
    begin(label);
}

static void readings(void) {
    for (size_t i = 0; i < sizeof READINGS / sizeof *READINGS; i++) {
        const struct reading *due = &READINGS[i];
        begin_of("zinovoky_read", due->what);
        uint64_t reading = zinovoky_read(lend(due->frame, due->len), due->len);
        ended(reading, due->reading);
        field("zinovoky_refusal", zinovoky_refusal(reading), due->refusal);
        if (due->refusal == 0) read_fields(due, reading);
        else field("zinovoky_refusal_place", zinovoky_refusal_place(reading), due->place);
    }
}

static void names(void) {
    for (unsigned number = 0; number < 256; number++) {
        const char *due = number < sizeof NAMES / sizeof *NAMES ? NAMES[number] : "unknown";
        begin_of("zinovoky_refusal_name", due);
        ended(strcmp(zinovoky_refusal_name((uint8_t)number), due) != 0, 0);
    }
}

static void nwk_ids(void) {
    for (size_t i = 0; i < sizeof NWK_IDS / sizeof *NWK_IDS; i++)
        TRY(NWK_IDS[i].nwk_id, zinovoky_nwk_id(lend(NWK_IDS[i].addr, 4)));
}

static void join_fields(void) {
    TRY(0, zinovoky_join_request_fields(LENT(REQUEST), ANSWER(22, REQUEST_FIELDS)));
    TRY(0, zinovoky_join_request_fields(LENT(REQUEST), ANSWER(23, REQUEST_FIELDS)));
    TRY(7, zinovoky_join_request_fields(LENT(REQUEST), ROOM(21)));
    TRY(4, zinovoky_join_request_fields(LENT(ACCEPT), ROOM(21)));

    TRY(0, zinovoky_join_accept_fields(LENT(ACCEPT_CLEAR), ANSWER(42, ACCEPT_FIELDS)));
    TRY(0, zinovoky_join_accept_fields(LENT(LISTED_CLEAR), ANSWER(42, LISTED_FIELDS)));
    TRY(0, zinovoky_join_accept_fields(LENT(MASKS_CLEAR), ANSWER(43, MASKS_FIELDS)));
    TRY(7, zinovoky_join_accept_fields(LENT(ACCEPT_CLEAR), ROOM(41)));
    TRY(4, zinovoky_join_accept_fields(LENT(DATA), ROOM(42)));
}

static void mic_tests(void) {
    TRY(0, zinovoky_join_request_mic(LENT(REQUEST), KEY(APP), verdict(1)));
    TRY(0, zinovoky_join_request_mic(LENT(REQUEST), KEY(NWK), verdict(0)));
    TRY(4, zinovoky_join_request_mic(LENT(DATA), KEY(APP), no_verdict()));

    TRY(0, zinovoky_join_accept_mic(LENT(ACCEPT_CLEAR), KEY(APP_KEY), verdict(1)));
    TRY(0, zinovoky_join_accept_mic(LENT(LISTED_CLEAR), KEY(APP), verdict(1)));
    TRY(0, zinovoky_join_accept_mic(LENT(ACCEPT), KEY(APP_KEY), verdict(0)));
    TRY(4, zinovoky_join_accept_mic(LENT(REQUEST), KEY(APP_KEY), no_verdict()));

    TRY(0, zinovoky_data_mic(LENT(DATA), KEY(NWK), 1, verdict(1)));
    TRY(0, zinovoky_data_mic(LENT(LONGEST), KEY(NWK), 1, verdict(1)));
    TRY(0, zinovoky_data_mic(LENT(DATA), KEY(NWK), 0x10001, verdict(0)));
    TRY(4, zinovoky_data_mic(LENT(ACCEPT), KEY(NWK), 1, no_verdict()));
}

static void data_decryption(void) {
    TRY(0, zinovoky_decrypt_data(BECOMES(DATA, DATA_CLEAR), 2, KEY(NWK), KEY(APP), 1));
    TRY(0, zinovoky_decrypt_data(BECOMES(DATA, DATA_CLEAR), 255, KEY(NWK), KEY(APP), 0));
    TRY(0, zinovoky_decrypt_data(BECOMES(DOWN, DOWN_CLEAR), 1, KEY(NWK), KEY(APP), 0x10000));
    TRY(6, zinovoky_decrypt_data(LENT(DATA), 1, KEY(NWK), KEY(APP), 1));
    TRY(6, zinovoky_decrypt_data(LENT(BARE), 2, KEY(NWK), KEY(APP), 1));
    TRY(6, zinovoky_decrypt_data(LENT(PORT_ALONE), 2, KEY(NWK), KEY(APP), 0));
    TRY(0, zinovoky_decrypt_data(LENT(PORT_ALONE), 1, KEY(NWK), KEY(APP), 0));
    TRY(4, zinovoky_decrypt_data(LENT(REQUEST), 3, KEY(NWK), KEY(APP), 1));

    TRY(0, zinovoky_decrypt_data_checked(BECOMES(DATA, DATA_CLEAR), 3, KEY(NWK), KEY(APP), 1));
    TRY(0, zinovoky_decrypt_data_checked(BECOMES(DOWN, DOWN_CLEAR), 0, KEY(NWK), KEY(APP), 0x1fffe));
    TRY(0, zinovoky_decrypt_data_checked(LENT(PORT_ALONE), 0, KEY(NWK), KEY(APP), 0));
    TRY(5, zinovoky_decrypt_data_checked(LENT(DATA), 3, KEY(NWK), KEY(APP), 0));
    TRY(6, zinovoky_decrypt_data_checked(LENT(DATA), 1, KEY(NWK), KEY(APP), 1));
    TRY(4, zinovoky_decrypt_data_checked(LENT(ACCEPT), 3, KEY(NWK), KEY(APP), 0));
}

static void join_accept_opening(void) {
    TRY(0, zinovoky_decrypt_join_accept(BECOMES(ACCEPT, ACCEPT_CLEAR), KEY(APP_KEY)));
    TRY(0, zinovoky_decrypt_join_accept(BECOMES(LISTED, LISTED_CLEAR), KEY(APP)));
    TRY(4, zinovoky_decrypt_join_accept(LENT(REQUEST), KEY(APP)));

    TRY(0, zinovoky_decrypt_join_accept_checked(BECOMES(ACCEPT, ACCEPT_CLEAR), KEY(APP_KEY)));
    TRY(0, zinovoky_decrypt_join_accept_checked(BECOMES(LISTED, LISTED_CLEAR), KEY(APP)));
    TRY(5, zinovoky_decrypt_join_accept_checked(LENT(ACCEPT), KEY(NWK)));
    TRY(5, zinovoky_decrypt_join_accept_checked(LENT(LISTED), KEY(NWK)));
    TRY(4, zinovoky_decrypt_join_accept_checked(LENT(DATA), KEY(APP)));

    TRY(0, zinovoky_session_keys(LENT(ACCEPT_CLEAR), lend(DEV_NONCE, 2), KEY(APP_KEY), ANSWER(32, SESSION_KEYS)));
    TRY(0, zinovoky_session_keys(LENT(ACCEPT_CLEAR), lend(DEV_NONCE, 2), KEY(APP_KEY), ANSWER(40, SESSION_KEYS)));
    TRY(7, zinovoky_session_keys(LENT(ACCEPT_CLEAR), lend(DEV_NONCE, 2), KEY(APP_KEY), ROOM(31)));
    TRY(4, zinovoky_session_keys(LENT(DATA), lend(DEV_NONCE, 2), KEY(APP_KEY), ROOM(32)));
}

/* What the builders of join messages take, as it stands in the fields and in the clear frames. */
#define REQUEST_PARTS lend(REQUEST_FIELDS, 8), lend(REQUEST_FIELDS + 8, 8), lend(REQUEST_FIELDS + 16, 2)
#define ACCEPT_PARTS lend(ACCEPT_CLEAR + 1, 12)
#define LISTED_PARTS lend(LISTED_CLEAR + 1, 12)

static void join_building(void) {
    static const uint32_t channels[] = {8678000, 8676000}, six[6], high[] = {16777216};
    TRY(LENGTH(23), zinovoky_build_join_request(REQUEST_PARTS, KEY(APP), ANSWER(23, REQUEST)));
    TRY(LENGTH(23), zinovoky_build_join_request(REQUEST_PARTS, KEY(APP), ANSWER(30, REQUEST)));
    TRY(7, zinovoky_build_join_request(REQUEST_PARTS, KEY(APP), ROOM(22)));

    TRY(LENGTH(17), zinovoky_build_join_accept(ACCEPT_PARTS, 0, NONE, KEY(APP_KEY), ANSWER(17, ACCEPT)));
    TRY(LENGTH(17), zinovoky_build_join_accept(ACCEPT_PARTS, 2, NUMBERS(six), KEY(APP_KEY), ANSWER(18, ACCEPT)));
    TRY(LENGTH(33), zinovoky_build_join_accept(LISTED_PARTS, 1, NUMBERS(channels), KEY(APP), ANSWER(33, LISTED)));
    TRY(8, zinovoky_build_join_accept(LISTED_PARTS, 1, NUMBERS(six), KEY(APP), ROOM(33)));
    TRY(8, zinovoky_build_join_accept(LISTED_PARTS, 1, NUMBERS(high), KEY(APP), ROOM(0)));
    TRY(7, zinovoky_build_join_accept(LISTED_PARTS, 1, NUMBERS(channels), KEY(APP), ROOM(32)));
    TRY(7, zinovoky_build_join_accept(LISTED_PARTS, 0, NONE, KEY(APP), ROOM(16)));
}

/* The arguments of a data frame that vary little. */
#define ADDR(addr) lend(addr, 4)
#define KEYS KEY(NWK), KEY(APP)

static void data_building(void) {
    const uint8_t *addr = DATA + 1, *hello = DATA_CLEAR + 9;
    TRY(LENGTH(18), zinovoky_build_data(2, ADDR(addr), 0x80, 1, 1, NONE, lend(hello, 5), 5, KEYS, ANSWER(255, DATA)));
    TRY(LENGTH(35), zinovoky_build_data(3, ADDR(FOPTS_ADDR), 0x90, 0xfffffffe, 200, LENT(FOPTS_COMMANDS), LENT(FOPTS_PAYLOAD),
                                        KEYS, ANSWER(255, FOPTS)));
    TRY(LENGTH(255), zinovoky_build_data(4, ADDR(addr), 0, 1, 1, NONE, lend(ZEROS, 242), 242, KEYS, ANSWER(256, LONGEST)));
    TRY(LENGTH(30), zinovoky_build_data(5, ADDR(DOWN_ADDR), 0x30, 0x1fffe, 0, LENT(DOWN_COMMANDS), NONE, KEYS,
                                        ANSWER(255, DOWN)));
    TRY(LENGTH(12), zinovoky_build_data(2, ADDR(ZEROS), 0, 0, 256, NONE, NONE, KEYS, ANSWER(255, BARE)));
    TRY(LENGTH(12), zinovoky_build_data(2, ADDR(ZEROS), 0, 0, 65535, NONE, NONE, KEYS, ANSWER(255, BARE)));
    TRY(LENGTH(13), zinovoky_build_data(2, ADDR(ZEROS), 0, 0, 9, NONE, NONE, KEYS, ANSWER(255, PORT_ALONE)));
    TRY(LENGTH(13), zinovoky_build_data(2, ADDR(ZEROS), 0, 0, 0, NONE, NONE, KEYS, ANSWER(255, NO_COMMANDS)));
}

/* Each number that the builder gives; the kind is tested ahead of the room. */
static void data_building_refused(void) {
    const uint8_t *addr = DATA + 1;
    TRY(4, zinovoky_build_data(0, ADDR(addr), 0, 1, 1, NONE, NONE, KEYS, ROOM(254)));
    TRY(4, zinovoky_build_data(1, ADDR(addr), 0, 1, 1, NONE, NONE, KEYS, ROOM(255)));
    TRY(3, zinovoky_build_data(6, ADDR(addr), 0, 1, 1, NONE, NONE, KEYS, ROOM(254)));
    TRY(3, zinovoky_build_data(7, ADDR(addr), 0, 1, 1, NONE, NONE, KEYS, ROOM(255)));
    TRY(3, zinovoky_build_data(255, ADDR(addr), 0, 1, 1, NONE, NONE, KEYS, ROOM(255)));
    TRY(7, zinovoky_build_data(2, ADDR(addr), 1, 1, 1, NONE, NONE, KEYS, ROOM(254)));
    TRY(13, zinovoky_build_data(2, ADDR(addr), 1, 1, 1, lend(ZEROS, 16), 16, NONE, KEYS, ROOM(255)));
    TRY(9, zinovoky_build_data(2, ADDR(addr), 0, 1, 1, lend(ZEROS, 16), 16, NONE, KEYS, ROOM(255)));
    TRY(9, zinovoky_build_data(2, ADDR(addr), 0, 1, 256, lend(ZEROS, 16), 16, lend(ZEROS, 1), 1, KEYS, ROOM(255)));
    TRY(10, zinovoky_build_data(2, ADDR(addr), 0, 1, 0, lend(ZEROS, 243), 243, lend(ZEROS, 1), 1, KEYS, ROOM(255)));
    TRY(11, zinovoky_build_data(2, ADDR(addr), 0, 1, 256, NONE, lend(ZEROS, 243), 243, KEYS, ROOM(255)));
    TRY(12, zinovoky_build_data(2, ADDR(addr), 0, 1, 1, NONE, lend(ZEROS, 243), 243, KEYS, ROOM(300)));
}

/* DATA says hello: it becomes jello, and jelly. */
static const uint32_t TO_JELLY[] = {0 * 256 + 'j', 3 * 256 + 'l', 4 * 256 + 'x', 4 * 256 + 'y'};
static const uint32_t OUTSIDE[] = {0 * 256 + 'j', 5 * 256 + 'y'};
static const uint32_t FAR_OUTSIDE[] = {0xffffffff};

static void amending(void) {
    TRY(0, zinovoky_amend(BECOMES(DATA, JELLY), KEYS, 1, NUMBERS(TO_JELLY)));
    TRY(0, zinovoky_amend(LENT(DATA), KEYS, 1, NONE));
    TRY(15, zinovoky_amend(LENT(DATA), KEYS, 1, NUMBERS(OUTSIDE)));
    TRY(15, zinovoky_amend(LENT(BARE), KEYS, 0, NUMBERS(FAR_OUTSIDE)));
    TRY(15, zinovoky_amend(LENT(PORT_ALONE), KEYS, 0, NUMBERS(FAR_OUTSIDE)));
    TRY(14, zinovoky_amend(LENT(DATA), KEYS, 0x10000, NUMBERS(TO_JELLY)));
    TRY(5, zinovoky_amend(LENT(DATA), KEYS, 0x10001, NUMBERS(TO_JELLY)));
    TRY(4, zinovoky_amend(LENT(ACCEPT), KEYS, 1, NUMBERS(TO_JELLY)));
}

static void *held(const uint8_t *buffer) { return lend(buffer, ZINOVOKY_HELD_LEN); }

static void *held_becomes(const uint8_t *buffer, const uint8_t *other) {
    return lend_changed(buffer, ZINOVOKY_HELD_LEN, other, ZINOVOKY_HELD_LEN);
}

static void *hold_room(const uint8_t *buffer) { return room(ZINOVOKY_HELD_LEN, buffer, ZINOVOKY_HELD_LEN); }

static void holding(void) {
    TRY(0, zinovoky_hold(LENT(DATA), KEYS, 1, hold_room(HELD_DATA)));
    TRY(0, zinovoky_hold(LENT(BARE), KEYS, 0, held_becomes(HELD_DATA, HELD_BARE)));
    TRY(0, zinovoky_hold(LENT(LONGEST), KEYS, 1, hold_room(HELD_LONGEST)));
    TRY(14, zinovoky_hold(LENT(DATA), KEYS, 0, held(HELD_BARE)));
    TRY(5, zinovoky_hold(LENT(DATA), KEY(APP), KEY(NWK), 1, held(HELD_NOTHING)));
    TRY(4, zinovoky_hold(LENT(REQUEST), KEYS, 1, held(HELD_DATA)));
}

static void held_amendments(void) {
    TRY(0, zinovoky_held_amend(held_becomes(HELD_DATA, HELD_JELLO), 0, 'j'));
    TRY(0, zinovoky_held_amend(held(HELD_JELLY), 4, 'y'));
    TRY(15, zinovoky_held_amend(held(HELD_DATA), 5, 'y'));
    TRY(15, zinovoky_held_amend(held(HELD_BARE), 0, 1));
    TRY(15, zinovoky_held_amend(held(HELD_NOTHING), SIZE_MAX, 1));

    TRY(0, zinovoky_held_amend_list(held_becomes(HELD_DATA, HELD_JELLY), NUMBERS(TO_JELLY)));
    TRY(0, zinovoky_held_amend_list(held_becomes(HELD_JELLO, HELD_JELLY), NUMBERS(TO_JELLY)));
    TRY(0, zinovoky_held_amend_list(held(HELD_NOTHING), NONE));
    TRY(15, zinovoky_held_amend_list(held(HELD_DATA), NUMBERS(OUTSIDE)));
    TRY(15, zinovoky_held_amend_list(held(HELD_NOTHING), NUMBERS(FAR_OUTSIDE)));
}

static void taking_out(void) {
    TRY(LENGTH(18), zinovoky_held_frame(held(HELD_JELLY), ANSWER(18, JELLY)));
    TRY(LENGTH(18), zinovoky_held_frame(held(HELD_JELLO), ANSWER(300, JELLO)));
    TRY(LENGTH(255), zinovoky_held_frame(held(HELD_LONGEST), ANSWER(255, LONGEST)));
    TRY(LENGTH(0), zinovoky_held_frame(held(HELD_NOTHING), ROOM(0)));
    TRY(7, zinovoky_held_frame(held(HELD_JELLY), ROOM(17)));
    TRY(7, zinovoky_held_frame(held(HELD_LONGEST), ROOM(254)));
}

_Static_assert(sizeof COMMANDS_READ->command == ZINOVOKY_COMMAND_LEN * sizeof(int64_t),
               "a command of the oracle's is one of the header's");

/* A step that finds no command stores none. */
static void command_steps(void) {
    for (size_t i = 0; i < sizeof COMMANDS_READ / sizeof *COMMANDS_READ; i++) {
        const struct command_read *due = &COMMANDS_READ[i];
        int found = due->answer != 0 && zinovoky_refusal(due->answer) == 0;
        begin_of("zinovoky_read_command", due->what);
        ended(zinovoky_read_command(due->uplink, lend(due->bytes, due->len), due->len, due->offset,
                                    room(sizeof due->command, due->command, found ? sizeof due->command : 0)),
              due->answer);
    }
}

static void command_writing(void) {
    for (size_t i = 0; i < sizeof COMMANDS_WRITTEN / sizeof *COMMANDS_WRITTEN; i++) {
        const struct command_written *due = &COMMANDS_WRITTEN[i];
        begin_of("zinovoky_write_command", due->what);
        ended(zinovoky_write_command(due->uplink, lend(due->command, sizeof due->command),
                                     room(due->len, due->out, due->len), due->len, due->offset),
              due->answer);
    }
}

/* Every call that reads a frame first answers a refusal of reading as zinovoky_read does, number and place, whatever else it was
 * given: no room for its answer, a counter that is not the frame's. */
#define FRAME lend(due->frame, due->len), due->len
#define HANDS_ON(made) (begin_of(#made, due->what), ended(made, due->reading))

static void handed_on(const struct reading *due) {
    HANDS_ON(zinovoky_join_request_fields(FRAME, ROOM(0)));
    HANDS_ON(zinovoky_join_accept_fields(FRAME, ROOM(42)));
    HANDS_ON(zinovoky_join_request_mic(FRAME, KEY(APP), no_verdict()));
    HANDS_ON(zinovoky_join_accept_mic(FRAME, KEY(APP_KEY), no_verdict()));
    HANDS_ON(zinovoky_data_mic(FRAME, KEY(NWK), 1, no_verdict()));
    HANDS_ON(zinovoky_decrypt_data(FRAME, 0, KEYS, 1));
    HANDS_ON(zinovoky_decrypt_data_checked(FRAME, 3, KEYS, 1));
    HANDS_ON(zinovoky_decrypt_join_accept(FRAME, KEY(APP_KEY)));
    HANDS_ON(zinovoky_decrypt_join_accept_checked(FRAME, KEY(APP_KEY)));
    HANDS_ON(zinovoky_session_keys(FRAME, lend(DEV_NONCE, 2), KEY(APP_KEY), ROOM(31)));
    HANDS_ON(zinovoky_amend(FRAME, KEYS, 0x10000, NUMBERS(OUTSIDE)));
    HANDS_ON(zinovoky_hold(FRAME, KEYS, 0x10000, held(HELD_DATA)));
}

static void refused_readings(void) {
    for (size_t i = 0; i < sizeof READINGS / sizeof *READINGS; i++)
        if (READINGS[i].refusal != 0) handed_on(&READINGS[i]);
}

int main(void) {
    map_slices();
    for (way = 0; way < WAYS; way++) {
        readings();
        refused_readings();
        names();
        nwk_ids();
        join_fields();
        mic_tests();
        data_decryption();
        join_accept_opening();
        join_building();
        data_building();
        data_building_refused();
        amending();
        holding();
        held_amendments();
        taking_out();
        command_steps();
        command_writing();
    }
    printf("%u passed, %u failed\n", passed, failed);
    return failed > 0;
}
