/* Uses every function of matrix.h on document 01's examples, and with empty slices at NULL; prints one
 * line when all hold. It is C and C++. */
#include "matrix.h"

#include <stdio.h>
#include <stdlib.h>
#include <string.h>

/* What stands in lent slices before a call, so that a stray write shows. */
#define FILL_BYTE 0xA5
#define FILL_NUMBER ((size_t)0xA5A5A5A5)

static unsigned checks;

static void hold(int holds, const char *what, int line)
{
    checks++;
    if (!holds) {
        fprintf(stderr, "test.c:%d: does not hold: %s\n", line, what);
        exit(EXIT_FAILURE);
    }
}

#define HOLDS(what) hold((what), #what, __LINE__)

/* The one place where an outcome is held against what is expected. */
static int came_to(matrix_outcome outcome, uint8_t answer, size_t detail, int value)
{
    return outcome.answer == answer && outcome.detail == detail && outcome.value == value;
}

/* Any answer but 11: there is no value. */
static int gave(matrix_outcome outcome, uint8_t answer, size_t detail)
{
    return came_to(outcome, answer, detail, 0);
}

/* 11, with the byte place and the value there. */
static int found(matrix_outcome outcome, size_t place, int value)
{
    return came_to(outcome, MATRIX_OUT_OF_RANGE, place, value);
}

static int done(matrix_outcome outcome, size_t detail)
{
    return gave(outcome, MATRIX_DONE, detail);
}

/* A report on a message with so much real time in it. */
static int noisy(matrix_report report, size_t start, size_t end, size_t noise)
{
    return report.start == start && report.end == end && report.noise == noise;
}

/* One without any. */
static int spans(matrix_report report, size_t start, size_t end)
{
    return noisy(report, start, end, 0);
}

static int says(matrix_report report, size_t start, size_t end, uint8_t answer, size_t detail)
{
    return spans(report, start, end) && gave(report.outcome, answer, detail);
}

static int bank_gave(matrix_bank_outcome bank, uint8_t answer, size_t detail, size_t place)
{
    return gave(bank.outcome, answer, detail) && bank.place == place;
}

static int ranges(matrix_range range, int least, int greatest)
{
    return done(range.outcome, 0) && range.least == least && range.greatest == greatest;
}

static int holds_value(matrix_held held, int value)
{
    return done(held.outcome, 0) && held.value == value;
}

static int all_are(const uint8_t *bytes, size_t from, size_t to, uint8_t byte)
{
    for (size_t i = from; i < to; i++)
        if (bytes[i] != byte)
            return 0;
    return 1;
}

static const uint8_t *text(const char *characters)
{
    return (const uint8_t *)characters;
}

/* P of document 01: zeros, with byte 76 = 1. */
static void make_p(uint8_t p[MATRIX_PATCH_BYTES])
{
    memset(p, 0, MATRIX_PATCH_BYTES);
    p[76] = 1;
}

/* The input of document 01's listing. */
static const uint8_t listed[] = {0x41, 0xF0, 0xF7, 0xF0, 0x10, 0x06,
                                 0x06, 0x15, 0x7F, 0xF7, 0xF0};

static void test_walking(void)
{
    matrix_report report = matrix_walk(listed, sizeof listed, 0);
    HOLDS(says(report, 1, 3, MATRIX_OTHER_MAKER, 0));
    report = matrix_walk(listed, sizeof listed, report.end);
    HOLDS(says(report, 3, 10, MATRIX_DONE, MATRIX_OPCODE_EDIT));
    report = matrix_walk(listed, sizeof listed, report.end);
    HOLDS(says(report, 10, 11, MATRIX_CUT, 0));
    report = matrix_walk(listed, sizeof listed, report.end);
    HOLDS(says(report, 11, 11, MATRIX_NO_MESSAGE, 0));
    HOLDS(says(matrix_walk(listed, sizeof listed, SIZE_MAX), 11, 11, MATRIX_NO_MESSAGE, 0));
}

static void test_reports(void)
{
    size_t room[5 * MATRIX_REPORT_NUMBERS];

    for (size_t i = 0; i < 5 * MATRIX_REPORT_NUMBERS; i++)
        room[i] = FILL_NUMBER;
    matrix_listed made = matrix_reports(listed, sizeof listed, 0, room, 5 * MATRIX_REPORT_NUMBERS);
    HOLDS(made.count == 3 && made.next == 11);
    HOLDS(says(matrix_listed_report(room, 0), 1, 3, MATRIX_OTHER_MAKER, 0));
    HOLDS(says(matrix_listed_report(room, 1), 3, 10, MATRIX_DONE, MATRIX_OPCODE_EDIT));
    HOLDS(says(matrix_listed_report(room, 2), 10, 11, MATRIX_CUT, 0));
    for (size_t i = 3 * MATRIX_REPORT_NUMBERS; i < 5 * MATRIX_REPORT_NUMBERS; i++)
        HOLDS(room[i] == FILL_NUMBER);

    made = matrix_reports(listed, sizeof listed, 11, room, 5 * MATRIX_REPORT_NUMBERS);
    HOLDS(made.count == 0 && made.next == 11);
    made = matrix_reports(listed, sizeof listed, 2, room, MATRIX_REPORT_NUMBERS - 1);
    HOLDS(made.count == 0 && made.next == 2);
}

static void test_reading(void)
{
    uint8_t p[MATRIX_PATCH_BYTES], dump[MATRIX_PATCH_MESSAGE], buffer[MATRIX_PATCH_BYTES + 1];

    make_p(p);
    HOLDS(done(matrix_write_patch(99, p, sizeof p, dump, sizeof dump), 275));
    memset(buffer, FILL_BYTE, sizeof buffer);
    matrix_reading r = matrix_read(dump, sizeof dump, 0, buffer, MATRIX_PATCH_BYTES - 1);
    HOLDS(says(r.report, 0, sizeof dump, MATRIX_NO_ROOM, 0) && all_are(r.bytes, 0, 4, 0));
    HOLDS(all_are(buffer, 0, sizeof buffer, FILL_BYTE));
    r = matrix_read(dump, sizeof dump, 0, buffer, sizeof buffer);
    HOLDS(says(r.report, 0, sizeof dump, MATRIX_DONE, MATRIX_OPCODE_PATCH));
    HOLDS(r.bytes[0] == 99 && all_are(r.bytes, 1, 4, 0));
    HOLDS(memcmp(buffer, p, sizeof p) == 0 && buffer[sizeof p] == FILL_BYTE);

    dump[273] ^= 1;
    memset(buffer, FILL_BYTE, sizeof buffer);
    r = matrix_read(dump, sizeof dump, 0, buffer, sizeof buffer);
    HOLDS(says(r.report, 0, sizeof dump, MATRIX_WRONG_SUM, 0) && all_are(r.bytes, 0, 4, 0));
    HOLDS(all_are(buffer, 0, sizeof buffer, FILL_BYTE));

    r = matrix_read(listed, sizeof listed, 2, buffer, sizeof buffer);
    HOLDS(says(r.report, 3, 10, MATRIX_DONE, MATRIX_OPCODE_EDIT));
    HOLDS(r.bytes[0] == MATRIX_VCF_FREQUENCY && r.bytes[1] == 0x7F && all_are(r.bytes, 2, 4, 0));
    HOLDS(all_are(buffer, 0, sizeof buffer, FILL_BYTE));
}

static void test_patches(void)
{
    uint8_t p[MATRIX_PATCH_BYTES];
    static const uint8_t zeros[MATRIX_PATCH_BYTES] = {0};

    make_p(p);
    HOLDS(done(matrix_test_patch(p, sizeof p), 0));
    HOLDS(found(matrix_test_patch(zeros, sizeof zeros), 76, 0));
    HOLDS(gave(matrix_test_patch(p, sizeof p - 1), MATRIX_WRONG_LENGTH, 0));

    HOLDS(matrix_place_of(MATRIX_VCF_FREQUENCY) == 26);
    HOLDS(matrix_parameter_of(26) == MATRIX_VCF_FREQUENCY);
    HOLDS(matrix_place_of(39) == MATRIX_NONE && matrix_place_of(99) == MATRIX_NONE);
    HOLDS(matrix_parameter_of(7) == MATRIX_NONE && matrix_parameter_of(104) == MATRIX_NONE);
}

static void test_names(void)
{
    uint8_t p[MATRIX_PATCH_BYTES], out[MATRIX_NAME_BYTES + 1], dump[MATRIX_PATCH_MESSAGE];
    static const uint8_t stored[] = {2, 1, 19, 19, 32, 49, 32, 32};

    make_p(p);
    HOLDS(gave(matrix_set_name(p, sizeof p, text("BASS 1"), 6), MATRIX_WRONG_LENGTH, 0));
    HOLDS(gave(matrix_set_name(p, sizeof p, text("bass 1  "), 8), MATRIX_NOT_ALLOWED, 0));
    HOLDS(all_are(p, 0, 8, 0));
    HOLDS(done(matrix_set_name(p, sizeof p, text("BASS 1  "), 8), 0));
    HOLDS(memcmp(p, stored, sizeof stored) == 0);

    memset(out, FILL_BYTE, sizeof out);
    HOLDS(gave(matrix_show_name(p, sizeof p, out, 7), MATRIX_NO_ROOM, 0));
    HOLDS(all_are(out, 0, sizeof out, FILL_BYTE));
    HOLDS(done(matrix_show_name(p, sizeof p, out, sizeof out), 8));
    HOLDS(memcmp(out, "BASS 1  ", 8) == 0 && out[8] == FILL_BYTE);

    HOLDS(done(matrix_write_patch(0, p, sizeof p, dump, sizeof dump), 275));
    HOLDS(dump[273] == 0x3B);
}

static void test_edits(void)
{
    uint8_t p[MATRIX_PATCH_BYTES], out[MATRIX_BUS_EDIT_MESSAGE + 1];
    static const uint8_t edit[] = {0xF0, 0x10, 0x06, 0x06, 0x15, 0x7F, 0xF7};
    static const uint8_t bus[] = {0xF0, 0x10, 0x06, 0x0B, 0x09, 0x14, 0x40, 0x20, 0xF7};

    make_p(p);
    HOLDS(done(matrix_apply_edit(p, sizeof p, 0x15, 0x7F), 0) && p[26] == 127);
    HOLDS(done(matrix_apply_edit(p, sizeof p, MATRIX_DCO_2_DETUNE, -32 & 0x7F), 0));
    HOLDS(p[19] == 0xE0);
    HOLDS(found(matrix_apply_edit(p, sizeof p, 0x0C, 0x5F), 19, -33));
    HOLDS(found(matrix_apply_edit(p, sizeof p, 0x0C, 0x20), 19, 32));
    HOLDS(found(matrix_apply_edit(p, sizeof p, 0x00, 0x40), 9, 192));
    HOLDS(gave(matrix_apply_edit(p, sizeof p, 39, 0), MATRIX_NOT_ALLOWED, 0));
    HOLDS(p[19] == 0xE0 && p[9] == 0);
    HOLDS(done(matrix_apply_edit(p, sizeof p, 0x0C, 0x1F), 0) && p[19] == 31);

    HOLDS(done(matrix_apply_bus_edit(p, sizeof p, 9, 20, 0x40, 31), 0));
    HOLDS(p[131] == 0x14 && p[132] == 0xC0 && p[133] == 0x1F);
    HOLDS(done(matrix_apply_bus_edit(p, sizeof p, 9, 20, 0x40, 32), 0) && p[133] == 0x20);
    HOLDS(found(matrix_apply_bus_edit(p, sizeof p, 9, 20, 0x40, 33), 133, 33));
    HOLDS(gave(matrix_apply_bus_edit(p, sizeof p, 0, 1, 0, 0), MATRIX_HALF_USED, 0));
    HOLDS(gave(matrix_apply_bus_edit(p, sizeof p, 10, 1, 0, 1), MATRIX_NOT_ALLOWED, 0));
    HOLDS(p[131] == 0x14 && p[133] == 0x20 && all_are(p, 104, 131, 0));
    HOLDS(done(matrix_test_patch(p, sizeof p), 0));

    memset(out, FILL_BYTE, sizeof out);
    HOLDS(gave(matrix_write_edit(0x15, 0x7F, out, 6), MATRIX_NO_ROOM, 0));
    HOLDS(found(matrix_write_edit(0x0C, 0x5F, out, 6), 19, -33));
    HOLDS(gave(matrix_write_edit(0x15, 0x80, out, sizeof out), MATRIX_NOT_ALLOWED, 0));
    HOLDS(all_are(out, 0, sizeof out, FILL_BYTE));
    HOLDS(done(matrix_write_edit(0x15, 0x7F, out, sizeof out), 7));
    HOLDS(memcmp(out, edit, sizeof edit) == 0 && all_are(out, 7, sizeof out, FILL_BYTE));

    memset(out, FILL_BYTE, sizeof out);
    HOLDS(gave(matrix_write_bus_edit(10, 20, 0x40, 32, out, sizeof out), MATRIX_NOT_ALLOWED, 0));
    HOLDS(found(matrix_write_bus_edit(9, 20, 0x40, 33, out, sizeof out), 133, 33));
    HOLDS(all_are(out, 0, sizeof out, FILL_BYTE));
    HOLDS(done(matrix_write_bus_edit(9, 20, 0x40, 32, out, sizeof out), 9));
    HOLDS(memcmp(out, bus, sizeof bus) == 0 && out[9] == FILL_BYTE);
}

/* Two whole patches for the planner and for its checker. */
static matrix_outcome plan(const uint8_t *a, const uint8_t *b, uint8_t *out, size_t out_len)
{
    return matrix_plan(a, MATRIX_PATCH_BYTES, b, MATRIX_PATCH_BYTES, out, out_len);
}

static matrix_outcome check_plan(const uint8_t *a, const uint8_t *b,
                                 const uint8_t *list, size_t list_len)
{
    return matrix_check_plan(a, MATRIX_PATCH_BYTES, b, MATRIX_PATCH_BYTES, list, list_len);
}

/* The dump of P with another byte at a place, and the sum that fits it. */
static void make_dump(uint8_t dump[MATRIX_PATCH_MESSAGE], size_t place, uint8_t byte)
{
    uint8_t p[MATRIX_PATCH_BYTES];

    make_p(p);
    matrix_write_patch(0, p, sizeof p, dump, MATRIX_PATCH_MESSAGE);
    dump[5 + 2 * place] = byte % 16;
    dump[6 + 2 * place] = byte / 16;
    dump[273] = (uint8_t)((dump[273] + byte - p[place]) & 0x7F);
}

/* All that tests a patch tells the place and the value that this byte has there. */
static void find(size_t place, uint8_t byte, int value)
{
    uint8_t bank[2 * MATRIX_PATCH_BYTES], dump[MATRIX_PATCH_MESSAGE], out[2 * MATRIX_PATCH_MESSAGE];
    uint8_t *p = bank + MATRIX_PATCH_BYTES;
    size_t room[MATRIX_REPORT_NUMBERS];

    make_p(bank);
    make_p(p);
    p[place] = byte;
    memset(out, FILL_BYTE, sizeof out);
    HOLDS(found(matrix_test_patch(p, MATRIX_PATCH_BYTES), place, value));
    HOLDS(found(matrix_set_name(p, MATRIX_PATCH_BYTES, text("BASS 1  "), 8), place, value));
    HOLDS(found(matrix_show_name(p, MATRIX_PATCH_BYTES, out, 8), place, value));
    HOLDS(found(matrix_apply_edit(p, MATRIX_PATCH_BYTES, MATRIX_MIX, 1), place, value));
    HOLDS(found(matrix_apply_bus_edit(p, MATRIX_PATCH_BYTES, 0, 1, 1, 1), place, value));
    HOLDS(found(matrix_write_patch(0, p, MATRIX_PATCH_BYTES, out, sizeof out), place, value));
    HOLDS(found(matrix_write_edit_buffer(p, MATRIX_PATCH_BYTES, out, sizeof out), place, value));
    matrix_held held = matrix_value_of(p, MATRIX_PATCH_BYTES, MATRIX_TRACKING_POINT_1);
    HOLDS(found(held.outcome, place, value) && held.value == 0);
    matrix_bank_outcome written = matrix_write_bank(bank, sizeof bank, out, sizeof out);
    HOLDS(found(written.outcome, place, value) && written.place == 1);
    HOLDS(found(plan(p, bank, out, sizeof out), place, value));
    HOLDS(found(plan(bank, p, out, sizeof out), place, value));
    HOLDS(found(check_plan(p, bank, NULL, 0), place, value));
    HOLDS(found(check_plan(bank, p, NULL, 0), place, value));
    HOLDS(p[place] == byte && all_are(out, 0, sizeof out, FILL_BYTE));

    make_dump(dump, place, byte);
    matrix_report report = matrix_walk(dump, sizeof dump, 0);
    HOLDS(spans(report, 0, sizeof dump) && found(report.outcome, place, value));
    matrix_reading r = matrix_read(dump, sizeof dump, 0, out, sizeof out);
    HOLDS(spans(r.report, 0, sizeof dump) && found(r.report.outcome, place, value));
    HOLDS(all_are(r.bytes, 0, 4, 0) && all_are(out, 0, sizeof out, FILL_BYTE));
    HOLDS(matrix_reports(dump, sizeof dump, 0, room, MATRIX_REPORT_NUMBERS).count == 1);
    HOLDS(room[4] == (size_t)value);
    report = matrix_listed_report(room, 0);
    HOLDS(spans(report, 0, sizeof dump) && found(report.outcome, place, value));
}

/* Byte 19, bytes 86 to 103 and the amounts of the buses. */
static int has_sign(size_t place)
{
    return place == 19 || (place >= 86 && place <= 103) || (place >= 105 && place % 3 == 0);
}

static void test_found(void)
{
    static const int16_t values[] = {-64, 0, 255, -1, -128, INT16_MIN, INT16_MAX};
    static const uint8_t sent[] = {0xF0, 0x10, 0x06, 0x06, 0x00, 0x40, 0xF7};
    size_t room[MATRIX_REPORT_NUMBERS] = {0};

    for (size_t place = 0; place < MATRIX_PATCH_BYTES; place++)
        find(place, 0x80, has_sign(place) ? -128 : 128);
    find(9, 0xC0, 192);
    find(19, 0xDF, -33);
    find(19, 0x20, 32);
    find(26, 0xFF, 255);
    find(76, 0, 0);
    find(105, 0xBF, -65);
    find(132, 0x40, 64);
    find(133, 0x21, 33);
    HOLDS(found(matrix_walk(sent, sizeof sent, 0).outcome, 9, 192));

    for (size_t i = 0; i < sizeof values / sizeof values[0]; i++) {
        room[4] = (size_t)values[i];
        HOLDS(matrix_listed_report(room, 0).outcome.value == values[i]);
    }
}

/* Real time in a complete message, an interrupted one and a cut one, and between them. */
static void test_noise(void)
{
    static const uint8_t heard[] = {0xFE, 0xF0, 0x10, 0x06, 0xFE, 0x06, 0x15, 0x7F, 0xF8,
                                    0xF7, 0xFE, 0xF0, 0xFF, 0x90, 0xFE, 0xF0, 0xFE};
    uint8_t p[MATRIX_PATCH_BYTES], dump[MATRIX_PATCH_MESSAGE], buffer[MATRIX_PATCH_BYTES];
    uint8_t sent[2 * MATRIX_PATCH_MESSAGE];
    size_t room[4 * MATRIX_REPORT_NUMBERS];

    for (size_t i = 0; i < 4 * MATRIX_REPORT_NUMBERS; i++)
        room[i] = FILL_NUMBER;
    HOLDS(matrix_reports(heard, sizeof heard, 0, room, 4 * MATRIX_REPORT_NUMBERS).count == 3);
    matrix_report report = matrix_walk(heard, sizeof heard, 0);
    HOLDS(noisy(report, 1, 10, 2) && done(report.outcome, MATRIX_OPCODE_EDIT));
    report = matrix_listed_report(room, 0);
    HOLDS(noisy(report, 1, 10, 2) && done(report.outcome, MATRIX_OPCODE_EDIT));
    report = matrix_walk(heard, sizeof heard, 10);
    HOLDS(noisy(report, 11, 13, 1) && gave(report.outcome, MATRIX_INTERRUPTED, 0));
    HOLDS(noisy(matrix_listed_report(room, 1), 11, 13, 1));
    report = matrix_walk(heard, sizeof heard, 13);
    HOLDS(noisy(report, 15, 17, 1) && gave(report.outcome, MATRIX_CUT, 0));
    HOLDS(noisy(matrix_listed_report(room, 2), 15, 17, 1));
    HOLDS(says(matrix_walk(heard, sizeof heard, 16), 17, 17, MATRIX_NO_MESSAGE, 0));
    for (size_t i = 3 * MATRIX_REPORT_NUMBERS; i < 4 * MATRIX_REPORT_NUMBERS; i++)
        HOLDS(room[i] == FILL_NUMBER);

    /* Active Sensing behind every byte of a dump. */
    make_p(p);
    HOLDS(done(matrix_write_patch(7, p, sizeof p, dump, sizeof dump), sizeof dump));
    for (size_t i = 0; i < sizeof dump; i++) {
        sent[2 * i] = dump[i];
        sent[2 * i + 1] = 0xFE;
    }
    const size_t end = sizeof sent - 1, noise = sizeof dump - 1;
    matrix_reading r = matrix_read(sent, sizeof sent, 0, buffer, sizeof buffer - 1);
    HOLDS(noisy(r.report, 0, end, noise) && gave(r.report.outcome, MATRIX_NO_ROOM, 0));
    r = matrix_read(sent, sizeof sent, 0, buffer, sizeof buffer);
    HOLDS(noisy(r.report, 0, end, noise) && done(r.report.outcome, MATRIX_OPCODE_PATCH));
    HOLDS(r.bytes[0] == 7 && memcmp(buffer, p, sizeof p) == 0);
}

static void test_values(void)
{
    uint8_t p[MATRIX_PATCH_BYTES];
    static const uint8_t none_such[] = {39, 49, 89, 99, 100, 255};

    HOLDS(ranges(matrix_range_of(MATRIX_DCO_2_DETUNE), -32, 31));
    HOLDS(ranges(matrix_range_of(MATRIX_VCF_FREQUENCY), 0, 127));
    HOLDS(ranges(matrix_range_of(MATRIX_TRACKING_SOURCE), 1, 20));
    for (uint8_t place = 8; place < 104; place++) {
        matrix_range range = matrix_range_of(matrix_parameter_of(place));
        HOLDS(done(range.outcome, 0) && (range.least < 0) == has_sign(place));
        HOLDS(place < 86 || (range.least == -64 && range.greatest == 63));
    }
    for (size_t i = 0; i < sizeof none_such; i++) {
        matrix_range range = matrix_range_of(none_such[i]);
        HOLDS(gave(range.outcome, MATRIX_NOT_ALLOWED, 0));
        HOLDS(range.least == 0 && range.greatest == 0);
    }

    make_p(p);
    HOLDS(holds_value(matrix_value_of(p, sizeof p, MATRIX_TRACKING_SOURCE), 1));
    HOLDS(done(matrix_apply_edit(p, sizeof p, 1, 100 & 0x7F), 0) && p[86] == 0xE4);
    HOLDS(holds_value(matrix_value_of(p, sizeof p, 1), -28));
    HOLDS(done(matrix_apply_edit(p, sizeof p, 21, 100 & 0x7F), 0));
    HOLDS(holds_value(matrix_value_of(p, sizeof p, 21), 100));

    matrix_held held = matrix_value_of(p, sizeof p - 1, 39);
    HOLDS(gave(held.outcome, MATRIX_NOT_ALLOWED, 0) && held.value == 0);
    held = matrix_value_of(p, sizeof p - 1, 1);
    HOLDS(gave(held.outcome, MATRIX_WRONG_LENGTH, 0) && held.value == 0);
    p[107] = 1;
    held = matrix_value_of(p, sizeof p, 1);
    HOLDS(gave(held.outcome, MATRIX_HALF_USED, 1) && held.value == 0);
    p[105] = 0xBF;
    held = matrix_value_of(p, sizeof p, 1);
    HOLDS(found(held.outcome, 105, -65) && held.value == 0);
}

static void test_writing(void)
{
    uint8_t p[MATRIX_PATCH_BYTES], master[MATRIX_MASTER_BYTES], out[MATRIX_MASTER_MESSAGE + 1];
    static const uint8_t head[] = {0xF0, 0x10, 0x06, 0x01, 0x00};
    static const uint8_t edit_head[] = {0xF0, 0x10, 0x06, 0x0D, 0x00};
    static const uint8_t master_head[] = {0xF0, 0x10, 0x06, 0x03, 0x03};

    make_p(p);
    memset(out, FILL_BYTE, sizeof out);
    HOLDS(gave(matrix_write_patch(0, p, sizeof p, out, 274), MATRIX_NO_ROOM, 0));
    HOLDS(gave(matrix_write_patch(100, p, sizeof p, out, 275), MATRIX_NOT_ALLOWED, 0));
    HOLDS(all_are(out, 0, sizeof out, FILL_BYTE));
    HOLDS(done(matrix_write_patch(0, p, sizeof p, out, 275), 275));
    HOLDS(all_are(out, 275, sizeof out, FILL_BYTE));
    HOLDS(done(matrix_write_patch(0, p, sizeof p, out, sizeof out), 275));
    HOLDS(memcmp(out, head, sizeof head) == 0 && all_are(out, 5, 157, 0) && out[157] == 1);
    HOLDS(all_are(out, 158, 273, 0) && out[273] == 0x01 && out[274] == 0xF7);
    HOLDS(all_are(out, 275, sizeof out, FILL_BYTE));

    HOLDS(done(matrix_apply_bus_edit(p, sizeof p, 0, 1, 0x7F, 1), 0));
    HOLDS(done(matrix_write_edit_buffer(p, sizeof p, out, sizeof out), 275));
    HOLDS(memcmp(out, edit_head, sizeof edit_head) == 0 && out[157] == 1 && out[273] == 0x02);
    HOLDS(all_are(out, 275, sizeof out, FILL_BYTE));

    memset(master, 0xFF, sizeof master);
    HOLDS(gave(matrix_write_master(master, 171, out, sizeof out), MATRIX_WRONG_LENGTH, 0));
    HOLDS(gave(matrix_write_master(master, 172, out, 350), MATRIX_NO_ROOM, 0));
    HOLDS(all_are(out, 275, sizeof out, FILL_BYTE));
    HOLDS(done(matrix_write_master(master, 172, out, sizeof out), 351));
    HOLDS(memcmp(out, master_head, sizeof master_head) == 0 && all_are(out, 5, 349, 0x0F));
    HOLDS(out[349] == (172 * 0xFF) % 128 && out[350] == 0xF7 && out[351] == FILL_BYTE);
}

/* The range of each byte of a split, by its bits. */
static const int16_t split_ranges[MATRIX_SPLIT_BYTES][2] = {
    {0, 63}, {0, 63}, {0, 63}, {0, 63}, {0, 63}, {0, 63}, /* the name */
    {0, 63}, {0, 63},                                     /* not used */
    {0, 127}, {0, 127},                                   /* lower and upper patch */
    {0, 127}, {-32, 31}, {0, 1},                          /* left zone */
    {0, 127}, {-32, 31}, {0, 1},                          /* right zone */
    {-32, 31}, {0, 3}};                                   /* balance, voices */

/* A split with something in every field that is used. */
static void make_split(uint8_t p[MATRIX_SPLIT_BYTES])
{
    static const uint8_t name[] = {2, 1, 19, 19, 43, 49};

    memset(p, 0, MATRIX_SPLIT_BYTES);
    memcpy(p + MATRIX_SPLIT_NAME, name, sizeof name);
    p[MATRIX_SPLIT_LOWER_PATCH] = 99;
    p[MATRIX_SPLIT_UPPER_PATCH] = 127;
    p[MATRIX_SPLIT_LEFT_LIMIT] = 59;
    p[MATRIX_SPLIT_LEFT_TRANSPOSE] = -32 & 0xFF;
    p[MATRIX_SPLIT_LEFT_MIDI_OUT] = 1;
    p[MATRIX_SPLIT_RIGHT_LIMIT] = 60;
    p[MATRIX_SPLIT_RIGHT_TRANSPOSE] = 31;
    p[MATRIX_SPLIT_RIGHT_MIDI_OUT] = 1;
    p[MATRIX_SPLIT_BALANCE] = -31 & 0xFF;
    p[MATRIX_SPLIT_VOICES] = 3;
}

/* The dump of any eighteen bytes, laid out by hand. */
static void make_split_dump(uint8_t dump[MATRIX_SPLIT_MESSAGE], uint8_t number,
                            const uint8_t p[MATRIX_SPLIT_BYTES])
{
    static const uint8_t head[] = {0xF0, 0x10, 0x06, 0x02};
    unsigned sum = 0;

    memcpy(dump, head, sizeof head);
    dump[4] = number;
    for (size_t i = 0; i < MATRIX_SPLIT_BYTES; i++) {
        dump[5 + 2 * i] = p[i] % 16;
        dump[6 + 2 * i] = p[i] / 16;
        sum += p[i];
    }
    dump[41] = (uint8_t)(sum % 128);
    dump[42] = 0xF7;
}

static void test_splits(void)
{
    uint8_t p[MATRIX_SPLIT_BYTES], kept[MATRIX_SPLIT_BYTES], buffer[MATRIX_SPLIT_BYTES + 1];
    uint8_t dump[MATRIX_SPLIT_MESSAGE], out[MATRIX_SPLIT_MESSAGE + 1];
    static const uint8_t zeros[MATRIX_SPLIT_BYTES] = {0};

    make_split(p);
    make_split(kept);
    HOLDS(done(matrix_test_split(p, sizeof p), 0));
    HOLDS(done(matrix_test_split(zeros, sizeof zeros), 0));
    for (unsigned number = 0; number < 50; number++) {
        make_split_dump(dump, (uint8_t)number, p);
        memset(out, FILL_BYTE, sizeof out);
        HOLDS(done(matrix_write_split((uint8_t)number, p, sizeof p, out, sizeof out), 43));
        HOLDS(memcmp(out, dump, sizeof dump) == 0 && out[43] == FILL_BYTE);
        HOLDS(says(matrix_walk(out, 43, 0), 0, 43, MATRIX_DONE, MATRIX_OPCODE_SPLIT));
        memset(buffer, FILL_BYTE, sizeof buffer);
        matrix_reading r = matrix_read(out, 43, 0, buffer, sizeof p - 1);
        HOLDS(says(r.report, 0, 43, MATRIX_NO_ROOM, 0) && all_are(r.bytes, 0, 4, 0));
        HOLDS(all_are(buffer, 0, sizeof buffer, FILL_BYTE));
        r = matrix_read(out, 43, 0, buffer, sizeof buffer);
        HOLDS(says(r.report, 0, 43, MATRIX_DONE, MATRIX_OPCODE_SPLIT));
        HOLDS(r.bytes[0] == number && all_are(r.bytes, 1, 4, 0));
        HOLDS(memcmp(buffer, p, sizeof p) == 0 && buffer[sizeof p] == FILL_BYTE);
    }
    memset(out, FILL_BYTE, sizeof out);
    HOLDS(done(matrix_write_split(0, zeros, sizeof zeros, out, 43), 43));
    HOLDS(memcmp(out, "\xF0\x10\x06\x02\x00", 5) == 0 && all_are(out, 5, 42, 0));
    HOLDS(out[42] == 0xF7 && out[43] == FILL_BYTE);
    HOLDS(memcmp(p, kept, sizeof p) == 0);
}

/* The first refusal is given: 7, 8, 11, 13. */
static void test_refused_splits(void)
{
    uint8_t p[MATRIX_SPLIT_BYTES + 1] = {0}, out[MATRIX_SPLIT_MESSAGE];
    const size_t whole = MATRIX_SPLIT_BYTES;

    make_split(p);
    memset(out, FILL_BYTE, sizeof out);
    for (size_t room = 0; room < sizeof out; room++)
        HOLDS(gave(matrix_write_split(49, p, whole, out, room), MATRIX_NO_ROOM, 0));
    p[MATRIX_SPLIT_LEFT_TRANSPOSE] = 0xDF;
    p[MATRIX_SPLIT_VOICES] = 4;
    HOLDS(found(matrix_write_split(49, p, whole, out, 42), 11, -33));
    for (unsigned number = 50; number < 256; number++)
        HOLDS(gave(matrix_write_split((uint8_t)number, p, whole, out, 42), MATRIX_NOT_ALLOWED, 0));
    for (size_t length = 0; length <= whole + 1; length++) {
        if (length == whole)
            continue;
        HOLDS(gave(matrix_write_split(50, p, length, out, 42), MATRIX_WRONG_LENGTH, 0));
        HOLDS(gave(matrix_test_split(p, length), MATRIX_WRONG_LENGTH, 0));
    }
    HOLDS(all_are(out, 0, sizeof out, FILL_BYTE));
}

/* All that tests a split tells the place and the value that this byte has there. */
static void find_in_split(size_t place, uint8_t byte, int value)
{
    uint8_t p[MATRIX_SPLIT_BYTES], dump[MATRIX_SPLIT_MESSAGE], out[MATRIX_SPLIT_MESSAGE];
    size_t room[MATRIX_REPORT_NUMBERS];

    make_split(p);
    p[place] = byte;
    make_split_dump(dump, 0, p);
    memset(out, FILL_BYTE, sizeof out);
    HOLDS(found(matrix_test_split(p, sizeof p), place, value));
    HOLDS(found(matrix_write_split(0, p, sizeof p, out, sizeof out), place, value));
    matrix_report report = matrix_walk(dump, sizeof dump, 0);
    HOLDS(spans(report, 0, sizeof dump) && found(report.outcome, place, value));
    matrix_reading r = matrix_read(dump, sizeof dump, 0, out, sizeof out);
    HOLDS(spans(r.report, 0, sizeof dump) && found(r.report.outcome, place, value));
    HOLDS(all_are(r.bytes, 0, 4, 0) && all_are(out, 0, sizeof out, FILL_BYTE));
    HOLDS(matrix_reports(dump, sizeof dump, 0, room, MATRIX_REPORT_NUMBERS).count == 1);
    HOLDS(room[4] == (size_t)value);
    matrix_cable cable = matrix_cable_fresh();
    matrix_fed fed = matrix_cable_feed(&cable, dump, sizeof dump);
    HOLDS(fed.ended && found(fed.reading.report.outcome, place, value));
    HOLDS(p[place] == byte && matrix_cable_packed(&cable).length == 0);
    if (place != MATRIX_SPLIT_VOICES) {
        p[MATRIX_SPLIT_VOICES] = 0xFF; /* the lower place is told */
        HOLDS(found(matrix_test_split(p, sizeof p), place, value));
    }
}

/* Every byte at every place. */
static void test_found_in_splits(void)
{
    uint8_t p[MATRIX_SPLIT_BYTES];

    for (size_t place = 0; place < MATRIX_SPLIT_BYTES; place++) {
        const int16_t least = split_ranges[place][0], greatest = split_ranges[place][1];
        for (int byte = 0; byte < 256; byte++) {
            const int value = least < 0 && byte >= 128 ? byte - 256 : byte;
            if (value < least || value > greatest) {
                find_in_split(place, (uint8_t)byte, value);
                continue;
            }
            make_split(p);
            p[place] = (uint8_t)byte;
            HOLDS(done(matrix_test_split(p, sizeof p), 0));
        }
    }
    find_in_split(MATRIX_SPLIT_BALANCE, 0x80, -128);
    find_in_split(MATRIX_SPLIT_BALANCE, 0xDF, -33);
    find_in_split(MATRIX_SPLIT_BALANCE, 0x20, 32);
    find_in_split(MATRIX_SPLIT_UPPER_PATCH, 0xFF, 255);
}

/* Dumps of another length, the dummies of a Matrix-1000 with 41 bytes too, or damaged on the way. */
static void test_damaged_splits(void)
{
    uint8_t p[MATRIX_SPLIT_BYTES], dump[MATRIX_SPLIT_MESSAGE], buffer[MATRIX_SPLIT_BYTES];
    uint8_t sent[2 * MATRIX_SPLIT_MESSAGE];

    memset(buffer, FILL_BYTE, sizeof buffer);
    for (size_t length = 5; length <= sizeof sent; length++) {
        memset(sent, 0, sizeof sent);
        memcpy(sent, "\xF0\x10\x06\x02", 4);
        sent[length - 1] = 0xF7;
        matrix_report report = matrix_walk(sent, length, 0);
        if (length == MATRIX_SPLIT_MESSAGE) {
            HOLDS(says(report, 0, length, MATRIX_DONE, MATRIX_OPCODE_SPLIT));
            continue;
        }
        HOLDS(says(report, 0, length, MATRIX_WRONG_LENGTH, 0));
        report = matrix_read(sent, length, 0, buffer, sizeof buffer).report;
        HOLDS(says(report, 0, length, MATRIX_WRONG_LENGTH, 0));
    }
    make_split(p);
    make_split_dump(dump, 50, p);
    matrix_reading r = matrix_read(dump, sizeof dump, 0, buffer, sizeof buffer);
    HOLDS(says(r.report, 0, sizeof dump, MATRIX_NOT_ALLOWED, 0) && all_are(r.bytes, 0, 4, 0));
    for (size_t i = 0; i < 36; i++) {
        make_split_dump(dump, 49, p);
        dump[5 + i] |= 0x10;
        r = matrix_read(dump, sizeof dump, 0, buffer, sizeof buffer);
        HOLDS(says(r.report, 0, sizeof dump, MATRIX_WIDE_DATA, i));
    }
    make_split_dump(dump, 49, p);
    dump[41] ^= 0x40;
    r = matrix_read(dump, sizeof dump, 0, buffer, sizeof buffer);
    HOLDS(says(r.report, 0, sizeof dump, MATRIX_WRONG_SUM, 0) && all_are(r.bytes, 0, 4, 0));
    HOLDS(all_are(buffer, 0, sizeof buffer, FILL_BYTE));

    /* Active Sensing behind every byte. */
    make_split_dump(dump, 49, p);
    for (size_t i = 0; i < sizeof dump; i++) {
        sent[2 * i] = dump[i];
        sent[2 * i + 1] = 0xFE;
    }
    r = matrix_read(sent, sizeof sent, 0, buffer, sizeof buffer);
    HOLDS(noisy(r.report, 0, sizeof sent - 1, sizeof dump - 1));
    HOLDS(done(r.report.outcome, MATRIX_OPCODE_SPLIT) && r.bytes[0] == 49);
    HOLDS(memcmp(buffer, p, sizeof p) == 0);
}

static void test_banks(void)
{
    static uint8_t patches[(MATRIX_BANK_PATCHES + 1) * MATRIX_PATCH_BYTES];
    static uint8_t out[MATRIX_BANK_PATCHES * MATRIX_PATCH_MESSAGE + 1];
    const size_t bank = MATRIX_BANK_PATCHES * MATRIX_PATCH_BYTES;
    size_t room[MATRIX_REPORTS * MATRIX_REPORT_NUMBERS];

    for (size_t i = 0; i <= MATRIX_BANK_PATCHES; i++)
        make_p(patches + i * MATRIX_PATCH_BYTES);
    memset(out, FILL_BYTE, sizeof out);
    HOLDS(bank_gave(matrix_write_bank(patches, bank, out, sizeof out - 2), MATRIX_NO_ROOM, 0, 0));
    HOLDS(all_are(out, 0, sizeof out, FILL_BYTE));
    HOLDS(bank_gave(matrix_write_bank(patches, bank, out, sizeof out),
                    MATRIX_DONE, sizeof out - 1, 0));
    HOLDS(out[sizeof out - 1] == FILL_BYTE);

    /* Call after call, each from where the last one says. */
    size_t last = 0, reports = 0;
    matrix_listed made = {0, 0};
    do {
        made = matrix_reports(out, sizeof out, made.next, room, sizeof room / sizeof room[0]);
        reports += made.count;
        if (made.count > 0)
            last = matrix_listed_report(room, made.count - 1).start;
    } while (made.count > 0);
    HOLDS(reports == MATRIX_BANK_PATCHES && made.next == sizeof out - 1);
    matrix_reading r = matrix_read(out, sizeof out, last, patches, bank);
    HOLDS(r.report.outcome.answer == MATRIX_DONE && r.bytes[0] == MATRIX_BANK_PATCHES - 1);

    HOLDS(bank_gave(matrix_write_bank(patches, sizeof patches, out, sizeof out),
                    MATRIX_WRONG_LENGTH, 0, 0));
    patches[3 * MATRIX_PATCH_BYTES + 104] = 1;
    HOLDS(bank_gave(matrix_write_bank(patches, bank, out, sizeof out), MATRIX_HALF_USED, 0, 3));
}

/* P, and P with a detune of -32, another filter and two buses; the list from one to the other. */
static void make_pair(uint8_t a[MATRIX_PATCH_BYTES], uint8_t b[MATRIX_PATCH_BYTES])
{
    make_p(a);
    make_p(b);
    b[19] = 0xE0;
    b[26] = 127;
    b[105] = 0xFF; /* an amount alone */
    b[131] = 0x14;
    b[132] = 0xC0;
    b[133] = 0x20;
}

static const uint8_t planned[] = {0xF0, 0x10, 0x06, 0x06, 0x0C, 0x60, 0xF7,
                                  0xF0, 0x10, 0x06, 0x06, 0x15, 0x7F, 0xF7,
                                  0xF0, 0x10, 0x06, 0x0B, 0x00, 0x00, 0x7F, 0x00, 0xF7,
                                  0xF0, 0x10, 0x06, 0x0B, 0x09, 0x14, 0x40, 0x20, 0xF7};

static void test_plans(void)
{
    uint8_t a[MATRIX_PATCH_BYTES], b[MATRIX_PATCH_BYTES], out[sizeof planned + 1];
    uint8_t kept_a[MATRIX_PATCH_BYTES], kept_b[MATRIX_PATCH_BYTES];

    make_pair(a, b);
    make_pair(kept_a, kept_b);
    memset(out, FILL_BYTE, sizeof out);
    for (size_t room = 0; room < sizeof planned; room++)
        HOLDS(gave(plan(a, b, out, room), MATRIX_NO_ROOM, 0));
    HOLDS(all_are(out, 0, sizeof out, FILL_BYTE));
    HOLDS(done(plan(a, b, out, sizeof planned), sizeof planned));
    HOLDS(memcmp(out, planned, sizeof planned) == 0 && out[sizeof planned] == FILL_BYTE);
    memset(out, FILL_BYTE, sizeof out);
    HOLDS(done(plan(a, b, out, sizeof out), sizeof planned));
    HOLDS(memcmp(out, planned, sizeof planned) == 0 && out[sizeof planned] == FILL_BYTE);
    HOLDS(done(check_plan(a, b, planned, sizeof planned), 0));

    /* Equal patches, two of them and one lent twice. */
    memset(out, FILL_BYTE, sizeof out);
    HOLDS(done(plan(b, kept_b, out, sizeof out), 0) && done(plan(a, a, out, 0), 0));
    HOLDS(done(check_plan(b, kept_b, NULL, 0), 0) && done(check_plan(a, a, NULL, 0), 0));
    HOLDS(all_are(out, 0, sizeof out, FILL_BYTE));
    HOLDS(memcmp(a, kept_a, sizeof a) == 0 && memcmp(b, kept_b, sizeof b) == 0);
}

/* Every parameter from its least value to its greatest, and every bus: the longest list. */
static void test_longest_plan(void)
{
    uint8_t a[MATRIX_PATCH_BYTES], b[MATRIX_PATCH_BYTES], out[MATRIX_PLAN_MOST + 1];
    size_t count = 0, next = 0;

    make_p(a);
    make_p(b);
    for (uint8_t place = 8; place < 104; place++) {
        matrix_range range = matrix_range_of(matrix_parameter_of(place));
        a[place] = (uint8_t)range.least;
        b[place] = (uint8_t)range.greatest;
    }
    for (size_t bus = 104; bus < MATRIX_PATCH_BYTES; bus += 3) {
        b[bus] = 20;
        b[bus + 1] = 0xC0;
        b[bus + 2] = 32;
    }
    memset(out, FILL_BYTE, sizeof out);
    HOLDS(gave(plan(a, b, out, MATRIX_PLAN_MOST - 1), MATRIX_NO_ROOM, 0));
    HOLDS(all_are(out, 0, sizeof out, FILL_BYTE));
    HOLDS(done(plan(a, b, out, sizeof out), MATRIX_PLAN_MOST));
    HOLDS(out[MATRIX_PLAN_MOST] == FILL_BYTE);
    HOLDS(done(check_plan(a, b, out, MATRIX_PLAN_MOST), 0));
    HOLDS(done(plan(b, a, out, sizeof out), MATRIX_PLAN_MOST));
    HOLDS(done(check_plan(b, a, out, MATRIX_PLAN_MOST), 0));

    /* Message by message it does what the checker says. */
    while (next < MATRIX_PLAN_MOST) {
        matrix_reading r = matrix_read(out, MATRIX_PLAN_MOST, next, NULL, 0);
        HOLDS(r.report.start == next && r.report.outcome.answer == MATRIX_DONE);
        const uint8_t *e = r.bytes;
        HOLDS(done(r.report.outcome.detail == MATRIX_OPCODE_EDIT
                       ? matrix_apply_edit(b, sizeof b, e[0], e[1])
                       : matrix_apply_bus_edit(b, sizeof b, e[0], e[1], e[2], e[3]), 0));
        next = r.report.end;
        count++;
    }
    HOLDS(count == 96 + 10 && memcmp(a, b, sizeof a) == 0);
}

/* The first refusal is given: 7, 11 and 12 of a, those of b, 16, then 13 or 20. */
static void test_refused_plans(void)
{
    static const uint8_t cut[] = {0xF0};
    const size_t whole = MATRIX_PATCH_BYTES;
    uint8_t a[MATRIX_PATCH_BYTES], b[MATRIX_PATCH_BYTES], out[sizeof planned];

    make_pair(a, b);
    memset(out, FILL_BYTE, sizeof out);
    HOLDS(gave(plan(a, b, out, 1), MATRIX_NO_ROOM, 0));
    HOLDS(gave(check_plan(a, b, cut, 1), MATRIX_NOT_ACCEPTED, 0));
    b[0] = 1;
    HOLDS(gave(plan(a, b, out, 1), MATRIX_OTHER_NAME, 0));
    HOLDS(gave(plan(a, b, out, sizeof out), MATRIX_OTHER_NAME, 0));
    HOLDS(gave(check_plan(a, b, cut, 1), MATRIX_OTHER_NAME, 0));
    HOLDS(gave(check_plan(a, b, planned, sizeof planned), MATRIX_OTHER_NAME, 0));
    b[0] = 0;
    b[7] = 63;
    HOLDS(gave(plan(a, b, out, sizeof out), MATRIX_OTHER_NAME, 0));
    HOLDS(gave(check_plan(b, a, NULL, 0), MATRIX_OTHER_NAME, 0));

    b[130] = 1;
    HOLDS(gave(plan(a, b, out, 1), MATRIX_HALF_USED, 8));
    HOLDS(gave(check_plan(a, b, cut, 1), MATRIX_HALF_USED, 8));
    b[105] = 0xBF;
    HOLDS(found(plan(a, b, out, 1), 105, -65) && found(check_plan(a, b, cut, 1), 105, -65));
    HOLDS(gave(matrix_plan(a, whole, b, whole - 1, out, 1), MATRIX_WRONG_LENGTH, 0));
    HOLDS(gave(matrix_check_plan(a, whole, b, whole - 1, cut, 1), MATRIX_WRONG_LENGTH, 0));

    a[104] = 1;
    HOLDS(gave(plan(a, b, out, 1), MATRIX_HALF_USED, 0));
    HOLDS(gave(check_plan(a, b, cut, 1), MATRIX_HALF_USED, 0));
    HOLDS(gave(matrix_plan(a, whole, b, whole - 1, out, 1), MATRIX_HALF_USED, 0));
    HOLDS(gave(matrix_check_plan(a, whole, b, whole - 1, cut, 1), MATRIX_HALF_USED, 0));
    a[19] = 0xDF;
    HOLDS(found(plan(a, b, out, 1), 19, -33) && found(check_plan(a, b, cut, 1), 19, -33));
    HOLDS(found(matrix_plan(a, whole, b, whole - 1, out, 1), 19, -33));
    HOLDS(found(matrix_check_plan(a, whole, b, whole - 1, cut, 1), 19, -33));
    HOLDS(gave(matrix_plan(a, whole - 1, b, whole, out, 1), MATRIX_WRONG_LENGTH, 0));
    HOLDS(gave(matrix_check_plan(a, whole - 1, b, whole, cut, 1), MATRIX_WRONG_LENGTH, 0));
    HOLDS(all_are(out, 0, sizeof out, FILL_BYTE));
}

/* Bytes, and others behind them; gives how many there are. */
static size_t join(uint8_t *list, const uint8_t *bytes, size_t length,
                   const uint8_t *behind, size_t behind_len)
{
    memcpy(list, bytes, length);
    memcpy(list + length, behind, behind_len);
    return length + behind_len;
}

/* Accepted is a right list, whoever made it, and no other. */
static void test_checked_plans(void)
{
    static const uint8_t needless[] = {0xF0, 0x10, 0x06, 0x06, 0x15, 0x01, 0xF7};
    static const uint8_t none_such[] = {0xF0, 0x10, 0x06, 0x06, 0x27, 0x00, 0xF7};
    static const uint8_t too_wide[] = {0xF0, 0x10, 0x06, 0x06, 0x00, 0x40, 0xF7};
    static const uint8_t half[] = {0xF0, 0x10, 0x06, 0x0B, 0x09, 0x14, 0x00, 0x00, 0xF7};
    const size_t edits = 2 * MATRIX_EDIT_MESSAGE, whole = sizeof planned;
    uint8_t a[MATRIX_PATCH_BYTES], b[MATRIX_PATCH_BYTES], list[sizeof planned + MATRIX_PATCH_MESSAGE];
    uint8_t kept_a[MATRIX_PATCH_BYTES], kept_b[MATRIX_PATCH_BYTES], dump[MATRIX_PATCH_MESSAGE];

    make_pair(a, b);
    make_pair(kept_a, kept_b);

    /* The buses first; a needless edit, which the list makes up for only if it stands before it; all
     * twice. */
    size_t length = join(list, planned + edits, whole - edits, planned, edits);
    HOLDS(length == whole && memcmp(list, planned, whole) != 0);
    HOLDS(done(check_plan(a, b, list, length), 0));
    length = join(list, needless, sizeof needless, planned, whole);
    HOLDS(done(check_plan(a, b, list, length), 0));
    length = join(list, planned, whole, needless, sizeof needless);
    HOLDS(gave(check_plan(a, b, list, length), MATRIX_NOT_ACCEPTED, 0));
    length = join(list, planned, whole, planned, whole);
    HOLDS(done(check_plan(a, b, list, length), 0));

    /* Every cut, at the end of a message too, and every byte left out. */
    for (size_t i = 0; i < whole; i++) {
        HOLDS(gave(check_plan(a, b, planned, i), MATRIX_NOT_ACCEPTED, 0));
        length = join(list, planned, i, planned + i + 1, whole - i - 1);
        HOLDS(gave(check_plan(a, b, list, length), MATRIX_NOT_ACCEPTED, 0));
    }

    /* Real time inside messages, between, before and behind them. */
    for (size_t i = 0; i <= whole; i++) {
        list[i] = 0xFE;
        memcpy(list, planned, i);
        memcpy(list + i + 1, planned + i, whole - i);
        HOLDS(gave(check_plan(a, b, list, whole + 1), MATRIX_NOT_ACCEPTED, 0));
    }

    /* Edits that are refused, though one behind would put it right; and another kind of message. */
    length = join(list, none_such, sizeof none_such, planned, whole);
    HOLDS(gave(check_plan(a, b, list, length), MATRIX_NOT_ACCEPTED, 0));
    length = join(list, too_wide, sizeof too_wide, planned, whole);
    HOLDS(gave(check_plan(a, b, list, length), MATRIX_NOT_ACCEPTED, 0));
    length = join(list, half, sizeof half, planned, whole);
    HOLDS(gave(check_plan(a, b, list, length), MATRIX_NOT_ACCEPTED, 0));
    HOLDS(done(matrix_write_edit_buffer(b, sizeof b, dump, sizeof dump), sizeof dump));
    HOLDS(gave(check_plan(a, b, dump, sizeof dump), MATRIX_NOT_ACCEPTED, 0));
    length = join(list, planned, whole, dump, sizeof dump);
    HOLDS(gave(check_plan(a, b, list, length), MATRIX_NOT_ACCEPTED, 0));
    HOLDS(gave(check_plan(a, b, NULL, 0), MATRIX_NOT_ACCEPTED, 0));
    HOLDS(gave(check_plan(b, a, planned, whole), MATRIX_NOT_ACCEPTED, 0));
    HOLDS(memcmp(a, kept_a, sizeof a) == 0 && memcmp(b, kept_b, sizeof b) == 0);
}

/* A call on a reader that tells of a message. */
static int told(matrix_fed fed, size_t taken, size_t start, size_t end, uint8_t answer, size_t detail)
{
    return fed.ended && fed.taken == taken && says(fed.reading.report, start, end, answer, detail);
}

/* One that tells of none, with this answer and place. */
static int untold(matrix_fed fed, size_t taken, uint8_t answer, size_t place)
{
    return !fed.ended && fed.taken == taken && says(fed.reading.report, place, place, answer, 0)
           && all_are(fed.reading.bytes, 0, 4, 0);
}

/* One that takes all of a feed, in which no message ends. */
static int took_all(matrix_fed fed, size_t taken)
{
    return untold(fed, taken, MATRIX_DONE, 0);
}

static int same_report(matrix_report a, matrix_report b)
{
    return noisy(a, b.start, b.end, b.noise)
           && came_to(a.outcome, b.outcome.answer, b.outcome.detail, b.outcome.value);
}

static int same_reading(matrix_reading a, matrix_reading b)
{
    return same_report(a.report, b.report) && memcmp(a.bytes, b.bytes, 4) == 0;
}

static int same_cable(const matrix_cable *a, const matrix_cable *b)
{
    return memcmp(a->bytes, b->bytes, sizeof a->bytes) == 0 && a->inside == b->inside
           && a->over == b->over && a->count == b->count && a->start == b->start
           && a->noise == b->noise && a->taken == b->taken;
}

/* The reader gives these packed bytes. */
static int packs(const matrix_cable *cable, const uint8_t *bytes, size_t length)
{
    matrix_packed packed = matrix_cable_packed(cable);
    return packed.length == length && memcmp(packed.bytes, bytes, length) == 0;
}

static int packs_none(const matrix_cable *cable)
{
    return matrix_cable_packed(cable).length == 0;
}

/* How many packed bytes come with an outcome. */
static size_t packed_with(matrix_outcome outcome)
{
    if (outcome.answer != MATRIX_DONE)
        return 0;
    switch (outcome.detail) {
    case MATRIX_OPCODE_PATCH:
    case MATRIX_OPCODE_EDIT_BUFFER:
        return MATRIX_PATCH_BYTES;
    case MATRIX_OPCODE_SPLIT:
        return MATRIX_SPLIT_BYTES;
    case MATRIX_OPCODE_MASTER:
        return MATRIX_MASTER_BYTES;
    default:
        return 0;
    }
}

/* A stream fed in pieces, the first with so many bytes, comes to what it comes to in memory. */
static void feed_pieces(const uint8_t *s, size_t s_len, size_t first, size_t piece)
{
    uint8_t buffer[MATRIX_MASTER_BYTES];
    matrix_cable cable = matrix_cable_fresh();
    matrix_reading r;
    matrix_fed fed;
    size_t at = 0, place = 0, arrived = first;

    for (;;) {
        fed = matrix_cable_feed(&cable, s + at, arrived - at);
        at += fed.taken;
        HOLDS(at <= arrived && cable.taken == at && !cable.over);
        if (fed.ended) {
            r = matrix_read(s, s_len, place, buffer, sizeof buffer);
            place = r.report.end;
            HOLDS(same_reading(fed.reading, r) && place == at && !cable.inside);
            HOLDS(fed.reading.report.outcome.answer != MATRIX_NO_ROOM);
            HOLDS(packs(&cable, buffer, packed_with(r.report.outcome)));
            continue;
        }
        HOLDS(took_all(fed, fed.taken) && at == arrived && packs_none(&cable));
        HOLDS(cable.count <= MATRIX_MASTER_MESSAGE);
        if (arrived == s_len)
            break;
        arrived = s_len - arrived < piece ? s_len : arrived + piece;
    }
    r = matrix_read(s, s_len, place, buffer, sizeof buffer);
    fed = matrix_cable_end(&cable);
    HOLDS(fed.ended == (r.report.outcome.answer == MATRIX_CUT) && fed.taken == 0);
    HOLDS(same_reading(fed.reading, r) && cable.over && packs_none(&cable));
}

/* Every cut in two, and pieces of every length up to the longest message. */
static void feed_every_way(const uint8_t *s, size_t s_len)
{
    for (size_t first = 0; first <= s_len; first++)
        feed_pieces(s, s_len, first, s_len);
    for (size_t piece = 1; piece <= s_len && piece <= MATRIX_MASTER_MESSAGE; piece++)
        feed_pieces(s, s_len, piece, piece);
}

static void test_cable(void)
{
    static const uint8_t twice[] = {0xF0, 0x10, 0xF0, 0x10, 0x06, 0x06, 0x15, 0x7F, 0xF7};
    matrix_cable cable = matrix_cable_fresh(), fresh;
    matrix_fed fed;

    HOLDS(sizeof(matrix_cable) == 392 && alignof(matrix_cable) == 8 && sizeof(matrix_fed) == 64);
    memset(&fresh, 0, sizeof fresh);
    HOLDS(same_cable(&cable, &fresh) && packs_none(&cable));

    /* All of it, as often as something is left. */
    HOLDS(told(matrix_cable_feed(&cable, listed, 11), 3, 1, 3, MATRIX_OTHER_MAKER, 0));
    fed = matrix_cable_feed(&cable, listed + 3, 8);
    HOLDS(told(fed, 7, 3, 10, MATRIX_DONE, MATRIX_OPCODE_EDIT));
    HOLDS(fed.reading.bytes[0] == 0x15 && fed.reading.bytes[1] == 0x7F);
    HOLDS(all_are(fed.reading.bytes, 2, 4, 0) && packs_none(&cable));
    HOLDS(took_all(matrix_cable_feed(&cable, listed + 10, 1), 1));
    HOLDS(cable.inside && cable.start == 10 && cable.count == 0 && cable.taken == 11);
    HOLDS(told(matrix_cable_end(&cable), 0, 10, 11, MATRIX_CUT, 0));

    /* Byte by byte. */
    cable = matrix_cable_fresh();
    for (size_t i = 0; i < sizeof listed; i++) {
        fed = matrix_cable_feed(&cable, listed + i, 1);
        HOLDS(i == 2   ? told(fed, 1, 1, 3, MATRIX_OTHER_MAKER, 0)
              : i == 9 ? told(fed, 1, 3, 10, MATRIX_DONE, MATRIX_OPCODE_EDIT)
                       : took_all(fed, 1));
    }
    HOLDS(told(matrix_cable_end(&cable), 0, 10, 11, MATRIX_CUT, 0));

    /* The F0H that interrupts is fed again: in the same feed, and as the first byte of the next. */
    cable = matrix_cable_fresh();
    HOLDS(told(matrix_cable_feed(&cable, twice, sizeof twice), 2, 0, 2, MATRIX_INTERRUPTED, 0));
    HOLDS(told(matrix_cable_feed(&cable, twice + 2, 7), 7, 2, 9, MATRIX_DONE, MATRIX_OPCODE_EDIT));
    HOLDS(took_all(matrix_cable_feed(&cable, twice, 2), 2) && cable.inside);
    HOLDS(told(matrix_cable_feed(&cable, twice + 2, 1), 0, 9, 11, MATRIX_INTERRUPTED, 0));
    HOLDS(took_all(matrix_cable_feed(&cable, twice + 2, 1), 1) && cable.start == 11);
    HOLDS(told(matrix_cable_feed(&cable, twice + 3, 6), 6, 11, 18, MATRIX_DONE, MATRIX_OPCODE_EDIT));
    feed_every_way(listed, sizeof listed);
    feed_every_way(twice, sizeof twice);
}

/* Real time inside a message that comes in pieces, and around it. */
static void test_cable_noise(void)
{
    static const uint8_t heard[] = {0xFE, 0xF0, 0x10, 0xF8, 0x06, 0x06, 0xFE,
                                    0x15, 0x7F, 0xFF, 0xF7, 0xFE, 0xF0, 0xFE};
    matrix_cable cable = matrix_cable_fresh();

    for (size_t i = 0; i < 10; i++)
        HOLDS(took_all(matrix_cable_feed(&cable, heard + i, 1), 1));
    HOLDS(cable.inside && cable.start == 1 && cable.noise == 3 && cable.count == 5);
    HOLDS(memcmp(cable.bytes, "\x10\x06\x06\x15\x7F", 5) == 0);
    matrix_fed fed = matrix_cable_feed(&cable, heard + 10, 1);
    HOLDS(fed.ended && noisy(fed.reading.report, 1, 11, 3));
    HOLDS(done(fed.reading.report.outcome, MATRIX_OPCODE_EDIT) && cable.noise == 0);
    HOLDS(took_all(matrix_cable_feed(&cable, heard + 11, 3), 3) && cable.noise == 1);
    fed = matrix_cable_end(&cable);
    HOLDS(fed.ended && noisy(fed.reading.report, 12, 14, 1));
    HOLDS(gave(fed.reading.report.outcome, MATRIX_CUT, 0));
    feed_every_way(heard, sizeof heard);
}

/* A message that is too long is followed to its end. */
static void test_cable_length(void)
{
    static uint8_t sent[MATRIX_MASTER_MESSAGE + 1000];
    const size_t longest = MATRIX_MASTER_MESSAGE, whole = sizeof sent - 1;
    matrix_cable cable = matrix_cable_fresh();

    memcpy(sent, "\xF0\x10\x06\x03\x03", 5);
    for (size_t length = longest - 2; length <= longest + 3; length++) {
        sent[length - 1] = 0xF7;
        feed_pieces(sent, length, length, length);
        for (size_t piece = 1; piece < 9; piece++)
            feed_pieces(sent, length, piece, piece);
        sent[length - 1] = 0;
    }

    sent[whole] = 0xF7;
    HOLDS(took_all(matrix_cable_feed(&cable, sent, 1000), 1000) && cable.count == longest);
    HOLDS(took_all(matrix_cable_feed(&cable, sent + 1000, whole - 1000), whole - 1000));
    HOLDS(cable.count == longest && memcmp(cable.bytes, sent + 1, longest) == 0);
    HOLDS(told(matrix_cable_feed(&cable, sent + whole, 1), 1,
               0, sizeof sent, MATRIX_WRONG_LENGTH, 0));
    HOLDS(packs_none(&cable));
    feed_every_way(sent, sizeof sent);
}

/* Puts bytes behind others; gives the place behind them. */
static size_t put(uint8_t *s, size_t at, const void *bytes, size_t length)
{
    memcpy(s + at, bytes, length);
    return at + length;
}

/* A dump of each kind, good and damaged, noisy, too long and cut off, with other things around. */
static void test_cable_stream(void)
{
    static uint8_t s[4096];
    uint8_t p[MATRIX_PATCH_BYTES], dump[MATRIX_PATCH_MESSAGE];
    uint8_t master[MATRIX_MASTER_BYTES], message[MATRIX_MASTER_MESSAGE];
    uint8_t split[MATRIX_SPLIT_BYTES], split_dump[MATRIX_SPLIT_MESSAGE];
    size_t at = 0;

    make_p(p);
    make_split(split);
    for (size_t i = 0; i < sizeof master; i++)
        master[i] = (uint8_t)i;
    HOLDS(done(matrix_write_patch(42, p, sizeof p, dump, sizeof dump), sizeof dump));
    HOLDS(done(matrix_write_master(master, sizeof master, message, sizeof message), sizeof message));

    at = put(s, at, "\x41\x90\xFE\xF7", 4);
    at = put(s, at, dump, 100);
    at = put(s, at, "\xFE\xF8", 2);
    at = put(s, at, dump + 100, sizeof dump - 100);
    at = put(s, at, message, sizeof message);
    at = put(s, at, planned, sizeof planned);
    at = put(s, at, "\xF0\xF0\xF7\xFE\xF0\x10\x02\xF7\xF0\x10\x06\x00\xF7", 13);
    at = put(s, at, "\xF0\x10\x06\x04\x01\x63\xF7\xF0\x10\x06\x04\x01\x64\xF7", 14);
    at = put(s, at, "\xF0\x10\x06\x07\x06\x05\xF7\xF0\x10\x06\x07\x06\x06\xF7", 14);
    at = put(s, at, "\xF0\x10\x06\x0A\xFE\x09\xF7\xF0\x10\x06\x0C\xF7\xF0\x10\x06\x0C\x00\xF7", 18);
    at = put(s, at, "\xF0\x10\x06\x0E\x63\x09\x7F\xF7\xF0\x10\x06\x0E\x00\x00\x06\xF7", 16);
    make_split_dump(split_dump, 49, split);
    at = put(s, at, split_dump, 40);
    at = put(s, at, "\xF7\xF8", 2);
    at = put(s, at, split_dump, sizeof split_dump);
    make_split_dump(split_dump, 50, split);
    at = put(s, at, split_dump, sizeof split_dump);
    split[MATRIX_SPLIT_BALANCE] = 0xDF;
    make_split_dump(split_dump, 0, split);
    at = put(s, at, split_dump, sizeof split_dump);
    at = put(s, at, dump, 200);
    at = put(s, at, "\x90\x40\x40", 3);
    at = put(s, at, message, sizeof message - 1);
    at = put(s, at, "\x01\x02\x03\xFF\xF7", 5);
    dump[100] = 0x10;
    at = put(s, at, dump, sizeof dump);
    make_dump(dump, 105, 0xBF);
    at = put(s, at, dump, sizeof dump);
    make_dump(dump, 104, 1);
    at = put(s, at, dump, sizeof dump);
    HOLDS(done(matrix_write_edit_buffer(p, sizeof p, dump, sizeof dump), sizeof dump));
    at = put(s, at, dump, sizeof dump);
    at = put(s, at, message, 300);
    HOLDS(at <= sizeof s);
    feed_every_way(s, at);
    feed_pieces(s, at - 300, at - 300, 1);
}

/* Packed bytes stand until the next call that is done. */
static void test_cable_packed(void)
{
    uint8_t p[MATRIX_PATCH_BYTES], dump[MATRIX_PATCH_MESSAGE];
    uint8_t master[MATRIX_MASTER_BYTES], message[MATRIX_MASTER_MESSAGE];
    uint8_t split[MATRIX_SPLIT_BYTES], split_dump[MATRIX_SPLIT_MESSAGE];
    matrix_cable cable = matrix_cable_fresh();

    make_p(p);
    HOLDS(done(matrix_write_patch(99, p, sizeof p, dump, sizeof dump), sizeof dump));
    memset(master, 0xFF, sizeof master);
    HOLDS(done(matrix_write_master(master, sizeof master, message, sizeof message), sizeof message));

    HOLDS(took_all(matrix_cable_feed(&cable, dump, 274), 274) && packs_none(&cable));
    HOLDS(cable.inside && cable.count == 273 && memcmp(cable.bytes, dump + 1, 273) == 0);
    HOLDS(took_all(matrix_cable_feed(&cable, NULL, 0), 0) && cable.inside && cable.count == 273);
    matrix_fed fed = matrix_cable_feed(&cable, dump + 274, 1);
    HOLDS(told(fed, 1, 0, 275, MATRIX_DONE, MATRIX_OPCODE_PATCH));
    HOLDS(fed.reading.bytes[0] == 99 && all_are(fed.reading.bytes, 1, 4, 0));
    HOLDS(packs(&cable, p, sizeof p) && matrix_cable_packed(&cable).bytes == cable.bytes);
    HOLDS(all_are(cable.bytes, sizeof p, sizeof cable.bytes, 0));
    matrix_cable copy = cable;
    HOLDS(took_all(matrix_cable_feed(&cable, NULL, 0), 0) && packs_none(&cable));
    HOLDS(cable.taken == 275 && packs(&copy, p, sizeof p));

    /* The next message, complete or open, a refused one, and the end. */
    HOLDS(told(matrix_cable_feed(&copy, message, sizeof message), sizeof message,
               275, 626, MATRIX_DONE, MATRIX_OPCODE_MASTER));
    HOLDS(packs(&copy, master, sizeof master));
    cable = copy;
    make_split(split);
    make_split_dump(split_dump, 49, split);
    fed = matrix_cable_feed(&cable, split_dump, sizeof split_dump);
    HOLDS(told(fed, 43, 626, 669, MATRIX_DONE, MATRIX_OPCODE_SPLIT));
    HOLDS(fed.reading.bytes[0] == 49 && all_are(fed.reading.bytes, 1, 4, 0));
    HOLDS(packs(&cable, split, sizeof split));
    HOLDS(all_are(cable.bytes, sizeof split, sizeof cable.bytes, 0));
    cable = copy;
    HOLDS(took_all(matrix_cable_feed(&cable, dump, 1), 1) && packs_none(&cable) && cable.inside);
    cable = copy;
    HOLDS(took_all(matrix_cable_feed(&cable, dump + 1, 1), 1) && packs_none(&cable));
    cable = copy;
    message[349] ^= 1;
    HOLDS(told(matrix_cable_feed(&cable, message, sizeof message), sizeof message,
               626, 977, MATRIX_WRONG_SUM, 0));
    HOLDS(packs_none(&cable));
    HOLDS(untold(matrix_cable_end(&copy), 0, MATRIX_NO_MESSAGE, 626) && packs_none(&copy));
}

/* After the end nothing changes any more. */
static void test_cable_end(void)
{
    matrix_cable cable = matrix_cable_fresh(), over;

    HOLDS(untold(matrix_cable_end(&cable), 0, MATRIX_NO_MESSAGE, 0) && cable.over);
    cable = matrix_cable_fresh();
    HOLDS(told(matrix_cable_feed(&cable, listed, 3), 3, 1, 3, MATRIX_OTHER_MAKER, 0));
    over = cable;
    HOLDS(untold(matrix_cable_end(&over), 0, MATRIX_NO_MESSAGE, 3) && over.over);
    HOLDS(took_all(matrix_cable_feed(&cable, listed + 3, 6), 6) && cable.inside);
    HOLDS(told(matrix_cable_end(&cable), 0, 3, 9, MATRIX_CUT, 0));
    HOLDS(cable.over && !cable.inside && cable.taken == 9 && packs_none(&cable));
    over = cable;
    for (size_t length = 0; length <= sizeof listed; length++)
        HOLDS(untold(matrix_cable_feed(&cable, listed, length), 0, MATRIX_NO_MESSAGE, 9));
    HOLDS(untold(matrix_cable_end(&cable), 0, MATRIX_NO_MESSAGE, 9));
    HOLDS(same_cable(&cable, &over));
}

/* At the most bytes that are taken. */
static void test_cable_most(void)
{
    const size_t most = MATRIX_CABLE_MOST;
    uint8_t p[MATRIX_PATCH_BYTES], dump[MATRIX_PATCH_MESSAGE + 2] = {0};
    matrix_cable cable = matrix_cable_fresh(), kept;

    make_p(p);
    HOLDS(done(matrix_write_patch(0, p, sizeof p, dump, sizeof dump), 275));
    cable.taken = most - 276;
    kept = cable;
    HOLDS(untold(matrix_cable_feed(&cable, dump, 277), 0, MATRIX_TOO_MANY, 0));
    HOLDS(same_cable(&cable, &kept));
    HOLDS(told(matrix_cable_feed(&cable, dump, 276), 275,
               most - 276, most - 1, MATRIX_DONE, MATRIX_OPCODE_PATCH));

    /* Refused, it keeps the packed bytes too; a message open at the limit, it still ends. */
    kept = cable;
    HOLDS(untold(matrix_cable_feed(&cable, dump, 2), 0, MATRIX_TOO_MANY, 0));
    HOLDS(same_cable(&cable, &kept) && packs(&cable, p, sizeof p));
    HOLDS(took_all(matrix_cable_feed(&cable, dump, 1), 1) && cable.taken == most);
    kept = cable;
    HOLDS(untold(matrix_cable_feed(&cable, dump + 1, 1), 0, MATRIX_TOO_MANY, 0));
    HOLDS(untold(matrix_cable_feed(&cable, dump + 1, 200), 0, MATRIX_TOO_MANY, 0));
    HOLDS(took_all(matrix_cable_feed(&cable, NULL, 0), 0) && same_cable(&cable, &kept));
    HOLDS(told(matrix_cable_end(&cable), 0, most - 1, most, MATRIX_CUT, 0));
    HOLDS(untold(matrix_cable_feed(&cable, dump, 1), 0, MATRIX_NO_MESSAGE, most));
}

/* The operations by their opcodes: how many bytes stand behind it, and some that are allowed. */
typedef struct operation {
    uint8_t opcode;
    size_t count;
    uint8_t behind[3];
} operation;

static const operation operations[] = {{MATRIX_OPCODE_REQUEST_DATA, 2, {MATRIX_REQUEST_PATCH, 99, 0}},
                                       {MATRIX_OPCODE_GROUP_MODE, 2, {6, 5, 0}},
                                       {MATRIX_OPCODE_SET_BANK, 1, {9, 0, 0}},
                                       {MATRIX_OPCODE_UNLOCK_BANK, 0, {0, 0, 0}},
                                       {MATRIX_OPCODE_STORE_EDIT_BUFFER, 3, {99, 9, 5}}};
#define OPERATIONS (sizeof operations / sizeof operations[0])

/* Whether documents 000 and 02 allow these bytes behind an opcode. */
static int allowed(uint8_t opcode, const uint8_t b[3])
{
    switch (opcode) {
    case 0x04:
        return b[0] == 1 ? b[1] <= 99 : (b[0] == 0 || b[0] == 3 || b[0] == 4) && b[1] == 0;
    case 0x07:
        return b[0] >= 2 && b[0] <= 6 && b[1] <= 5;
    case 0x0A:
        return b[0] <= 9;
    case 0x0E:
        return b[0] <= 99 && b[1] <= 9 && (b[2] <= 5 || b[2] == 0x7F);
    default:
        return 1;
    }
}

static matrix_outcome write_operation(uint8_t opcode, const uint8_t b[3], uint8_t *out, size_t out_len)
{
    switch (opcode) {
    case MATRIX_OPCODE_REQUEST_DATA:
        return matrix_write_request_data(b[0], b[1], out, out_len);
    case MATRIX_OPCODE_GROUP_MODE:
        return matrix_write_group_mode(b[0], b[1], out, out_len);
    case MATRIX_OPCODE_SET_BANK:
        return matrix_write_set_bank(b[0], out, out_len);
    case MATRIX_OPCODE_UNLOCK_BANK:
        return matrix_write_unlock_bank(out, out_len);
    default:
        return matrix_write_store_edit_buffer(b[0], b[1], b[2], out, out_len);
    }
}

/* A message with so many bytes behind its opcode, laid out by hand; gives its length. */
static size_t lay_out(uint8_t *message, uint8_t opcode, const uint8_t *behind, size_t count)
{
    memcpy(message, "\xF0\x10\x06", 3);
    message[3] = opcode;
    memcpy(message + 4, behind, count);
    message[4 + count] = 0xF7;
    return 5 + count;
}

/* All that reads a message gives this answer, and with 0 these bytes. */
static void read_operation(const uint8_t *s, size_t s_len, uint8_t answer, const uint8_t bytes[4])
{
    const size_t detail = answer == MATRIX_DONE ? s[3] : 0;
    matrix_cable cable = matrix_cable_fresh();

    HOLDS(says(matrix_walk(s, s_len, 0), 0, s_len, answer, detail));
    matrix_reading r = matrix_read(s, s_len, 0, NULL, 0);
    HOLDS(says(r.report, 0, s_len, answer, detail) && memcmp(r.bytes, bytes, 4) == 0);
    matrix_fed fed = matrix_cable_feed(&cable, s, s_len);
    HOLDS(told(fed, s_len, 0, s_len, answer, detail) && memcmp(fed.reading.bytes, bytes, 4) == 0);
    HOLDS(packs_none(&cable));
}

/* These bytes behind an opcode are written and read back, or refused by both. */
static void try_operation(uint8_t opcode, const uint8_t behind[3], size_t count)
{
    uint8_t message[8], out[9], bytes[4] = {0, 0, 0, 0};
    const size_t length = lay_out(message, opcode, behind, count);
    const int good = allowed(opcode, behind);

    memset(out, FILL_BYTE, sizeof out);
    const uint8_t refused = good ? MATRIX_NO_ROOM : MATRIX_NOT_ALLOWED;
    HOLDS(gave(write_operation(opcode, behind, out, length - 1), refused, 0));
    HOLDS(all_are(out, 0, sizeof out, FILL_BYTE));
    const matrix_outcome written = write_operation(opcode, behind, out, sizeof out);
    HOLDS(good ? done(written, length) : gave(written, MATRIX_NOT_ALLOWED, 0));
    HOLDS(!good || memcmp(out, message, length) == 0);
    HOLDS(all_are(out, good ? length : 0, sizeof out, FILL_BYTE));

    for (size_t i = 0; i < count; i++)
        if (behind[i] > 0x7F)
            return;
    if (good)
        memcpy(bytes, behind, count);
    read_operation(message, length, good ? MATRIX_DONE : MATRIX_NOT_ALLOWED, bytes);
}

/* Every value of every byte, with those at the edges of all ranges in the other bytes. */
static void test_operations(void)
{
    static const uint8_t edges[] = {0, 1, 2, 3, 4, 5, 6, 7, 9, 10, 99, 100, 126, 127, 128, 255};
    const size_t n = sizeof edges;

    for (size_t kind = 0; kind < OPERATIONS; kind++) {
        const size_t count = operations[kind].count;
        const size_t others = count == 3 ? n * n : count == 2 ? n : 1;
        try_operation(operations[kind].opcode, operations[kind].behind, count);
        for (size_t at = 0; at < count; at++)
            for (size_t value = 0; value < 256; value++)
                for (size_t i = 0; i < others; i++) {
                    uint8_t behind[3] = {0, 0, 0};
                    behind[(at + 2) % count] = edges[i / n];
                    behind[(at + 1) % count] = edges[i % n];
                    behind[at] = (uint8_t)value;
                    try_operation(operations[kind].opcode, behind, count);
                }
    }
}

/* Every other length, real time inside, and every opcode. */
static void test_operation_messages(void)
{
    static const uint8_t none[4] = {0, 0, 0, 0};
    static const uint8_t known[] = {0x01, 0x02, 0x03, 0x04, 0x06, 0x07, 0x0A, 0x0B, 0x0C, 0x0D, 0x0E};
    uint8_t behind[8], message[13], sent[16];

    for (size_t kind = 0; kind < OPERATIONS; kind++) {
        const operation *o = &operations[kind];
        memset(behind, 0, sizeof behind);
        memcpy(behind, o->behind, 3);
        for (size_t count = 0; count <= sizeof behind; count++) {
            const size_t length = lay_out(message, o->opcode, behind, count);
            if (count != o->count)
                read_operation(message, length, MATRIX_WRONG_LENGTH, none);
        }
        const size_t length = lay_out(message, o->opcode, o->behind, o->count);
        for (size_t i = 0; i < length; i++) {
            sent[2 * i] = message[i];
            sent[2 * i + 1] = 0xFE;
        }
        matrix_reading r = matrix_read(sent, 2 * length, 0, NULL, 0);
        HOLDS(noisy(r.report, 0, 2 * length - 1, length - 1));
        HOLDS(done(r.report.outcome, o->opcode) && memcmp(r.bytes, o->behind, 3) == 0);
        HOLDS(r.bytes[3] == 0);
    }
    for (size_t opcode = 0; opcode < 128; opcode++) {
        lay_out(message, (uint8_t)opcode, none, 0);
        const matrix_report report = matrix_walk(message, 5, 0);
        if (memchr(known, (int)opcode, sizeof known) == NULL)
            HOLDS(says(report, 0, 5, MATRIX_OTHER_OPCODE, 0));
        else
            HOLDS(report.outcome.answer == (opcode == 0x0C ? MATRIX_DONE : MATRIX_WRONG_LENGTH));
    }
}

static matrix_unit make_unit(uint8_t bank, bool locked, bool grouped, uint8_t number)
{
    matrix_unit unit;
    unit.bank = bank;
    unit.locked = locked;
    unit.grouped = grouped;
    unit.number = number;
    return unit;
}

/* Units in every state of lock and group, with banks and numbers inside and outside their ranges. */
#define UNITS (4 * 4 * 8)

static matrix_unit some_unit(size_t index)
{
    static const uint8_t banks[] = {0, 3, 9, 255}, numbers[] = {0, 1, 2, 4, 5, 6, 127, 255};
    return make_unit(banks[index / 4 % 4], index & 1, index & 2, numbers[index / 16 % 8]);
}

static int same_unit(matrix_unit a, matrix_unit b)
{
    return a.bank == b.bank && a.locked == b.locked && a.grouped == b.grouped && a.number == b.number;
}

/* A step that sends nothing on. */
static int stepped(matrix_step step, matrix_unit unit, bool meant)
{
    return same_unit(step.unit, unit) && step.meant == meant && step.count == 0
           && all_are(step.sent, 0, 7, 0);
}

/* A unit of which nothing is changed. */
static int stays(matrix_step step, matrix_unit unit)
{
    return stepped(step, unit, false);
}

/* One that sends group mode on. */
static int sent_on(matrix_step step, matrix_unit unit, uint8_t total, uint8_t id)
{
    const uint8_t message[] = {0xF0, 0x10, 0x06, 0x07, total, id, 0xF7};
    return same_unit(step.unit, unit) && !step.meant && step.count == 7
           && memcmp(step.sent, message, 7) == 0;
}

/* What a message of an operation, allowed or not, comes to in a unit. */
static void try_step(matrix_unit unit, uint8_t opcode, const uint8_t b[3], size_t count)
{
    uint8_t message[8];
    const size_t length = lay_out(message, opcode, b, count);
    const matrix_step step = matrix_unit_step(unit, message, length, 0);
    const int good = allowed(opcode, b);
    matrix_unit after = unit;

    HOLDS(says(step.report, 0, length, good ? MATRIX_DONE : MATRIX_NOT_ALLOWED, good ? opcode : 0));
    if (good && opcode == MATRIX_OPCODE_STORE_EDIT_BUFFER) {
        const bool meant = unit.grouped ? b[2] == unit.number || b[2] == 0x7F : b[2] == 0;
        HOLDS(stepped(step, unit, meant) && matrix_unit_meant(unit, b[2]) == meant);
        return;
    }
    if (good && opcode == MATRIX_OPCODE_SET_BANK) {
        after.bank = b[0];
        after.locked = true;
    }
    if (good && opcode == MATRIX_OPCODE_UNLOCK_BANK)
        after.locked = false;
    if (good && opcode == MATRIX_OPCODE_GROUP_MODE) {
        after.grouped = true;
        after.number = b[1];
        HOLDS(b[1] == 5 ? stays(step, after) : sent_on(step, after, b[0], (uint8_t)(b[1] + 1)));
        return;
    }
    HOLDS(stays(step, after));
}

/* Every data byte at every place of an operation, the others being allowed. */
static void test_units(void)
{
    for (size_t i = 0; i < UNITS; i++) {
        const matrix_unit unit = some_unit(i);
        for (size_t kind = 0; kind < OPERATIONS; kind++) {
            const operation *o = &operations[kind];
            try_step(unit, o->opcode, o->behind, o->count);
            for (size_t at = 0; at < o->count; at++)
                for (size_t value = 0; value < 128; value++) {
                    uint8_t behind[3];
                    memcpy(behind, o->behind, 3);
                    behind[at] = (uint8_t)value;
                    try_step(unit, o->opcode, behind, o->count);
                }
        }
        for (size_t total = 0; total < 8; total++)
            for (size_t id = 0; id < 8; id++) {
                const uint8_t behind[3] = {(uint8_t)total, (uint8_t)id, 0};
                try_step(unit, MATRIX_OPCODE_GROUP_MODE, behind, 2);
            }
        for (size_t id = 0; id < 256; id++)
            HOLDS(matrix_unit_meant(unit, (uint8_t)id)
                  == (unit.grouped ? id == unit.number || id == MATRIX_ANY_UNIT : id == 0));
    }
}

/* Messages of other kinds, refused ones and none: the unit stays as it is. */
static void test_unit_stays(void)
{
    static const uint8_t small[] = {
        0xF0, 0x10, 0x06, 0x06, 0x15, 0x7F, 0xF7,                   /* edits, allowed and not */
        0xF0, 0x10, 0x06, 0x06, 0x00, 0x40, 0xF7,
        0xF0, 0x10, 0x06, 0x0B, 0x09, 0x14, 0x40, 0x20, 0xF7,
        0xF0, 0x10, 0x06, 0x0B, 0x09, 0x14, 0x40, 0x00, 0xF7,
        0xF0, 0x10, 0x06, 0x04, 0x00, 0x00, 0xF7,                   /* a request */
        0xF0, 0x41, 0x06, 0x0A, 0x03, 0xF7,                         /* not a Matrix-1000's */
        0xF0, 0x10, 0x02, 0x0A, 0x03, 0xF7,
        0xF0, 0x10, 0x06, 0x08, 0x03, 0xF7,
        0xF0, 0x10, 0x06, 0x0A, 0xF7, 0xF0, 0x10, 0x06, 0x0C, 0x00, 0xF7, /* of another length */
        0xF0, 0x10, 0x06, 0x07, 0x02, 0xF7, 0xF0, 0x10, 0x06, 0x0E, 0x00, 0x00, 0xF7,
        0xF0, 0x10, 0x06, 0x0A, 0x0A, 0xF7, 0xF0, 0x10, 0x06, 0x07, 0x02, 0x06, 0xF7, /* refused by 8 */
        0xF0, 0x10, 0x06, 0x07, 0x01, 0x00, 0xF7, 0xF0, 0x10, 0x06, 0x0E, 0x64, 0x00, 0x00, 0xF7,
        0xF0, 0x10, 0x06, 0x0A, 0x03, 0x90, 0xF7, 0xF0, 0x10, 0x06, 0x07, 0x02, 0x00, /* not ended */
        0xF0, 0x10, 0x06, 0x0C};
    static uint8_t s[2048];
    uint8_t p[MATRIX_PATCH_BYTES], dump[MATRIX_PATCH_MESSAGE], split[MATRIX_SPLIT_BYTES];
    uint8_t master[MATRIX_MASTER_BYTES] = {0}, message[MATRIX_MASTER_MESSAGE];
    size_t at = 0;

    make_p(p);
    make_split(split);
    HOLDS(done(matrix_write_patch(99, p, sizeof p, dump, sizeof dump), sizeof dump));
    at = put(s, at, dump, sizeof dump);
    dump[273] ^= 1;
    at = put(s, at, dump, sizeof dump);
    make_dump(dump, 105, 0xBF);
    at = put(s, at, dump, sizeof dump);
    HOLDS(done(matrix_write_edit_buffer(p, sizeof p, dump, sizeof dump), sizeof dump));
    at = put(s, at, dump, sizeof dump);
    HOLDS(done(matrix_write_split(49, split, sizeof split, message, sizeof message), 43));
    at = put(s, at, message, 43);
    HOLDS(done(matrix_write_master(master, sizeof master, message, sizeof message), sizeof message));
    at = put(s, at, message, sizeof message);
    at = put(s, at, small, sizeof small);
    for (size_t i = 0; i < UNITS; i++) {
        const matrix_unit unit = some_unit(i);
        size_t place = 0, count = 0;
        for (;;) {
            const matrix_step step = matrix_unit_step(unit, s, at, place);
            HOLDS(same_report(step.report, matrix_walk(s, at, place)) && stays(step, unit));
            if (step.report.outcome.answer == MATRIX_NO_MESSAGE)
                break;
            place = step.report.end;
            count++;
        }
        HOLDS(count == 25 && place == at && stays(matrix_unit_step(unit, s, at, SIZE_MAX), unit));
    }
}

/* Several messages, step by step, with other things around them. */
static void test_unit_stream(void)
{
    static const uint8_t s[] = {0x41, 0xF0, 0x10, 0x06, 0xFE, 0x0A, 0x03, 0xF7, /* bank 3 */
                                0xF0, 0x10, 0x06, 0x0E, 0x07, 0x03, 0x00, 0xF7, /* a store to 0 */
                                0xF0, 0x10, 0x06, 0x0A, 0x0A, 0xF7,             /* bank 10 */
                                0xF0, 0x10, 0x06, 0x0C, 0xF7, 0x90, 0x40, 0x40, /* unlock */
                                0xF0, 0x10, 0x06, 0x07, 0x03, 0x01, 0xF7,       /* unit 1 of 3 */
                                0xF0, 0x10, 0x06, 0x0E, 0x07, 0x03, 0x00, 0xF7, /* a store to 0 */
                                0xF0, 0x10, 0x06, 0x0E, 0x07, 0x03, 0x01, 0xF7, /* one to 1 */
                                0xF0, 0x10, 0x06, 0x0E, 0x07, 0x03, 0x7F, 0xF7, /* one to any */
                                0xF0, 0x10, 0x06, 0x07, 0x02, 0x05, 0xF7};      /* unit 5 of 2 */
    const size_t store = MATRIX_OPCODE_STORE_EDIT_BUFFER, group = MATRIX_OPCODE_GROUP_MODE;

    matrix_step step = matrix_unit_step(make_unit(0, false, false, 0), s, sizeof s, 0);
    HOLDS(noisy(step.report, 1, 8, 1) && done(step.report.outcome, MATRIX_OPCODE_SET_BANK));
    HOLDS(stays(step, make_unit(3, true, false, 0)));
    step = matrix_unit_step(step.unit, s, sizeof s, step.report.end);
    HOLDS(says(step.report, 8, 16, MATRIX_DONE, store));
    HOLDS(stepped(step, make_unit(3, true, false, 0), true));
    step = matrix_unit_step(step.unit, s, sizeof s, step.report.end);
    HOLDS(says(step.report, 16, 22, MATRIX_NOT_ALLOWED, 0));
    HOLDS(stays(step, make_unit(3, true, false, 0)));
    step = matrix_unit_step(step.unit, s, sizeof s, step.report.end);
    HOLDS(says(step.report, 22, 27, MATRIX_DONE, MATRIX_OPCODE_UNLOCK_BANK));
    HOLDS(stays(step, make_unit(3, false, false, 0)));
    step = matrix_unit_step(step.unit, s, sizeof s, step.report.end);
    HOLDS(says(step.report, 30, 37, MATRIX_DONE, group));
    HOLDS(sent_on(step, make_unit(3, false, true, 1), 3, 2));
    for (size_t i = 0; i < 3; i++) {
        step = matrix_unit_step(step.unit, s, sizeof s, step.report.end);
        HOLDS(says(step.report, 37 + 8 * i, 45 + 8 * i, MATRIX_DONE, store));
        HOLDS(stepped(step, make_unit(3, false, true, 1), i > 0));
    }
    step = matrix_unit_step(step.unit, s, sizeof s, step.report.end);
    HOLDS(says(step.report, 61, 68, MATRIX_DONE, group));
    HOLDS(stays(step, make_unit(3, false, true, 5)));
    step = matrix_unit_step(step.unit, s, sizeof s, step.report.end);
    HOLDS(says(step.report, 68, 68, MATRIX_NO_MESSAGE, 0));
    HOLDS(stays(step, make_unit(3, false, true, 5)));
}

/* One message numbers a chain of units, in whatever state they are; then each has its stores. */
static void try_chain(uint8_t total, matrix_unit units[MATRIX_GROUP_MOST])
{
    static const uint8_t ids[] = {0, 1, 2, 3, 4, 5, MATRIX_ANY_UNIT};
    uint8_t message[MATRIX_STORE_EDIT_BUFFER_MESSAGE];
    size_t length = MATRIX_GROUP_MODE_MESSAGE;
    matrix_step step;

    HOLDS(done(matrix_write_group_mode(total, 0, message, length), length));
    for (uint8_t k = 0; k < total; k++) {
        const matrix_unit after = make_unit(units[k].bank, units[k].locked, true, k);
        step = matrix_unit_step(units[k], message, length, 0);
        HOLDS(says(step.report, 0, 7, MATRIX_DONE, MATRIX_OPCODE_GROUP_MODE));
        HOLDS(k == 5 ? stays(step, after) : sent_on(step, after, total, (uint8_t)(k + 1)));
        units[k] = step.unit;
        length = step.count;
        memcpy(message, step.sent, sizeof step.sent);
    }
    /* What the last sends on is still a message: there is no unit for it. */
    HOLDS(total == MATRIX_GROUP_MOST
              ? length == 0
              : says(matrix_walk(message, length, 0), 0, 7, MATRIX_DONE, MATRIX_OPCODE_GROUP_MODE));

    for (size_t i = 0; i < sizeof ids; i++) {
        HOLDS(done(matrix_write_store_edit_buffer(0, 0, ids[i], message, sizeof message), 8));
        for (uint8_t k = 0; k < total; k++) {
            step = matrix_unit_step(units[k], message, sizeof message, 0);
            HOLDS(stepped(step, units[k], ids[i] == k || ids[i] == MATRIX_ANY_UNIT));
        }
    }
}

static void test_chains(void)
{
    matrix_unit units[MATRIX_GROUP_MOST];

    for (uint8_t total = 2; total <= MATRIX_GROUP_MOST; total++)
        for (size_t first = 0; first < UNITS; first++)
            for (size_t apart = 0; apart < 20; apart++) {
                for (size_t k = 0; k < total; k++)
                    units[k] = some_unit((first + apart * k) % UNITS);
                try_chain(total, units);
                try_chain(total, units); /* and anew, as it stands */
            }
}

/* An empty slice at NULL is an empty slice. */
static void test_null(void)
{
    uint8_t p[MATRIX_PATCH_BYTES], split[MATRIX_SPLIT_BYTES], one[1] = {FILL_BYTE};
    const matrix_unit unit = make_unit(9, true, true, 5);
    matrix_cable cable = matrix_cable_fresh();

    make_p(p);
    make_split(split);
    HOLDS(says(matrix_walk(NULL, 0, 0), 0, 0, MATRIX_NO_MESSAGE, 0));
    HOLDS(says(matrix_walk(NULL, 0, 5), 0, 0, MATRIX_NO_MESSAGE, 0));
    HOLDS(says(matrix_read(NULL, 0, 0, NULL, 0).report, 0, 0, MATRIX_NO_MESSAGE, 0));
    HOLDS(says(matrix_read(listed, sizeof listed, 2, NULL, 0).report,
               3, 10, MATRIX_DONE, MATRIX_OPCODE_EDIT));
    HOLDS(matrix_reports(NULL, 0, 0, NULL, 0).count == 0);
    HOLDS(matrix_reports(listed, sizeof listed, 2, NULL, 0).next == 2);
    HOLDS(took_all(matrix_cable_feed(&cable, NULL, 0), 0) && cable.taken == 0);
    HOLDS(gave(matrix_test_patch(NULL, 0), MATRIX_WRONG_LENGTH, 0));
    HOLDS(gave(matrix_test_split(NULL, 0), MATRIX_WRONG_LENGTH, 0));
    HOLDS(gave(matrix_value_of(NULL, 0, 1).outcome, MATRIX_WRONG_LENGTH, 0));
    HOLDS(gave(matrix_value_of(NULL, 0, 39).outcome, MATRIX_NOT_ALLOWED, 0));
    HOLDS(gave(matrix_set_name(NULL, 0, NULL, 0), MATRIX_WRONG_LENGTH, 0));
    HOLDS(gave(matrix_set_name(p, sizeof p, NULL, 0), MATRIX_WRONG_LENGTH, 0));
    HOLDS(gave(matrix_show_name(NULL, 0, one, 1), MATRIX_WRONG_LENGTH, 0));
    HOLDS(gave(matrix_show_name(p, sizeof p, NULL, 0), MATRIX_NO_ROOM, 0));
    HOLDS(gave(matrix_apply_edit(NULL, 0, 0x15, 0), MATRIX_WRONG_LENGTH, 0));
    HOLDS(gave(matrix_apply_bus_edit(NULL, 0, 0, 0, 0, 0), MATRIX_WRONG_LENGTH, 0));
    HOLDS(gave(matrix_write_patch(0, NULL, 0, one, 1), MATRIX_WRONG_LENGTH, 0));
    HOLDS(gave(matrix_write_patch(0, p, sizeof p, NULL, 0), MATRIX_NO_ROOM, 0));
    HOLDS(gave(matrix_write_split(0, NULL, 0, one, 1), MATRIX_WRONG_LENGTH, 0));
    HOLDS(gave(matrix_write_split(0, split, sizeof split, NULL, 0), MATRIX_NO_ROOM, 0));
    HOLDS(gave(matrix_write_edit_buffer(NULL, 0, NULL, 0), MATRIX_WRONG_LENGTH, 0));
    HOLDS(gave(matrix_write_edit_buffer(p, sizeof p, NULL, 0), MATRIX_NO_ROOM, 0));
    HOLDS(gave(matrix_write_master(NULL, 0, NULL, 0), MATRIX_WRONG_LENGTH, 0));
    HOLDS(gave(matrix_write_edit(0x15, 0, NULL, 0), MATRIX_NO_ROOM, 0));
    HOLDS(gave(matrix_write_bus_edit(0, 0, 0, 0, NULL, 0), MATRIX_NO_ROOM, 0));
    HOLDS(gave(matrix_write_request_data(0, 0, NULL, 0), MATRIX_NO_ROOM, 0));
    HOLDS(gave(matrix_write_group_mode(2, 0, NULL, 0), MATRIX_NO_ROOM, 0));
    HOLDS(gave(matrix_write_set_bank(0, NULL, 0), MATRIX_NO_ROOM, 0));
    HOLDS(gave(matrix_write_unlock_bank(NULL, 0), MATRIX_NO_ROOM, 0));
    HOLDS(gave(matrix_write_store_edit_buffer(0, 0, 0, NULL, 0), MATRIX_NO_ROOM, 0));
    HOLDS(stays(matrix_unit_step(unit, NULL, 0, 0), unit));
    HOLDS(says(matrix_unit_step(unit, NULL, 0, 5).report, 0, 0, MATRIX_NO_MESSAGE, 0));
    HOLDS(bank_gave(matrix_write_bank(NULL, 0, NULL, 0), MATRIX_DONE, 0, 0));
    HOLDS(bank_gave(matrix_write_bank(NULL, 0, one, 1), MATRIX_DONE, 0, 0));
    HOLDS(gave(matrix_plan(NULL, 0, NULL, 0, NULL, 0), MATRIX_WRONG_LENGTH, 0));
    HOLDS(gave(matrix_plan(p, sizeof p, NULL, 0, one, 1), MATRIX_WRONG_LENGTH, 0));
    HOLDS(done(matrix_plan(p, sizeof p, p, sizeof p, NULL, 0), 0));
    HOLDS(gave(matrix_check_plan(NULL, 0, NULL, 0, NULL, 0), MATRIX_WRONG_LENGTH, 0));
    HOLDS(gave(matrix_check_plan(p, sizeof p, NULL, 0, one, 1), MATRIX_WRONG_LENGTH, 0));
    HOLDS(done(matrix_check_plan(p, sizeof p, p, sizeof p, NULL, 0), 0));
    HOLDS(one[0] == FILL_BYTE && done(matrix_test_patch(p, sizeof p), 0) && all_are(p, 0, 76, 0));

    /* Through a pointer to a function too. */
    matrix_report (*walk)(const uint8_t *, size_t, size_t) = matrix_walk;
    HOLDS(says(walk(NULL, 0, 0), 0, 0, MATRIX_NO_MESSAGE, 0));
}

int main(void)
{
    test_walking();
    test_reports();
    test_reading();
    test_patches();
    test_names();
    test_edits();
    test_found();
    test_noise();
    test_values();
    test_writing();
    test_splits();
    test_refused_splits();
    test_found_in_splits();
    test_damaged_splits();
    test_banks();
    test_plans();
    test_longest_plan();
    test_refused_plans();
    test_checked_plans();
    test_cable();
    test_cable_noise();
    test_cable_length();
    test_cable_stream();
    test_cable_packed();
    test_cable_end();
    test_cable_most();
    test_operations();
    test_operation_messages();
    test_units();
    test_unit_stays();
    test_unit_stream();
    test_chains();
    test_null();
    printf("c: %u checks hold\n", checks);
    return EXIT_SUCCESS;
}
