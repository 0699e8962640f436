/* Oberheim Matrix-1000 and Matrix-6R system exclusive dumps: reading, from memory or as they come in,
 * testing, editing and writing, and the edits that turn one patch into another; the operations that
 * configure units, and a model of a unit that is sent them.
 *
 * The face for C and C++ of a library that is proved. The library is libexports.a, which `rt lib`
 * makes in crates/exports of the repository that this header comes from; `make -C c install` puts
 * both where a compiler finds them, the library as libmatrix1000.a.
 *
 * What holds of every function:
 *
 * - A slice is a pointer to its first element and its length in elements. The pointer of an empty
 *   slice may be NULL. No slice that a call may write overlaps another slice of the same call.
 * - Where several refusals apply, the first in the order that the comment names is given. An outcome's
 *   detail is 0 where the comment names none; its value is 0 with every answer but 11.
 * - Refused: every byte lent keeps its value. Done: bytes behind the output keep theirs.
 * - No function allocates, keeps a pointer, or has any state but the matrix_cable that it is lent; each
 *   may be called from any thread.
 */
#ifndef MATRIX_H
#define MATRIX_H

#include <assert.h>
#include <stdalign.h>
#include <stdbool.h>
#include <stddef.h>
#include <stdint.h>

#ifdef __cplusplus
extern "C" {
#endif

/* The answers: those of the printed card. 14 is withdrawn. */
enum matrix_answer {
    MATRIX_DONE = 0,
    MATRIX_NO_MESSAGE = 1,    /* no F0H at or after the place */
    MATRIX_CUT = 2,           /* the input ends inside the message */
    MATRIX_INTERRUPTED = 3,   /* another status byte stands inside the message */
    MATRIX_OTHER_MAKER = 4,   /* the first byte after F0H is not 10H */
    MATRIX_OTHER_DEVICE = 5,  /* the next is not 06H */
    MATRIX_OTHER_OPCODE = 6,  /* the opcode is not among the eleven */
    MATRIX_WRONG_LENGTH = 7,  /* of a message, or of a lent patch, split, bank, master or name */
    MATRIX_NOT_ALLOWED = 8,   /* patch number, split number, version, zero of 0DH, parameter, bus,
                                 name character; a value or amount byte above 127; type and number
                                 of a request, total and ID of a group, bank, ID of a store */
    MATRIX_WIDE_DATA = 9,     /* a data byte above 15; detail: the first one's index in the data */
    MATRIX_WRONG_SUM = 10,    /* the sum byte differs from the computed sum */
    MATRIX_OUT_OF_RANGE = 11, /* a field out of range; detail: the lowest such byte place; value: what
                                 stands there, or what an edit would store there */
    MATRIX_HALF_USED = 12,    /* a bus half used; detail: the lowest such bus */
    MATRIX_NO_ROOM = 13,      /* the lent output is too short */
    MATRIX_OTHER_NAME = 16,   /* the two patches have different names, and no edit reaches a name */
    MATRIX_NOT_ACCEPTED = 20, /* the list of edits is not accepted */
    MATRIX_TOO_MANY = 21      /* more bytes than MATRIX_CABLE_MOST would have been taken */
};

/* The opcodes: the detail of a message that is read with answer 0. */
enum matrix_opcode {
    MATRIX_OPCODE_PATCH = 0x01,            /* single patch */
    MATRIX_OPCODE_SPLIT = 0x02,            /* split of a Matrix-6R */
    MATRIX_OPCODE_MASTER = 0x03,           /* master parameters */
    MATRIX_OPCODE_REQUEST_DATA = 0x04,     /* request data */
    MATRIX_OPCODE_EDIT = 0x06,             /* remote edit */
    MATRIX_OPCODE_GROUP_MODE = 0x07,       /* group mode */
    MATRIX_OPCODE_SET_BANK = 0x0A,         /* set bank */
    MATRIX_OPCODE_BUS_EDIT = 0x0B,         /* matrix modulation edit */
    MATRIX_OPCODE_UNLOCK_BANK = 0x0C,      /* unlock bank */
    MATRIX_OPCODE_EDIT_BUFFER = 0x0D,      /* patch to edit buffer */
    MATRIX_OPCODE_STORE_EDIT_BUFFER = 0x0E /* store edit buffer */
};

/* The types of a request for data. */
enum matrix_request {
    MATRIX_REQUEST_ALL = 0,        /* all patches of the current bank, and the master parameters */
    MATRIX_REQUEST_PATCH = 1,      /* one patch of the current bank, by its number */
    MATRIX_REQUEST_MASTER = 3,     /* the master parameters */
    MATRIX_REQUEST_EDIT_BUFFER = 4 /* the edit buffer */
};

/* The ID in a store message that is for any unit in group mode. */
#define MATRIX_ANY_UNIT 0x7F

/* The most units in a group, which are numbered from 0. */
#define MATRIX_GROUP_MOST 6

/* Lengths: of what is lent, and of what is written. */
#define MATRIX_PATCH_BYTES 134
#define MATRIX_SPLIT_BYTES 18
#define MATRIX_MASTER_BYTES 172 /* the most that matrix_read puts into its buffer */
#define MATRIX_NAME_BYTES 8
#define MATRIX_BANK_PATCHES 100
#define MATRIX_PATCH_MESSAGE 275 /* of a single patch, and of one to the edit buffer */
#define MATRIX_SPLIT_MESSAGE 43
#define MATRIX_MASTER_MESSAGE 351
#define MATRIX_EDIT_MESSAGE 7
#define MATRIX_BUS_EDIT_MESSAGE 9
#define MATRIX_REQUEST_DATA_MESSAGE 7
#define MATRIX_GROUP_MODE_MESSAGE 7
#define MATRIX_SET_BANK_MESSAGE 6
#define MATRIX_UNLOCK_BANK_MESSAGE 5
#define MATRIX_STORE_EDIT_BUFFER_MESSAGE 8
#define MATRIX_PLAN_MOST 762 /* the most that matrix_plan writes: an edit of every parameter and bus */

/* matrix_reports makes at most this many reports a call, of so many numbers each. */
#define MATRIX_REPORTS 8
#define MATRIX_REPORT_NUMBERS 6

/* The most bytes that a matrix_cable takes from its fresh start on. */
#define MATRIX_CABLE_MOST 4294967295u

/* The bytes of a matrix_cable, and what its address is a multiple of. */
#define MATRIX_CABLE_SIZE 392
#define MATRIX_CABLE_ALIGN 8

/* matrix_place_of and matrix_parameter_of where there is none. */
#define MATRIX_NONE 255

/* What a call came to. With answer 11 the value is that of the field out of range, for an edit the one
 * that it would store; with every other answer it is 0, which it may be with 11 too: ask the answer. It
 * has its sign where the field has one: in a patch byte 19, bytes 86 to 103 and the amounts of the
 * buses, in a split bytes 11, 14 and 16. Any other field shows its byte as it stands: an edit of
 * parameter 0 with 40H would store C0H and shows 192. */
typedef struct matrix_outcome {
    uint8_t answer; /* an enum matrix_answer */
    int16_t value;
    size_t detail;
} matrix_outcome;

/* What is said of a message. */
typedef struct matrix_report {
    size_t start; /* the place of its F0H */
    size_t end;   /* the place behind it, from which the next call goes on */
    matrix_outcome outcome;
    size_t noise; /* how many bytes from start to end are real time, F8H to FFH; 0 with answer 1 */
} matrix_report;

/* The same, with four bytes that come with the message, as received: a patch's or a split's number, a
 * remote edit's parameter and value, a modulation edit's bus, source, amount and destination, a
 * request's type and number, a group's total and ID, a bank, a store's number, bank and ID; zero where
 * the message has none and with every answer but 0. */
typedef struct matrix_reading {
    matrix_report report;
    uint8_t bytes[4];
} matrix_reading;

/* What writing a bank came to; the place is a patch's number. */
typedef struct matrix_bank_outcome {
    matrix_outcome outcome;
    size_t place;
} matrix_bank_outcome;

/* The least and the greatest value of a parameter, with their signs; 0 when refused. */
typedef struct matrix_range {
    matrix_outcome outcome;
    int16_t least;
    int16_t greatest;
} matrix_range;

/* The value of a parameter in a patch, with its sign; 0 when refused. It is not outcome.value, which is
 * that of a field out of range, and 0 when done. */
typedef struct matrix_held {
    matrix_outcome outcome;
    int16_t value;
} matrix_held;

/* How many reports were made, and the place to go on from: the end of the last, or the place that the
 * call was given where none was made. */
typedef struct matrix_listed {
    size_t count;
    size_t next;
} matrix_listed;

/* A reader that is fed what has arrived so far. The caller holds it, and each call updates it. It
 * begins as matrix_cable_fresh gives it; only the calls write it. There is no pointer in it: it may be
 * copied, moved, and given up at any time. */
typedef struct matrix_cable {
    uint8_t bytes[MATRIX_MASTER_MESSAGE]; /* behind the F0H of an open message, without real time; else
                                             what matrix_cable_packed gives */
    bool inside;  /* whether a message is open */
    bool over;    /* whether the end was declared */
    size_t count; /* how many bytes stand there; a longer message is followed without being stored */
    size_t start; /* the place of the open message's F0H, else 0 */
    size_t noise; /* how much real time it has so far, else 0 */
    size_t taken; /* how many bytes were taken so far */
} matrix_cable;

static_assert(sizeof(matrix_cable) == MATRIX_CABLE_SIZE, "the library has a size_t of eight bytes");
static_assert(alignof(matrix_cable) == MATRIX_CABLE_ALIGN, "the library has a size_t of eight bytes");

/* What a call on a matrix_cable tells. Ask `ended` before the answer, which is 0 also where a feed is
 * done and no message ended with it. */
typedef struct matrix_fed {
    matrix_reading reading; /* of the message that ended; places count from the first byte taken */
    size_t taken;           /* how many bytes of the feed were taken; the others are fed again */
    bool ended;             /* whether a message ended */
} matrix_fed;

/* What a unit keeps of the operations that it is sent. A program sets it up as the unit stands. */
typedef struct matrix_unit {
    uint8_t bank;
    bool locked;    /* whether the bank is locked */
    bool grouped;   /* whether group mode is on */
    uint8_t number; /* its number in the group, which counts while group mode is on */
} matrix_unit;

/* What a message comes to in a unit. */
typedef struct matrix_step {
    matrix_report report;
    matrix_unit unit; /* as it is after the message */
    bool meant;       /* whether this is a store message, with answer 0, that is meant for this unit */
    uint8_t count;    /* how many bytes are sent on: 7, or 0 */
    uint8_t sent[MATRIX_GROUP_MODE_MESSAGE]; /* the message that is sent on, else zeros */
} matrix_step;

static_assert(sizeof(matrix_unit) == 4, "the library has a bool of one byte");
static_assert(sizeof(matrix_step) == 56, "the library has a size_t of eight bytes");

/* A dump's packed bytes where they stand. */
typedef struct matrix_packed {
    const uint8_t *bytes;
    size_t length;
} matrix_packed;

/* Finds the first message of the input `s` that starts at `place` or later. Real-time bytes, F8H to
 * FFH, may stand anywhere inside a message: they are dropped before its bytes are looked at, counted
 * or indexed, but start and end are places of the input with them, and the report's noise is how many
 * there are, whatever its answer. So end - start - noise is what 7 goes by: the length of a complete
 * message after dropping. A message ends behind its F7H; one that is cut (2), at s_len; one that is
 * interrupted (3), at the status byte that interrupts it.
 * Answers: 1 (start and end are then s_len; so for a place past the end), 2, 3, 4, 5, 6, 7, 8, 9, 10,
 * 11, 12, in this order; 0 with the opcode as detail. */
matrix_report matrix_walk(const uint8_t *s, size_t s_len, size_t place);

/* Reads the record of the first message of the input `s` that starts at `place` or later.
 * Answers: as matrix_walk, then 13 where the buffer is shorter than the packed bytes. Start, end and
 * noise are those of matrix_walk, with 13 too.
 * Written: a dump's packed bytes, 134, 18 or 172, at the start of the buffer with answer 0. Any other
 * message needs no buffer. The rest of the buffer is kept, all of it with every other answer. */
matrix_reading matrix_read(const uint8_t *s, size_t s_len, size_t place,
                           uint8_t *buffer, size_t buffer_len);

/* Lists the messages of the input `s` that start at `place` or later, as walks would from each end:
 * as many reports as there are and as the room takes, at most MATRIX_REPORTS. To go on, call again
 * from `next`. None made, with room for one, says that there are no more.
 * Written: six numbers for each report, start, end, answer, detail, value and noise, at the start of
 * the room, a value below 0 as C converts it to size_t; matrix_listed_report takes them from there.
 * Numbers behind them are kept. */
matrix_listed matrix_reports(const uint8_t *s, size_t s_len, size_t place,
                             size_t *room, size_t room_len);

/* A reader at a fresh start. */
matrix_cable matrix_cable_fresh(void);

/* Feeds a reader what has arrived, one byte or as many as there are. It takes bytes up to the end of
 * the next message, or all if none ends. What is not taken is fed again, with more behind it or not:
 * the status byte that interrupts a message too, which is no part of that message. A feed that has
 * bytes and takes none tells of a message that ended, and the next takes some. However a stream is cut
 * into feeds, its messages are told as matrix_read tells them of the whole stream in memory.
 * Answers where a message ended: 3, 4, 5, 6, 7, 8, 9, 10, 11, 12, in this order; 0 with the opcode as
 * detail. Never 13: matrix_cable_packed has a dump's packed bytes.
 * Answers where none ended: 1 after the end was declared; 21 where the bytes taken so far and the feed
 * are more than MATRIX_CABLE_MOST; 0. Start and end are the bytes taken so far with 1, else 0. With 1
 * and 21 nothing is taken; with 0 all is.
 * Written: the reader, which is kept with 1 and 21. The input lies outside it. */
matrix_fed matrix_cable_feed(matrix_cable *cable, const uint8_t *input, size_t input_len);

/* Declares to a reader that no more comes.
 * Answers: 2 for a message that is open, which ends by it; 1 where none is open, and where the end was
 * declared before. The end is the bytes taken so far, and with 1 the start too.
 * Written: the reader, which is kept where the end was declared before. */
matrix_fed matrix_cable_end(matrix_cable *cable);

/* The packed bytes, 134, 18 or 172, of the dump that the last call on this reader told of with answer
 * 0; none, with length 0, where it told of no such dump. They stand in the reader until the next call
 * on it, an empty feed too; one that answers 21 leaves them. */
static inline matrix_packed matrix_cable_packed(const matrix_cable *cable)
{
    matrix_packed packed;
    packed.bytes = cable->bytes;
    packed.length = cable->inside ? 0 : cable->count;
    return packed;
}

/* Tests a patch.
 * Answers: 7, 11, 12; 0. No byte is written. */
matrix_outcome matrix_test_patch(const uint8_t *p, size_t p_len);

/* Tests a split, whose bytes enum matrix_split_place names.
 * Answers: 7, 11; 0. No byte is written. */
matrix_outcome matrix_test_split(const uint8_t *p, size_t p_len);

/* The byte place of a parameter, 8 to 103, or MATRIX_NONE. */
uint8_t matrix_place_of(uint8_t parameter);

/* The parameter at a byte place, or MATRIX_NONE. */
uint8_t matrix_parameter_of(uint8_t place);

/* The range of a parameter, which is signed where its least value is below 0.
 * Answers: 8 for a number that is no parameter's; 0. */
matrix_range matrix_range_of(uint8_t parameter);

/* The value of a parameter in a patch.
 * Answers: 8 for the parameter, then 7, 11 and 12 for the patch; 0. No byte is written. */
matrix_held matrix_value_of(const uint8_t *p, size_t p_len, uint8_t parameter);

/* Sets the name of a patch to a text of eight bytes, each 32 to 95.
 * Answers: 7 for the patch, 7 and 8 for the text, 11 and 12 for the patch as it was; 0.
 * Written: bytes 0 to 7 of the patch with answer 0. */
matrix_outcome matrix_set_name(uint8_t *p, size_t p_len, const uint8_t *text, size_t text_len);

/* Shows the name of a patch as a text of eight bytes, without a zero behind it.
 * Answers: 7, 11, 12, 13; 0 with detail 8.
 * Written: the first eight bytes of the output with answer 0. */
matrix_outcome matrix_show_name(const uint8_t *p, size_t p_len, uint8_t *out, size_t out_len);

/* Applies a remote edit to a patch: a parameter, and seven bits of value. A signed parameter takes
 * `v & 0x7F` for a value v, any other takes v as it is. The bits alone do not tell whether v was in
 * range: 100 sent to parameter 1 stores E4H, which is -28, and answers 0. matrix_range_of tells the
 * least and the greatest value, by which v is to be tested before it is sent. An 11 may be the edit's
 * or the patch's; matrix_test_patch tells which.
 * Answers: 8 and 11 for the edit, then 7, 11 and 12 for the patch as it was; 0.
 * Written: the parameter's byte with answer 0. */
matrix_outcome matrix_apply_edit(uint8_t *p, size_t p_len, uint8_t parameter, uint8_t value);

/* Applies a matrix modulation edit to a patch: a bus, 0 to 9, its source, 0 to 20, seven bits of
 * amount, `a & 0x7F` for an amount a, -64 to 63, and its destination, 0 to 32. No seven bits of amount
 * are refused: 100 stores E4H, which is -28. So test a before it is sent.
 * Answers: 8, 11 and 12 for the edit, then 7, 11 and 12 for the patch as it was; 0.
 * Written: the three bytes of the bus with answer 0. */
matrix_outcome matrix_apply_bus_edit(uint8_t *p, size_t p_len,
                                     uint8_t bus, uint8_t source, uint8_t amount, uint8_t destination);

/* Writes a patch as a single patch message (01H) with its number, 0 to 99.
 * Answers: 7, 8, 11, 12, 13; 0 with detail 275.
 * Written: the first 275 bytes of the output with answer 0. */
matrix_outcome matrix_write_patch(uint8_t number, const uint8_t *p, size_t p_len,
                                  uint8_t *out, size_t out_len);

/* Writes a split as a message (02H) with its number, 0 to 49.
 * Answers: 7, 8, 11, 13; 0 with detail 43.
 * Written: the first 43 bytes of the output with answer 0. */
matrix_outcome matrix_write_split(uint8_t number, const uint8_t *p, size_t p_len,
                                  uint8_t *out, size_t out_len);

/* Writes a patch as a message to the edit buffer (0DH).
 * Answers: 7, 11, 12, 13; 0 with detail 275.
 * Written: the first 275 bytes of the output with answer 0. */
matrix_outcome matrix_write_edit_buffer(const uint8_t *p, size_t p_len, uint8_t *out, size_t out_len);

/* Writes a master of 172 bytes as a message (03H, version 3).
 * Answers: 7, 13; 0 with detail 351.
 * Written: the first 351 bytes of the output with answer 0. */
matrix_outcome matrix_write_master(const uint8_t *m, size_t m_len, uint8_t *out, size_t out_len);

/* Writes a remote edit (06H), its value as matrix_apply_edit takes it.
 * Answers: 8, 11, 13; 0 with detail 7.
 * Written: the first 7 bytes of the output with answer 0. */
matrix_outcome matrix_write_edit(uint8_t parameter, uint8_t value, uint8_t *out, size_t out_len);

/* Writes a matrix modulation edit (0BH), its amount as matrix_apply_bus_edit takes it.
 * Answers: 8, 11, 12, 13; 0 with detail 9.
 * Written: the first 9 bytes of the output with answer 0. */
matrix_outcome matrix_write_bus_edit(uint8_t bus, uint8_t source, uint8_t amount, uint8_t destination,
                                     uint8_t *out, size_t out_len);

/* Writes a request for data (04H): its type, an enum matrix_request, and the number of the patch, 0 to
 * 99, with MATRIX_REQUEST_PATCH, else 0.
 * Answers: 8, 13; 0 with detail 7.
 * Written: the first 7 bytes of the output with answer 0. */
matrix_outcome matrix_write_request_data(uint8_t type, uint8_t number, uint8_t *out, size_t out_len);

/* Writes group mode (07H): how many units the group has, 2 to 6, and the number that the unit is to
 * have in it, 0 to 5. Each has its range by itself. Sent with ID 0 to the first of a chain of units, it
 * numbers them all, since each sends it on to the next with the ID raised by one.
 * Answers: 8, 13; 0 with detail 7.
 * Written: the first 7 bytes of the output with answer 0. */
matrix_outcome matrix_write_group_mode(uint8_t total, uint8_t id, uint8_t *out, size_t out_len);

/* Writes set bank (0AH), which also locks the bank, 0 to 9.
 * Answers: 8, 13; 0 with detail 6.
 * Written: the first 6 bytes of the output with answer 0. */
matrix_outcome matrix_write_set_bank(uint8_t bank, uint8_t *out, size_t out_len);

/* Writes unlock bank (0CH).
 * Answers: 13; 0 with detail 5.
 * Written: the first 5 bytes of the output with answer 0. */
matrix_outcome matrix_write_unlock_bank(uint8_t *out, size_t out_len);

/* Writes store edit buffer (0EH): the number of the patch, 0 to 99, the bank, 0 to 9, and the ID of the
 * unit, 0 to 5 or MATRIX_ANY_UNIT; matrix_unit_meant tells whether that is a given unit.
 * Answers: 8, 13; 0 with detail 8.
 * Written: the first 8 bytes of the output with answer 0. */
matrix_outcome matrix_write_store_edit_buffer(uint8_t number, uint8_t bank, uint8_t id,
                                              uint8_t *out, size_t out_len);

/* Steps a unit by the first message of the input `s` that starts at `place` or later. Set bank sets its
 * bank and the lock; unlock bank clears the lock. Group mode turns group mode on, sets the number to
 * the ID and, unless the ID is 5, is sent on with the ID raised by one. What a message is not said to
 * change stays: with one of another kind, a refused one and none, all of the unit, and nothing is sent
 * on. For the next message, step the unit that came of this one from the report's end.
 * Answers: as matrix_walk, whose report it is. No byte is written. */
matrix_step matrix_unit_step(matrix_unit unit, const uint8_t *s, size_t s_len, size_t place);

/* Whether a store message with this ID is meant for a unit: with group mode off where the ID is 0, with
 * group mode on where it is the unit's number or MATRIX_ANY_UNIT. */
bool matrix_unit_meant(matrix_unit unit, uint8_t id);

/* Writes a bank: 0 to 100 patches end to end, as single patch messages end to end, numbered from 0.
 * Answers: 7 for a length that is not a multiple of 134 or above 13,400; 11 or 12 of the lowest bad
 * patch, with its number as place; 13; 0 with the bytes written as detail. The place is 0 with answers
 * other than 11 and 12.
 * Written: the first 275 bytes of the output for each patch with answer 0. */
matrix_bank_outcome matrix_write_bank(const uint8_t *ps, size_t ps_len, uint8_t *out, size_t out_len);

/* Plans the edits that turn patch `a` into patch `b`: writes the shortest list of them, ready to send.
 * A list is messages end to end, each as matrix_write_edit or matrix_write_bus_edit writes it. This one
 * has an edit for each differing parameter and one for each differing bus, by rising byte place; no
 * list that matrix_check_plan accepts has fewer, and for equal patches it is empty. A 7, 11 or 12 may
 * be either patch's; matrix_test_patch tells which.
 * Answers: 7, 11 and 12 for a, then for b; 16 where both are good and their names differ; 13; 0 with
 * the bytes written as detail, at most MATRIX_PLAN_MOST.
 * Written: the list at the start of the output with answer 0. */
matrix_outcome matrix_plan(const uint8_t *a, size_t a_len, const uint8_t *b, size_t b_len,
                           uint8_t *out, size_t out_len);

/* Checks a list of edits that is to turn patch `a` into patch `b`, whoever made it. It is accepted
 * exactly when it is messages end to end, each as matrix_write_edit or matrix_write_bus_edit writes it,
 * with no real time inside one and nothing between or behind them, every edit is allowed in turn, and
 * the last patch equals b. So it may have another order than the planner's, and needless edits.
 * Answers: 7, 11 and 12 for a, then for b; 16 where both are good and their names differ; 20 for any
 * list that is not accepted; 0. No byte is written. */
matrix_outcome matrix_check_plan(const uint8_t *a, size_t a_len, const uint8_t *b, size_t b_len,
                                 const uint8_t *list, size_t list_len);

/* The report of this index in a room that matrix_reports filled. */
static inline matrix_report matrix_listed_report(const size_t *room, size_t index)
{
    const size_t *numbers = room + index * MATRIX_REPORT_NUMBERS;
    const int value = (int)(numbers[4] & 0xFFFF); /* sixteen bits, the highest the sign */
    matrix_report report;
    report.start = numbers[0];
    report.end = numbers[1];
    report.outcome.answer = numbers[2] & 0xFF;
    report.outcome.detail = numbers[3];
    report.outcome.value = (int16_t)(value < 0x8000 ? value : value - 0x10000);
    report.noise = numbers[5];
    return report;
}

/* The parameters, in the order of their bytes in a patch, named as the maker's listing names them.
 * Signed are MATRIX_DCO_2_DETUNE, -32 to 31, and the eighteen from MATRIX_DCO_1_FREQUENCY_BY_LFO_1 on,
 * -64 to 63; matrix_range_of tells the range of each. */
enum matrix_parameter {
    MATRIX_KEYBOARD_MODE = 48,               /* Keyboard Mode */
    MATRIX_DCO_1_FREQUENCY = 0,              /* DCO 1 Initial Frequency */
    MATRIX_DCO_1_WAVESHAPE = 5,              /* DCO 1 Initial Waveshape */
    MATRIX_DCO_1_PULSE_WIDTH = 3,            /* DCO 1 Initial Pulse Width */
    MATRIX_DCO_1_FIXED_MODULATIONS = 7,      /* DCO 1 Fixed Modulations (Lever 1, Vibrato) */
    MATRIX_DCO_1_WAVEFORM_ENABLE = 6,        /* DCO 1 Waveform Enable */
    MATRIX_DCO_2_FREQUENCY = 10,             /* DCO 2 Initial Frequency */
    MATRIX_DCO_2_WAVESHAPE = 15,             /* DCO 2 Initial Waveshape */
    MATRIX_DCO_2_PULSE_WIDTH = 13,           /* DCO 2 Initial Pulse Width */
    MATRIX_DCO_2_FIXED_MODULATIONS = 17,     /* DCO 2 Fixed Modulations (Lever 1, Vibrato) */
    MATRIX_DCO_2_WAVEFORM_ENABLE = 16,       /* DCO 2 Waveform Enable */
    MATRIX_DCO_2_DETUNE = 12,                /* DCO 2 Detune */
    MATRIX_MIX = 20,                         /* Mix */
    MATRIX_DCO_1_PORTAMENTO = 8,             /* DCO 1 Fixed Modulations (Portamento) */
    MATRIX_DCO_1_CLICK = 9,                  /* DCO 1 Click */
    MATRIX_DCO_2_PORTAMENTO = 18,            /* DCO 2 Fixed Modulations (Portamento, Keyboard Tracking) */
    MATRIX_DCO_2_CLICK = 19,                 /* DCO 2 Click */
    MATRIX_DCO_SYNC_MODE = 2,                /* DCO Sync Mode */
    MATRIX_VCF_FREQUENCY = 21,               /* VCF Initial Frequency */
    MATRIX_VCF_RESONANCE = 24,               /* VCF Initial Resonance */
    MATRIX_VCF_FIXED_MODULATIONS = 25,       /* VCF Fixed Modulations (Lever 1, Vibrato) */
    MATRIX_VCF_KEYBOARD_MODULATION = 26,     /* VCF Keyboard Modulation */
    MATRIX_VCF_FM_AMOUNT = 30,               /* VCF FM Initial Amount */
    MATRIX_VCA_1_AMOUNT = 27,                /* VCA 1 (exponential) Initial Amount */
    MATRIX_PORTAMENTO_RATE = 44,             /* Portamento Initial Rate */
    MATRIX_LAG_MODE = 46,                    /* Lag Mode */
    MATRIX_LEGATO_PORTAMENTO_ENABLE = 47,    /* Legato Portamento Enable */
    MATRIX_LFO_1_SPEED = 80,                 /* LFO 1 Initial Speed */
    MATRIX_LFO_1_TRIGGER = 86,               /* LFO 1 Trigger */
    MATRIX_LFO_1_LAG_ENABLE = 87,            /* LFO 1 Lag Enable */
    MATRIX_LFO_1_WAVESHAPE = 82,             /* LFO 1 Waveshape */
    MATRIX_LFO_1_RETRIGGER_POINT = 83,       /* LFO 1 Retrigger Point */
    MATRIX_LFO_1_SAMPLED_SOURCE = 88,        /* LFO 1 Sampled Source Number */
    MATRIX_LFO_1_AMPLITUDE = 84,             /* LFO 1 Initial Amplitude */
    MATRIX_LFO_2_SPEED = 90,                 /* LFO 2 Initial Speed */
    MATRIX_LFO_2_TRIGGER = 96,               /* LFO 2 Trigger */
    MATRIX_LFO_2_LAG_ENABLE = 97,            /* LFO 2 Lag Enable */
    MATRIX_LFO_2_WAVESHAPE = 92,             /* LFO 2 Waveshape */
    MATRIX_LFO_2_RETRIGGER_POINT = 93,       /* LFO 2 Retrigger Point */
    MATRIX_LFO_2_SAMPLED_SOURCE = 98,        /* LFO 2 Sampled Source Number */
    MATRIX_LFO_2_AMPLITUDE = 94,             /* LFO 2 Initial Amplitude */
    MATRIX_ENV_1_TRIGGER_MODE = 57,          /* Env 1 Trigger Mode */
    MATRIX_ENV_1_DELAY_TIME = 50,            /* Env 1 Initial Delay Time */
    MATRIX_ENV_1_ATTACK_TIME = 51,           /* Env 1 Initial Attack Time */
    MATRIX_ENV_1_DECAY_TIME = 52,            /* Env 1 Initial Decay Time */
    MATRIX_ENV_1_SUSTAIN_LEVEL = 53,         /* Env 1 Sustain Level */
    MATRIX_ENV_1_RELEASE_TIME = 54,          /* Env 1 Initial Release Time */
    MATRIX_ENV_1_AMPLITUDE = 55,             /* Env 1 Initial Amplitude */
    MATRIX_ENV_1_LFO_TRIGGER_MODE = 59,      /* Env 1 LFO Trigger Mode */
    MATRIX_ENV_1_MODE = 58,                  /* Env 1 Mode */
    MATRIX_ENV_2_TRIGGER_MODE = 67,          /* Env 2 Trigger Mode */
    MATRIX_ENV_2_DELAY_TIME = 60,            /* Env 2 Initial Delay Time */
    MATRIX_ENV_2_ATTACK_TIME = 61,           /* Env 2 Initial Attack Time */
    MATRIX_ENV_2_DECAY_TIME = 62,            /* Env 2 Initial Decay Time */
    MATRIX_ENV_2_SUSTAIN_LEVEL = 63,         /* Env 2 Sustain Level */
    MATRIX_ENV_2_RELEASE_TIME = 64,          /* Env 2 Initial Release Time */
    MATRIX_ENV_2_AMPLITUDE = 65,             /* Env 2 Initial Amplitude */
    MATRIX_ENV_2_LFO_TRIGGER_MODE = 69,      /* Env 2 LFO Trigger Mode */
    MATRIX_ENV_2_MODE = 68,                  /* Env 2 Mode */
    MATRIX_ENV_3_TRIGGER_MODE = 77,          /* Env 3 Trigger Mode */
    MATRIX_ENV_3_DELAY_TIME = 70,            /* Env 3 Initial Delay Time */
    MATRIX_ENV_3_ATTACK_TIME = 71,           /* Env 3 Initial Attack Time */
    MATRIX_ENV_3_DECAY_TIME = 72,            /* Env 3 Initial Decay Time */
    MATRIX_ENV_3_SUSTAIN_LEVEL = 73,         /* Env 3 Sustain Level */
    MATRIX_ENV_3_RELEASE_TIME = 74,          /* Env 3 Initial Release Time */
    MATRIX_ENV_3_AMPLITUDE = 75,             /* Env 3 Initial Amplitude */
    MATRIX_ENV_3_LFO_TRIGGER_MODE = 79,      /* Env 3 LFO Trigger Mode */
    MATRIX_ENV_3_MODE = 78,                  /* Env 3 Mode */
    MATRIX_TRACKING_SOURCE = 33,             /* Tracking Generator Input Source Code */
    MATRIX_TRACKING_POINT_1 = 34,            /* Tracking Point 1 */
    MATRIX_TRACKING_POINT_2 = 35,            /* Tracking Point 2 */
    MATRIX_TRACKING_POINT_3 = 36,            /* Tracking Point 3 */
    MATRIX_TRACKING_POINT_4 = 37,            /* Tracking Point 4 */
    MATRIX_TRACKING_POINT_5 = 38,            /* Tracking Point 5 */
    MATRIX_RAMP_1_RATE = 40,                 /* Ramp 1 Rate */
    MATRIX_RAMP_1_MODE = 41,                 /* Ramp 1 Mode */
    MATRIX_RAMP_2_RATE = 42,                 /* Ramp 2 Rate */
    MATRIX_RAMP_2_MODE = 43,                 /* Ramp 2 Mode */
    MATRIX_DCO_1_FREQUENCY_BY_LFO_1 = 1,     /* DCO 1 Frequency by LFO 1 Amount */
    MATRIX_DCO_1_PW_BY_LFO_2 = 4,            /* DCO 1 PW by LFO 2 Amount */
    MATRIX_DCO_2_FREQUENCY_BY_LFO_1 = 11,    /* DCO 2 Frequency by LFO 1 Amount */
    MATRIX_DCO_2_PW_BY_LFO_2 = 14,           /* DCO 2 PW by LFO 2 Amount */
    MATRIX_VCF_FREQUENCY_BY_ENV_1 = 22,      /* VCF Frequency by Env 1 Amount */
    MATRIX_VCF_FREQUENCY_BY_PRESSURE = 23,   /* VCF Frequency by Pressure Amount */
    MATRIX_VCA_1_BY_VELOCITY = 28,           /* VCA 1 by Velocity Amount */
    MATRIX_VCA_2_BY_ENV_2 = 29,              /* VCA 2 by Env 2 Amount */
    MATRIX_ENV_1_AMPLITUDE_BY_VELOCITY = 56, /* Env 1 Amplitude by Velocity Amount */
    MATRIX_ENV_2_AMPLITUDE_BY_VELOCITY = 66, /* Env 2 Amplitude by Velocity Amount */
    MATRIX_ENV_3_AMPLITUDE_BY_VELOCITY = 76, /* Env 3 Amplitude by Velocity Amount */
    MATRIX_LFO_1_AMPLITUDE_BY_RAMP_1 = 85,   /* LFO 1 Amplitude by Ramp 1 Amount */
    MATRIX_LFO_2_AMPLITUDE_BY_RAMP_2 = 95,   /* LFO 2 Amplitude by Ramp 2 Amount */
    MATRIX_PORTAMENTO_RATE_BY_VELOCITY = 45, /* Portamento Rate by Velocity Amount */
    MATRIX_VCF_FM_AMOUNT_BY_ENV_3 = 31,      /* VCF FM Amount by Env 3 Amount */
    MATRIX_VCF_FM_AMOUNT_BY_PRESSURE = 32,   /* VCF FM Amount by Pressure Amount */
    MATRIX_LFO_1_SPEED_BY_PRESSURE = 81,     /* LFO 1 Speed by Pressure Amount */
    MATRIX_LFO_2_SPEED_BY_KEYBOARD = 91      /* LFO 2 Speed by Keyboard Amount */
};

/* The byte places of a split, named as the maker's listing names them. The listing's split parameters 0
 * to 7 are the bytes from MATRIX_SPLIT_LEFT_LIMIT on. A field has the range of its bits: six for a
 * character and for a byte that is not used, seven for a patch number and a limit. Signed are the
 * transpositions and the balance, -32 to 31, in eight bits. A character c of the name, 32 to 95, is
 * stored as `c & 0x3F`, as in a patch's. A voice configuration names the voices of the lower patch and
 * those of the upper. */
enum matrix_split_place {
    MATRIX_SPLIT_NAME = 0,             /* Split Name: six bytes */
    MATRIX_SPLIT_NOT_USED = 6,         /* Not Used: two bytes */
    MATRIX_SPLIT_LOWER_PATCH = 8,      /* Lower Patch Number */
    MATRIX_SPLIT_UPPER_PATCH = 9,      /* Upper Patch Number */
    MATRIX_SPLIT_LEFT_LIMIT = 10,      /* Left Zone Limit */
    MATRIX_SPLIT_LEFT_TRANSPOSE = 11,  /* Left Zone Transpose */
    MATRIX_SPLIT_LEFT_MIDI_OUT = 12,   /* Left Zone MIDI Out Enable: 0 or 1 */
    MATRIX_SPLIT_RIGHT_LIMIT = 13,     /* Right Zone Limit */
    MATRIX_SPLIT_RIGHT_TRANSPOSE = 14, /* Right Zone Transpose */
    MATRIX_SPLIT_RIGHT_MIDI_OUT = 15,  /* Right Zone MIDI Out Enable: 0 or 1 */
    MATRIX_SPLIT_BALANCE = 16,         /* Left/Right Balance: -31 left zone only, 31 right zone only */
    MATRIX_SPLIT_VOICES = 17           /* Voice Configuration: 0 is 2/4, 1 is 4/2, 2 is 6/0, 3 is 0/6 */
};

/* From here on the names above are those of the functions below, by which the pointer of an empty
 * slice may be NULL: the library itself is always given an address. */

static inline const uint8_t *matrix_input_(const uint8_t *bytes, size_t length)
{
    static const uint8_t none[1] = {0};
    return length == 0 ? none : bytes;
}

static inline uint8_t *matrix_output_(uint8_t *bytes, size_t length)
{
    static uint8_t none[1] = {0};
    return length == 0 ? none : bytes;
}

static inline size_t *matrix_room_(size_t *numbers, size_t length)
{
    static size_t none[1] = {0};
    return length == 0 ? none : numbers;
}

static inline matrix_report matrix_walk_(const uint8_t *s, size_t s_len, size_t place)
{
    return matrix_walk(matrix_input_(s, s_len), s_len, place);
}
#define matrix_walk matrix_walk_

static inline matrix_reading matrix_read_(const uint8_t *s, size_t s_len, size_t place,
                                          uint8_t *buffer, size_t buffer_len)
{
    return matrix_read(matrix_input_(s, s_len), s_len, place,
                       matrix_output_(buffer, buffer_len), buffer_len);
}
#define matrix_read matrix_read_

static inline matrix_listed matrix_reports_(const uint8_t *s, size_t s_len, size_t place,
                                            size_t *room, size_t room_len)
{
    return matrix_reports(matrix_input_(s, s_len), s_len, place,
                          matrix_room_(room, room_len), room_len);
}
#define matrix_reports matrix_reports_

static inline matrix_fed matrix_cable_feed_(matrix_cable *cable,
                                            const uint8_t *input, size_t input_len)
{
    return matrix_cable_feed(cable, matrix_input_(input, input_len), input_len);
}
#define matrix_cable_feed matrix_cable_feed_

static inline matrix_outcome matrix_test_patch_(const uint8_t *p, size_t p_len)
{
    return matrix_test_patch(matrix_input_(p, p_len), p_len);
}
#define matrix_test_patch matrix_test_patch_

static inline matrix_outcome matrix_test_split_(const uint8_t *p, size_t p_len)
{
    return matrix_test_split(matrix_input_(p, p_len), p_len);
}
#define matrix_test_split matrix_test_split_

static inline matrix_held matrix_value_of_(const uint8_t *p, size_t p_len, uint8_t parameter)
{
    return matrix_value_of(matrix_input_(p, p_len), p_len, parameter);
}
#define matrix_value_of matrix_value_of_

static inline matrix_outcome matrix_set_name_(uint8_t *p, size_t p_len,
                                              const uint8_t *text, size_t text_len)
{
    return matrix_set_name(matrix_output_(p, p_len), p_len, matrix_input_(text, text_len), text_len);
}
#define matrix_set_name matrix_set_name_

static inline matrix_outcome matrix_show_name_(const uint8_t *p, size_t p_len,
                                               uint8_t *out, size_t out_len)
{
    return matrix_show_name(matrix_input_(p, p_len), p_len, matrix_output_(out, out_len), out_len);
}
#define matrix_show_name matrix_show_name_

static inline matrix_outcome matrix_apply_edit_(uint8_t *p, size_t p_len,
                                                uint8_t parameter, uint8_t value)
{
    return matrix_apply_edit(matrix_output_(p, p_len), p_len, parameter, value);
}
#define matrix_apply_edit matrix_apply_edit_

static inline matrix_outcome matrix_apply_bus_edit_(uint8_t *p, size_t p_len, uint8_t bus,
                                                    uint8_t source, uint8_t amount,
                                                    uint8_t destination)
{
    return matrix_apply_bus_edit(matrix_output_(p, p_len), p_len, bus, source, amount, destination);
}
#define matrix_apply_bus_edit matrix_apply_bus_edit_

static inline matrix_outcome matrix_write_patch_(uint8_t number, const uint8_t *p, size_t p_len,
                                                 uint8_t *out, size_t out_len)
{
    return matrix_write_patch(number, matrix_input_(p, p_len), p_len,
                              matrix_output_(out, out_len), out_len);
}
#define matrix_write_patch matrix_write_patch_

static inline matrix_outcome matrix_write_split_(uint8_t number, const uint8_t *p, size_t p_len,
                                                 uint8_t *out, size_t out_len)
{
    return matrix_write_split(number, matrix_input_(p, p_len), p_len,
                              matrix_output_(out, out_len), out_len);
}
#define matrix_write_split matrix_write_split_

static inline matrix_outcome matrix_write_edit_buffer_(const uint8_t *p, size_t p_len,
                                                       uint8_t *out, size_t out_len)
{
    return matrix_write_edit_buffer(matrix_input_(p, p_len), p_len,
                                    matrix_output_(out, out_len), out_len);
}
#define matrix_write_edit_buffer matrix_write_edit_buffer_

static inline matrix_outcome matrix_write_master_(const uint8_t *m, size_t m_len,
                                                  uint8_t *out, size_t out_len)
{
    return matrix_write_master(matrix_input_(m, m_len), m_len, matrix_output_(out, out_len), out_len);
}
#define matrix_write_master matrix_write_master_

static inline matrix_outcome matrix_write_edit_(uint8_t parameter, uint8_t value,
                                                uint8_t *out, size_t out_len)
{
    return matrix_write_edit(parameter, value, matrix_output_(out, out_len), out_len);
}
#define matrix_write_edit matrix_write_edit_

static inline matrix_outcome matrix_write_bus_edit_(uint8_t bus, uint8_t source, uint8_t amount,
                                                    uint8_t destination,
                                                    uint8_t *out, size_t out_len)
{
    return matrix_write_bus_edit(bus, source, amount, destination,
                                 matrix_output_(out, out_len), out_len);
}
#define matrix_write_bus_edit matrix_write_bus_edit_

static inline matrix_outcome matrix_write_request_data_(uint8_t type, uint8_t number,
                                                        uint8_t *out, size_t out_len)
{
    return matrix_write_request_data(type, number, matrix_output_(out, out_len), out_len);
}
#define matrix_write_request_data matrix_write_request_data_

static inline matrix_outcome matrix_write_group_mode_(uint8_t total, uint8_t id,
                                                      uint8_t *out, size_t out_len)
{
    return matrix_write_group_mode(total, id, matrix_output_(out, out_len), out_len);
}
#define matrix_write_group_mode matrix_write_group_mode_

static inline matrix_outcome matrix_write_set_bank_(uint8_t bank, uint8_t *out, size_t out_len)
{
    return matrix_write_set_bank(bank, matrix_output_(out, out_len), out_len);
}
#define matrix_write_set_bank matrix_write_set_bank_

static inline matrix_outcome matrix_write_unlock_bank_(uint8_t *out, size_t out_len)
{
    return matrix_write_unlock_bank(matrix_output_(out, out_len), out_len);
}
#define matrix_write_unlock_bank matrix_write_unlock_bank_

static inline matrix_outcome matrix_write_store_edit_buffer_(uint8_t number, uint8_t bank, uint8_t id,
                                                             uint8_t *out, size_t out_len)
{
    return matrix_write_store_edit_buffer(number, bank, id, matrix_output_(out, out_len), out_len);
}
#define matrix_write_store_edit_buffer matrix_write_store_edit_buffer_

static inline matrix_step matrix_unit_step_(matrix_unit unit,
                                            const uint8_t *s, size_t s_len, size_t place)
{
    return matrix_unit_step(unit, matrix_input_(s, s_len), s_len, place);
}
#define matrix_unit_step matrix_unit_step_

static inline matrix_bank_outcome matrix_write_bank_(const uint8_t *ps, size_t ps_len,
                                                     uint8_t *out, size_t out_len)
{
    return matrix_write_bank(matrix_input_(ps, ps_len), ps_len, matrix_output_(out, out_len), out_len);
}
#define matrix_write_bank matrix_write_bank_

static inline matrix_outcome matrix_plan_(const uint8_t *a, size_t a_len,
                                          const uint8_t *b, size_t b_len,
                                          uint8_t *out, size_t out_len)
{
    return matrix_plan(matrix_input_(a, a_len), a_len, matrix_input_(b, b_len), b_len,
                       matrix_output_(out, out_len), out_len);
}
#define matrix_plan matrix_plan_

static inline matrix_outcome matrix_check_plan_(const uint8_t *a, size_t a_len,
                                                const uint8_t *b, size_t b_len,
                                                const uint8_t *list, size_t list_len)
{
    return matrix_check_plan(matrix_input_(a, a_len), a_len, matrix_input_(b, b_len), b_len,
                             matrix_input_(list, list_len), list_len);
}
#define matrix_check_plan matrix_check_plan_

#ifdef __cplusplus
}
#endif

#endif
