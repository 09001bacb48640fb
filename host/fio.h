/* A proved model of the Zilog FIO, for hosts in C. Link target/staticlib/libhost.a (`host/library host`; x86-64 Linux). A host that
 * calls the session's functions alone may link libfeeding.a in its place (`host/library feeding`), which feeds faster.
 *
 * A record goes in by value and comes back by value: no function keeps anything between two calls, and any number of chips
 * may be stepped at once. A chip is a fio_control and 128 bytes beside it, its buffer, which is lent.
 *
 * No function has a condition on the numbers that it is given: every byte of every record may have any value. A step or a
 * burst on a forbidden record is refusal 1. A look (fio_lines, fio_count) refuses only a flag above 1. A call on a session
 * refuses only that too: any other refusal is a line's, and stands in what is printed for it. What C cannot say, the caller
 * ensures:
 *   - `buffer` points to 128 bytes, `line`, `input` and `memory` to `length` bytes and `output` to `room` bytes, none of them
 *     null, also where the length is 0. The function reads and writes there and nowhere else.
 *   - What is lent to one call does not overlap, and nobody else reads or writes it until the call returns.
 */
#ifndef FIO_H
#define FIO_H

#include <stddef.h>
#include <stdint.h>

#ifdef __cplusplus
extern "C" {
#endif

/* What a side owns. ip, ie and ius have a bit for each source, by its number. state1, run and waiting are flags: 0 or 1.
 * A flag above 1 is refusal 1: a bit is set that is held at zero. */
typedef struct {
    uint8_t control0, control1;
    uint8_t ip, ie, ius;
    uint8_t vector, compare, pattern, mask, pointer;
    uint8_t state1, run;
    uint8_t frozen, message;
    uint8_t waiting;
} fio_side;

/* A chip but for its buffer: 35 bytes, without padding. */
typedef struct {
    uint8_t pins;
    fio_side one, two;
    uint8_t control2, control3;
    uint8_t start, count;
} fio_control;

/* An answer's number and the byte beside it: of Byte its byte, of FIO_REFUSED_FRAME what is wrong with the line, else 00.
 * What is wrong is one of the refusals 41 to 45 and its column: the refusal's second digit in the high half, the column in the
 * low. 41 at column 3 is E4 and 13. */
typedef struct {
    uint8_t number, value;
} fio_answer;

enum {
    FIO_DONE = 0x00,
    FIO_BYTE = 0x01,
    FIO_FLOATING = 0x02,
    FIO_WAITING = 0x03,
    FIO_REFUSED_RECORD = 0xE1,  /* the record is one that is forbidden */
    FIO_REFUSED_ADDRESS = 0xE2, /* the address is above what the bus has */
    FIO_REFUSED_PINS = 0xE3,    /* a start with pins above 2 */
    FIO_REFUSED_FRAME = 0xE4,   /* the line or the three bytes are no frame; of a burst: the side is not 1 or 2 */
    FIO_REFUSED_NO_CHIP = 0xE5, /* in a session: no chip was started yet */
    FIO_REFUSED_LENGTH = 0xE6,  /* a burst with more memory than FIO_BURST_LIMIT */
    FIO_REFUSED_ROLE = 0xE7     /* a burst in by a side that is not the writer, or out by one that is not the reader */
};

/* A refusal, 41 to 45, and a column, 1 to 7; or 0 and 0. */
typedef struct {
    uint8_t refusal, column;
} fio_fault;

enum {
    FIO_NOT_HEX = 41,      /* one of the first six characters is not a hex digit; its column */
    FIO_TOO_SHORT = 42,    /* fewer than six characters; the column behind the last one, of an empty line 1 */
    FIO_TOO_LONG = 43,     /* more than six characters; column 7 */
    FIO_UNKNOWN_KIND = 44, /* the kind is unknown; column 1 */
    FIO_UNUSED_BYTE = 45   /* a byte without a use is not 00; its first column: 3 the address, else 5 the data */
};

/* The refusal that an answer tells, or a printed line by its first two fields: 1, 2, 3, 5 or 41 to 45; 0 if it is none. Not for
 * the number of a burst. */
static inline uint8_t fio_refusal(fio_answer answer) {
    if (answer.number < FIO_REFUSED_RECORD) return 0;
    return (uint8_t)(answer.number == FIO_REFUSED_FRAME ? 40 + answer.value / 16 : answer.number % 16);
}

/* The column of an answer's refusal, 1 to 7, or 0 if it is not one of 41 to 45. */
static inline uint8_t fio_column(fio_answer answer) {
    return (uint8_t)(answer.number == FIO_REFUSED_FRAME ? answer.value % 16 : 0);
}

/* The bits of fio_lines. */
enum { FIO_INT_1 = 1, FIO_REQUEST_1 = 2, FIO_INT_2 = 4, FIO_REQUEST_2 = 8 };

/* The record after a frame, and its answer. */
typedef struct {
    fio_control control;
    fio_answer answer;
} fio_stepped;

/* The record after a burst, its answer's number, and the number of bytes moved, or 0: 38 bytes, without padding. */
typedef struct {
    fio_control control;
    uint8_t number;
    uint16_t moved;
} fio_burst;

/* The most bytes of memory that a burst takes. */
enum { FIO_BURST_LIMIT = 4096 };

/* A session: the hex digits that the line being read begins with, six at most (their value, their number, and whether a
 * character came behind them), whether there is a chip, and its record. fault and present are flags: 0 or 1. A line that ends
 * with fewer than six digits is refusal 41 if fault is 1, else 42, at the column behind them. Six with fault 1 are refusal 43,
 * and so are more than six; six with fault 0 whose value is above FFFFFF are refusal 44. */
typedef struct {
    uint32_t value;
    uint8_t digits, fault, present;
    fio_control control;
} fio_session;

/* The session after a feed, how many bytes of the input were used and how many of the output were written, and Done or
 * refusal 1. */
typedef struct {
    fio_session session;
    size_t used, written;
    fio_answer answer;
} fio_fed;

/* The bytes of a printed line. */
enum { FIO_REPORT = 9 };

/* A new chip. Pins 0 to 2: Done, the record of a chip in reset, and 128 zeros in the buffer. Pins above 2: refusal 3, the
 * buffer as it was, and a record with those pins, on which every step is refusal 1. */
fio_stepped fio_start(uint8_t pins, uint8_t buffer[128]);

/* A frame, its kind, address and data: a step, or a start that replaces the chip. In this order:
 *   refusal 44   the kind is none of those below; record and buffer as they were
 *   refusal 45   a byte that the kind has no use for is not 00, the address before the data; record and buffer as they were
 *   a start      (kind 00) as fio_start; with refusal 3 record and buffer are as they were
 *   refusal 1    the record is forbidden, a flag above 1 included; record and buffer as they were
 *   a step       (kinds 11 to 16, 21 to 26) the step's answer, refusal 2 among them, and record and buffer after it
 */
fio_stepped fio_step(fio_control control, uint8_t buffer[128], uint8_t kind, uint8_t address, uint8_t data);

/* What is wrong with a line, without its LF: the refusal and the column of its first fault. The leftmost of 41 to 43, then 44,
 * then 45. Of a line that is a frame 0 and 0. Any byte that is no hex digit, NUL, CR and LF too, is a bad character. */
fio_fault fio_line_fault(const uint8_t *line, size_t length);

/* Byte, with the four lines as its value (1 active), or refusal 1 if a flag is above 1. */
fio_answer fio_lines(fio_control control);

/* Byte, with the count as its value, or refusal 1 if a flag is above 1. */
fio_answer fio_count(fio_control control);

/* A burst by side 1 or 2: its DMA steps with nothing between them, while its REQUEST line is active and memory remains. In:
 * from memory to the FIFO, the frames of kind 13 or 23, each with the next byte of memory. Out: from the FIFO to memory, those
 * of kind 14 or 24, each byte to the next place of memory. REQUEST is looked at before each, the first too. In this order:
 *   E4          the side is not 1 or 2; there is no line, and no column
 *   refusal 1   the record is forbidden, a flag above 1 included
 *   Floating    the side is not live
 *   refusal 6   `length` is above 4,096
 *   refusal 7   the side is not the writer for a burst in, or not the reader for one out, whatever `length` is
 *   Done        `moved` bytes were moved, as many as those steps are: none if REQUEST is inactive or `length` is 0, at most
 *               `length`, and at most 128; record and buffer are as those steps leave them
 * With any answer but Done record, buffer and memory are as they were, and `moved` is 0. A burst in does not write memory; a
 * burst out writes its first `moved` bytes, and those behind them are as they were. */
fio_burst fio_burst_in(fio_control control, uint8_t buffer[128], uint8_t side, const uint8_t *memory, size_t length);
fio_burst fio_burst_out(fio_control control, uint8_t buffer[128], uint8_t side, uint8_t *memory, size_t length);

/* A session before its first line: no chip. The buffer that is lent beside it may hold anything. */
fio_session fio_session_start(void);

/* Takes bytes of the input, in whatever pieces they come, and writes a line of nine bytes for each that ends: answer, byte,
 * lines, count in capital hex digits, and LF. It stops before an LF whose line has no room: `used` is the bytes taken, at
 * most `length`, and `written` those of the output, at most `room`; output behind them is as it was. The answer is Done,
 * whatever the lines are: a line that is refused, a step on a forbidden record too, prints its refusal: E1, E2, E3 or E5 with
 * 00, or E4 with what is wrong with the line. Refusal 1 if a flag of the session is above 1: then nothing is used or written,
 * and all is as it was. */
fio_fed fio_session_feed(fio_session session, uint8_t buffer[128], const uint8_t *input, size_t length,
                         uint8_t *output, size_t room);

/* The end of the input: a last line that has no LF is answered as one with it. Without such a line, or with less than nine
 * bytes of room, nothing is written and the session is as it was. `used` is 0. Refusal 1 as above. */
fio_fed fio_session_finish(fio_session session, uint8_t buffer[128], uint8_t *output, size_t room);

#ifdef __cplusplus
}
#endif

#endif
