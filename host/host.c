/* host.c: a host in C. host SESSION.. (each SESSION.in beside SESSION.out) replays the sessions frame by frame and by feeding,
 * compares, tries every start, three bytes of every kind, lines with every kind of fault, bursts beside single steps, records
 * with every kind of fault and sessions at their edges, and says what it did. */
#include "fio.h"

#include <stdio.h>
#include <stdlib.h>
#include <string.h>

_Static_assert(sizeof(fio_side) == 15 && sizeof(fio_control) == 35, "records of bytes have no padding");
_Static_assert(sizeof(fio_answer) == 2 && sizeof(fio_stepped) == 37, "records of bytes have no padding");
_Static_assert(sizeof(fio_fault) == 2 && offsetof(fio_fault, column) == 1, "records of bytes have no padding");
_Static_assert(sizeof(fio_burst) == 38 && offsetof(fio_burst, moved) == 36, "a burst has no padding");
_Static_assert(sizeof(fio_session) == 44 && offsetof(fio_session, control) == 7, "padding behind the record only");
_Static_assert(sizeof(fio_fed) == 72 && offsetof(fio_fed, used) == 48, "two words behind the session");
_Static_assert(offsetof(fio_fed, written) == 56 && offsetof(fio_fed, answer) == 64, "the answer behind them");

/* A file has fewer bytes than LONGEST, so the lines printed for it, of nine bytes each, fit into PRINTED. */
enum { LONGEST = 1 << 20, PRINTED = 9 * LONGEST + 1 };

static unsigned long failures;

static void expect(int holds, const char *what, unsigned long which) {
    if (!holds) {
        failures++;
        printf("wrong: %s, %lu\n", what, which);
    }
}

static int all_are(const uint8_t *bytes, size_t length, uint8_t value) {
    return length == 0 || (bytes[0] == value && !memcmp(bytes, bytes + 1, length - 1));
}

static int answers(fio_answer a, uint8_t number, uint8_t value) { return a.number == number && a.value == value; }

static int is_fault(fio_fault f, int refusal, int column) { return f.refusal == refusal && f.column == column; }

static int same_control(fio_control a, fio_control b) { return !memcmp(&a, &b, sizeof a); }

static int same_session(fio_session a, fio_session b) {
    return a.value == b.value && a.digits == b.digits && a.fault == b.fault && a.present == b.present
        && same_control(a.control, b.control);
}

typedef struct {
    uint8_t *bytes;
    size_t length;
} text;

static text read_file(const char *name, const char *ending) {
    char path[4096];
    if ((size_t)snprintf(path, sizeof path, "%s%s", name, ending) >= sizeof path) {
        fprintf(stderr, "%s: the name is too long\n", name);
        exit(2);
    }
    FILE *file = fopen(path, "rb");
    text t = {malloc(LONGEST), 0};
    if (file == NULL || t.bytes == NULL) {
        perror(path);
        exit(2);
    }
    t.length = fread(t.bytes, 1, LONGEST, file);
    fclose(file);
    if (t.length == LONGEST) {
        fprintf(stderr, "%s: too long: %d bytes or more\n", path, LONGEST);
        exit(2);
    }
    return t;
}

/* ---- a session, frame by frame */

/* A chip where it is held. Before a start the record is one that a refused start hands back. */
typedef struct {
    fio_control control;
    uint8_t buffer[128];
    int present;
} chip;

static chip no_chip(void) {
    chip k = {.present = 0};
    memset(k.buffer, 0x5A, sizeof k.buffer);
    k.control = fio_start(0xFF, k.buffer).control;
    return k;
}

static fio_answer step(chip *k, uint8_t kind, uint8_t address, uint8_t data) {
    fio_stepped r = fio_step(k->control, k->buffer, kind, address, data);
    k->control = r.control;
    if (kind == 0x00 && r.answer.number == FIO_DONE) k->present = 1;
    if (!k->present && r.answer.number == FIO_REFUSED_RECORD) r.answer.number = FIO_REFUSED_NO_CHIP;
    return r.answer;
}

static int digit_of(uint8_t c) {
    if (c >= '0' && c <= '9') return c - '0';
    if (c >= 'A' && c <= 'F') return c - 'A' + 10;
    if (c >= 'a' && c <= 'f') return c - 'a' + 10;
    return -1;
}

/* Whether a line is six hex digits, and then its three bytes. */
static int bytes_of(const uint8_t *line, size_t length, uint8_t frame[3]) {
    if (length != 6) return 0;
    memset(frame, 0, 3);
    for (int i = 0; i < 6; i++) {
        if (digit_of(line[i]) < 0) return 0;
        frame[i / 2] = (uint8_t)(frame[i / 2] * 16 + digit_of(line[i]));
    }
    return 1;
}

/* Three bytes that are no frame have the fault of their line; a line without a fault is a frame. */
static int agree(fio_fault f, fio_answer a) {
    if (a.number != FIO_REFUSED_FRAME) return is_fault(f, 0, 0);
    return f.refusal != 0 && is_fault(f, fio_refusal(a), fio_column(a));
}

/* What is not six hex digits has no three bytes to step: the line's fault is printed, and the chip stays. */
static size_t by_frames(text input, char *output) {
    chip k = no_chip();
    size_t written = 0, at = 0;
    while (at < input.length) {
        const uint8_t *line = input.bytes + at;
        const uint8_t *lf = memchr(line, '\n', input.length - at);
        size_t length = lf ? (size_t)(lf - line) : input.length - at;
        uint8_t frame[3];
        fio_fault f = fio_line_fault(line, length);
        fio_answer a = {FIO_REFUSED_FRAME, (uint8_t)((f.refusal - 40) * 16 + f.column)};
        if (bytes_of(line, length, frame)) {
            a = step(&k, frame[0], frame[1], frame[2]);
            expect(agree(f, a), "a line and its three bytes", at);
        }
        fio_answer lines = fio_lines(k.control), count = fio_count(k.control);
        written += (size_t)sprintf(output + written, "%02X%02X%02X%02X\n", a.number, a.value, lines.value, count.value);
        at += length + 1;
    }
    return written;
}

/* ---- a session, by feeding */

/* What a call is lent for its output, and some bytes behind it, all of one value before the call. */
enum { MOST_ROOM = 4096, BEHIND = 16, UNTOUCHED = 0xA5 };
static uint8_t printed[MOST_ROOM + BEHIND];

/* A feed, or without an input a finish. Behind what it wrote the output is as it was, and so is what is behind the room. */
static fio_fed fed(fio_session s, uint8_t buffer[128], const void *input, size_t length, size_t room) {
    memset(printed, UNTOUCHED, room + BEHIND);
    fio_fed r = input ? fio_session_feed(s, buffer, input, length, printed, room) : fio_session_finish(s, buffer, printed, room);
    int within = r.used <= length && r.written <= room;
    expect(within && all_are(printed + r.written, room + BEHIND - r.written, UNTOUCHED), "the output behind", room);
    return r;
}

static size_t by_feeding(text input, size_t piece, size_t room, uint8_t *output) {
    uint8_t buffer[128];
    memset(buffer, 0x5A, sizeof buffer);
    fio_session s = fio_session_start();
    size_t at = 0, written = 0;
    while (at < input.length) {
        size_t length = input.length - at < piece ? input.length - at : piece;
        fio_fed r = fed(s, buffer, input.bytes + at, length, room);
        int on = answers(r.answer, FIO_DONE, 0) && r.used > 0 && r.written <= 9 * r.used;
        expect(on, "a feed gets on", at);
        if (!on) return written;
        memcpy(output + written, printed, r.written);
        s = r.session;
        at += r.used;
        written += r.written;
    }
    fio_fed r = fed(s, buffer, NULL, 0, room);
    int ended = answers(r.answer, FIO_DONE, 0) && r.used == 0 && r.written <= (s.digits > 0 || s.fault ? 9 : 0);
    expect(ended, "a finish", at);
    if (!ended) return written;
    memcpy(output + written, printed, r.written);
    return written + r.written;
}

static unsigned long replay(const char *name) {
    static uint8_t output[PRINTED];
    static const size_t pieces[] = {1, 2, 7, 61, LONGEST}, rooms[] = {9, 23, MOST_ROOM};
    text input = read_file(name, ".in"), known = read_file(name, ".out");
    unsigned long lines = 0;
    for (size_t i = 0; i < known.length; i++) lines += known.bytes[i] == '\n';
    size_t written = by_frames(input, (char *)output);
    expect(written == known.length && !memcmp(output, known.bytes, written), name, 0);
    for (int i = 0; i < 5; i++) {
        for (int j = 0; j < 3; j++) {
            written = by_feeding(input, pieces[i], rooms[j], output);
            expect(written == known.length && !memcmp(output, known.bytes, written), name, pieces[i]);
        }
    }
    free(input.bytes);
    free(known.bytes);
    return lines;
}

/* ---- starts */

/* What a start leaves: all that a side owns zero but Control 0, which is 01; the pins; the rest zero. */
static fio_control in_reset(uint8_t pins) {
    fio_control c;
    memset(&c, 0, sizeof c);
    c.pins = pins;
    c.one.control0 = c.two.control0 = 0x01;
    return c;
}

/* With refusal 3 the record is `before` and the buffer is as it was. */
static void started(fio_stepped r, const uint8_t lent[128], uint8_t pins, fio_control before, const char *what) {
    int taken = pins <= 2;
    expect(answers(r.answer, taken ? FIO_DONE : FIO_REFUSED_PINS, 0), what, pins);
    expect(same_control(r.control, taken ? in_reset(pins) : before), what, pins);
    expect(all_are(lent, 128, taken ? 0x00 : 0x5A), what, pins);
}

static void refuses(fio_control c, const uint8_t buffer[128], int flag, unsigned long which);

/* fio_start of every pins, and fio_step of kind 00 on the record that it hands back and on another. */
static unsigned long starts(chip k) {
    for (int pins = 0; pins < 256; pins++) {
        uint8_t lent[3][128];
        memset(lent, 0x5A, sizeof lent);
        fio_stepped r = fio_start((uint8_t)pins, lent[0]);
        started(r, lent[0], (uint8_t)pins, in_reset((uint8_t)pins), "a start");
        fio_stepped same = fio_step(r.control, lent[1], 0x00, (uint8_t)pins, 0);
        started(same, lent[1], (uint8_t)pins, r.control, "a start by a frame");
        expect(!memcmp(&same, &r, sizeof r) && !memcmp(lent[1], lent[0], 128), "the two starts", (unsigned long)pins);
        fio_stepped other = fio_step(k.control, lent[2], 0x00, (uint8_t)pins, 0);
        started(other, lent[2], (uint8_t)pins, k.control, "a start of a chip at work");
        if (pins > 2) refuses(r.control, lent[0], 0, (unsigned long)pins);
    }
    return 256;
}

/* ---- faults */

/* Both sides live, CLEAR 1, and three bytes in the FIFO, which side 1 writes if the direction is 0, else side 2. */
static chip working(int direction) {
    const uint8_t control3 = direction ? 0x50 : 0x40, offer = direction ? 0x23 : 0x13;
    const uint8_t frames[][3] = {
        {0x00, 0, 0}, {0x11, 0, 0}, {0x11, 0, 2}, {0x11, 9, 1}, {0x21, 0, 0},
        {0x11, 10, control3}, {offer, 0, 1}, {offer, 0, 2}, {offer, 0, 3},
    };
    chip k = no_chip();
    for (size_t i = 0; i < sizeof frames / 3; i++) {
        expect(step(&k, frames[i][0], frames[i][1], frames[i][2]).number == FIO_DONE, "a working chip", i);
    }
    expect(k.control.control3 == control3 && k.control.count == 3, "its direction and count", (unsigned long)direction);
    return k;
}

static const uint8_t steps[] = {0x11, 0x12, 0x13, 0x14, 0x15, 0x16, 0x21, 0x22, 0x23, 0x24, 0x25, 0x26};

static fio_session holding(fio_control c) {
    fio_session s = fio_session_start();
    s.control = c;
    s.present = 1;
    return s;
}

/* A call on a session that is Done: what it leaves, what it used, and its output, so many times one line. */
static void left(fio_fed r, fio_session s, size_t used, size_t lines, const char *line, unsigned long which) {
    int done = answers(r.answer, FIO_DONE, 0) && r.used == used && r.written == 9 * lines;
    expect(done && same_session(r.session, s), "a session's call", which);
    for (size_t i = 0; i < lines; i++) expect(!memcmp(printed + 9 * i, line, 9), "a session's line", which);
}

/* In a session the refusal is the line's: E1 for each of the twelve steps, and the record stays. */
static void refuses_lines(fio_control c, const uint8_t buffer[128], unsigned long which) {
    char input[12 * 7 + 1], line[10];
    uint8_t lent[128];
    memcpy(lent, buffer, 128);
    for (int i = 0; i < 12; i++) sprintf(input + 7 * i, "%02X0000\n", steps[i]);
    sprintf(line, "E10000%02X\n", c.count);
    fio_session s = holding(c), last = s;
    left(fed(s, lent, input, 84, 108), s, 84, 12, line, which);
    last.value = 0x110000, last.digits = 6;
    left(fed(last, lent, NULL, 0, 9), s, 0, 1, line, which);
    expect(!memcmp(lent, buffer, 128), "a session's buffer", which);
}

/* The memory of a burst, and some bytes behind it. */
static uint8_t memory[FIO_BURST_LIMIT + 1 + BEHIND];

/* A burst in, or out, of a chip where it is held. */
static fio_burst burst(chip *k, int out, int side, size_t length) {
    fio_burst r = out ? fio_burst_out(k->control, k->buffer, (uint8_t)side, memory, length)
                      : fio_burst_in(k->control, k->buffer, (uint8_t)side, memory, length);
    k->control = r.control;
    return r;
}

/* A burst that is answered before its first step leaves record, buffer and memory. */
static void no_burst(chip k, int out, int side, size_t length, uint8_t number, unsigned long which) {
    chip after = k;
    memset(memory, UNTOUCHED, sizeof memory);
    fio_burst r = burst(&after, out, side, length);
    expect(r.number == number && r.moved == 0, "no burst", which);
    expect(same_control(r.control, k.control) && !memcmp(after.buffer, k.buffer, 128), "all as it was", which);
    expect(all_are(memory, sizeof memory, UNTOUCHED), "the memory as it was", which);
}

/* Of a forbidden record each burst is refusal 1, too long a one too. */
static void refuses_bursts(fio_control c, const uint8_t buffer[128], unsigned long which) {
    chip k = {.control = c, .present = 1};
    memcpy(k.buffer, buffer, 128);
    for (int i = 0; i < 8; i++) no_burst(k, i % 2, 1 + i / 2 % 2, i < 4 ? 3 : FIO_BURST_LIMIT + 1, FIO_REFUSED_RECORD, which);
}

/* A frame's three bytes, or what is none, are answered so; record and buffer stay. */
static void refuses_bytes(fio_control c, const uint8_t buffer[128], const uint8_t bytes[3], fio_answer a, unsigned long which) {
    uint8_t lent[128];
    memcpy(lent, buffer, 128);
    fio_stepped r = fio_step(c, lent, bytes[0], bytes[1], bytes[2]);
    expect(answers(r.answer, a.number, a.value), "a refusal", which);
    expect(same_control(r.control, c) && !memcmp(lent, buffer, 128), "all as it was", which);
}

/* Each of the twelve steps is refused, and so are the looks if a flag is out of range; no frame is refusal 44 or 45 all the
 * same. No interrupt and no REQUEST is enabled, so a look at the lines is 00. */
static void refuses(fio_control c, const uint8_t buffer[128], int flag, unsigned long which) {
    static const uint8_t no_frames[][3] = {{0xFF, 0, 0}, {0x16, 1, 0}, {0x22, 0, 1}}, values[] = {0x41, 0x53, 0x55};
    uint8_t lent[128];
    memcpy(lent, buffer, 128);
    for (int i = 0; i < 12; i++) {
        refuses_bytes(c, buffer, (const uint8_t[]){steps[i], 0, 0}, (fio_answer){FIO_REFUSED_RECORD, 0}, which);
    }
    for (int i = 0; i < 3; i++) refuses_bytes(c, buffer, no_frames[i], (fio_answer){FIO_REFUSED_FRAME, values[i]}, which);
    uint8_t number = flag ? FIO_REFUSED_RECORD : FIO_BYTE;
    expect(answers(fio_lines(c), number, 0), "a look at the lines", which);
    expect(answers(fio_count(c), number, flag ? 0 : c.count), "a look at the count", which);
    if (!flag) refuses_lines(c, buffer, which);
    refuses_bursts(c, buffer, which);
    fio_stepped r = fio_step(c, lent, 0x00, 2, 0);
    expect(answers(r.answer, FIO_DONE, 0) && same_control(r.control, in_reset(2)), "a start replaces it", which);
    expect(all_are(lent, 128, 0), "the buffer of a start", which);
}

/* How a byte of the record is made wrong: to these values, by turning over these bits, or to these values as a flag. */
enum how { SET, TURN, FLAG };

typedef struct {
    size_t at;
    enum how how;
    size_t many;
    uint8_t values[7];
} fault;

/* Of a chip at work. */
static const fault faults[] = {
    {offsetof(fio_control, start), SET, 2, {128, 255}},
    {offsetof(fio_control, count), SET, 2, {129, 255}},
    {offsetof(fio_control, pins), SET, 2, {3, 255}},
    {offsetof(fio_control, control2), TURN, 6, {0x80, 0x40, 0x20, 0x10, 0x08, 0x04}},
    {offsetof(fio_control, control3), TURN, 4, {0x08, 0x04, 0x02, 0x01}},
    {offsetof(fio_control, control3), TURN, 1, {0x40}}, /* CLEAR 0 with count 3 */
    {offsetof(fio_control, two.control0), TURN, 2, {0x08, 0x04}},
    {offsetof(fio_control, two.control0), SET, 5, {0x81, 0x41, 0x21, 0x11, 0x03}}, /* Reset beside another bit */
};

/* Of a chip at work, for either side. */
static const fault faults_of_a_side[] = {
    {offsetof(fio_side, frozen), SET, 2, {129, 255}},
    {offsetof(fio_side, pointer), SET, 2, {16, 255}},
    {offsetof(fio_side, control1), TURN, 3, {0x80, 0x20, 0x10}},
    {offsetof(fio_side, ip), TURN, 1, {1}},
    {offsetof(fio_side, ie), TURN, 1, {1}},
    {offsetof(fio_side, ius), TURN, 1, {1}},
    {offsetof(fio_side, state1), FLAG, 4, {2, 3, 0x80, 0xFF}},
    {offsetof(fio_side, run), FLAG, 4, {2, 3, 0x80, 0xFF}},
    {offsetof(fio_side, waiting), FLAG, 4, {2, 3, 0x80, 0xFF}},
};

/* Of a chip in reset, where each is wrong for one reason alone. */
static const fault faults_in_reset[] = {
    {offsetof(fio_control, one.control0), TURN, 7, {0x80, 0x40, 0x20, 0x10, 0x08, 0x04, 0x02}}, /* Reset beside another bit */
    {offsetof(fio_control, two.control0), TURN, 1, {0x01}}, /* side 1 in reset, side 2 not */
    {offsetof(fio_control, control2), TURN, 2, {0x02, 0x01}}, /* side 1 in reset, Control 2 not 00 */
};

/* The faults of a table, each put in at `base` and an offset of its own. */
static unsigned long faulty_bytes(chip k, size_t base, const fault *table, size_t many) {
    unsigned long tried = 0;
    for (size_t i = 0; i < many; i++) {
        for (size_t v = 0; v < table[i].many; v++) {
            fio_control c = k.control;
            uint8_t *byte = (uint8_t *)&c + base + table[i].at;
            *byte = table[i].how == TURN ? *byte ^ table[i].values[v] : table[i].values[v];
            refuses(c, k.buffer, table[i].how == FLAG, base * 100 + ++tried);
        }
    }
    return tried;
}

static unsigned long faulty_records(chip k) {
    size_t of_a_side = sizeof faults_of_a_side / sizeof *faults_of_a_side;
    return faulty_bytes(k, 0, faults, sizeof faults / sizeof *faults)
        + faulty_bytes(k, offsetof(fio_control, one), faults_of_a_side, of_a_side)
        + faulty_bytes(k, offsetof(fio_control, two), faults_of_a_side, of_a_side);
}

static unsigned long faulty_in_reset(void) {
    chip k = {.control = in_reset(0), .present = 1};
    expect(step(&k, 0x16, 0, 0).number == FIO_DONE, "a chip in reset", 0);
    return faulty_bytes(k, 0, faults_in_reset, sizeof faults_in_reset / sizeof *faults_in_reset);
}

/* Refusal 1 that takes more than one byte. */
static unsigned long faulty_together(chip k, int direction) {
    fio_control c = k.control;
    *(direction ? &c.two.run : &c.one.run) = 1, c.count = 128; /* the writer's run flag on a full FIFO */
    refuses(c, k.buffer, 0, 1);
    c = k.control;
    *(direction ? &c.one.run : &c.two.run) = 1, c.count = 0; /* the reader's on an empty one */
    refuses(c, k.buffer, 0, 2);
    c = k.control;
    c.one.control0 = 1, c.control2 = 0; /* side 1 in reset, side 2 not, Control 2 00 */
    refuses(c, k.buffer, 0, 3);
    c = k.control;
    c.one.control0 = 1, c.two.control0 = 1; /* both in reset, Control 2 not 00 */
    refuses(c, k.buffer, 0, 4);
    return 4;
}

/* ---- lines */

/* The kinds, and whether they have a use for the address and for the data. */
static const struct {
    uint8_t kind, address, data;
} kinds[] = {
    {0x00, 1, 0},
    {0x11, 1, 1}, {0x12, 1, 0}, {0x13, 0, 1}, {0x14, 0, 0}, {0x15, 0, 0}, {0x16, 0, 0},
    {0x21, 1, 1}, {0x22, 1, 0}, {0x23, 0, 1}, {0x24, 0, 0}, {0x25, 0, 0}, {0x26, 0, 0},
};

/* What is wrong with six hex digits, by their value, or with a value above FFFFFF, whose kind is above FF. */
static fio_fault fault_of_value(uint32_t value) {
    for (size_t i = 0; i < sizeof kinds / sizeof *kinds; i++) {
        if (kinds[i].kind != value >> 16) continue;
        if (!kinds[i].address && (value & 0x00FF00)) return (fio_fault){FIO_UNUSED_BYTE, 3};
        if (!kinds[i].data && (value & 0x0000FF)) return (fio_fault){FIO_UNUSED_BYTE, 5};
        return (fio_fault){0, 0};
    }
    return (fio_fault){FIO_UNKNOWN_KIND, 1};
}

/* What is wrong with a line of which the first so many characters are digits, or else all of them. */
static fio_fault fault_of_shape(size_t length, size_t digits) {
    if (digits < 6 && digits < length) return (fio_fault){FIO_NOT_HEX, (uint8_t)(digits + 1)};
    if (length < 6) return (fio_fault){FIO_TOO_SHORT, (uint8_t)(length + 1)};
    return length > 6 ? (fio_fault){FIO_TOO_LONG, 7} : (fio_fault){0, 0};
}

static void has_fault(const uint8_t *line, size_t length, fio_fault f, unsigned long which) {
    expect(is_fault(fio_line_fault(line, length), f.refusal, f.column), "a line's fault", which);
}

/* Nine digits with every character at every column. The line is their first none to nine. */
static unsigned long with_a_character(const char *nine) {
    static const char digits[] = "0123456789ABCDEFabcdef";
    unsigned long tried = 0;
    for (size_t length = 0; length <= 9; length++) {
        for (int i = 0; i < 9 * 256; i++, tried++) {
            uint8_t line[9];
            char six[7] = "";
            memcpy(line, nine, 9);
            line[i / 256] = (uint8_t)(i % 256);
            memcpy(six, line, 6);
            int bad = memchr(digits, i % 256, 22) == NULL;
            fio_fault f = fault_of_shape(length, bad ? (size_t)(i / 256) : 9);
            if (f.refusal == 0) f = fault_of_value((uint32_t)strtoul(six, NULL, 16));
            has_fault(line, length, f, tried);
        }
    }
    return tried;
}

/* Bad characters at every two columns, or at one if they are the same. The first is told. */
static unsigned long with_bad_characters(void) {
    static const uint8_t bad[] = {0x00, '\n', '\r', ' ', '/', ':', '@', 'G', '`', 'g', 0x7F, 0x80, 0xB0, 0xC1, 0xE6, 0xFF};
    unsigned long tried = 0;
    for (size_t length = 1; length <= 9; length++) {
        for (size_t first = 0; first < length; first++) {
            for (size_t second = first; second < length; second++) {
                for (int i = 0; i < 256; i++, tried++) {
                    uint8_t line[] = "110000000";
                    line[second] = bad[i % 16], line[first] = bad[i / 16];
                    has_fault(line, length, fault_of_shape(length, first), tried);
                }
            }
        }
    }
    return tried;
}

/* Lines that are much too long, of digits but for one column. */
static unsigned long long_lines(void) {
    static const size_t lengths[] = {10, 255, 256, 262, 65535, 65536, 65542};
    static uint8_t line[65542];
    for (int i = 0; i < 7 * 10; i++) {
        memset(line, '1', sizeof line);
        line[i % 10] = 0xFF;
        has_fault(line, lengths[i / 10], fault_of_shape(lengths[i / 10], (size_t)(i % 10)), (unsigned long)i);
    }
    return 7 * 10;
}

/* Every answer's refusal and column. Only with E4 does its byte matter. */
static unsigned long refusals(void) {
    static const uint8_t numbers[] = {FIO_DONE, FIO_BYTE, FIO_FLOATING, FIO_WAITING, 0xE1, 0xE2, 0xE3, 0xE5};
    static const uint8_t known[] = {0, 0, 0, 0, 1, 2, 3, 5};
    for (int i = 0; i < 8 * 256; i++) {
        fio_answer a = {numbers[i / 256], (uint8_t)(i % 256)};
        expect(fio_refusal(a) == known[i / 256] && fio_column(a) == 0, "an answer's refusal", (unsigned long)i);
    }
    for (int i = 0; i < 5 * 7; i++) {
        fio_answer a = {0xE4, (uint8_t)(0x11 + i / 7 * 0x10 + i % 7)};
        expect(fio_refusal(a) == 41 + i / 7 && fio_column(a) == 1 + i % 7, "a line's refusal", (unsigned long)i);
    }
    return 8 * 256 + 5 * 7;
}

/* ---- sessions */

static void refuses_session(fio_session s, const uint8_t buffer[128], unsigned long which) {
    uint8_t lent[128];
    memcpy(lent, buffer, 128);
    for (int finish = 0; finish < 2; finish++) {
        fio_fed r = finish ? fed(s, lent, NULL, 0, 32) : fed(s, lent, "110000\n", 7, 32);
        expect(answers(r.answer, FIO_REFUSED_RECORD, 0) && r.used == 0 && r.written == 0, "a session's flag", which);
        expect(same_session(r.session, s) && !memcmp(lent, buffer, 128), "all as it was", which);
    }
}

static unsigned long faulty_sessions(chip k) {
    fio_session s;
    uint8_t *flags[] = {
        &s.fault, &s.present, &s.control.one.state1, &s.control.one.run, &s.control.one.waiting,
        &s.control.two.state1, &s.control.two.run, &s.control.two.waiting,
    };
    unsigned long tried = 0;
    for (int i = 0; i < 8; i++) {
        for (int v = 2; v < 256; v++) {
            s = holding(k.control);
            s.digits = 6; /* a finish has a line to answer */
            *flags[i] = (uint8_t)v;
            refuses_session(s, k.buffer, ++tried);
        }
    }
    return tried;
}

/* Four reads of side 1's Control 0, which is 02, in every room up to more than their lines take. A line is written whole, and
 * the feed stops before an LF that has no room. */
static unsigned long rooms(chip k) {
    static const char input[] = "120000\n120000\n120000\n120000\n", line[] = "01020003\n";
    for (size_t room = 0; room <= 40; room++) {
        size_t lines = room / 9 < 4 ? room / 9 : 4;
        uint8_t lent[128];
        memcpy(lent, k.buffer, 128);
        fio_session empty = holding(k.control), begun = empty;
        begun.value = 0x120000, begun.digits = 6;
        fio_session s = lines < 4 ? begun : empty;
        left(fed(empty, lent, input, 28, room), s, lines < 4 ? 7 * lines + 6 : 28, lines, line, room);
        left(fed(s, lent, input, 0, room), s, 0, 0, line, room);
        left(fed(empty, lent, NULL, 0, room), empty, 0, 0, line, room);
        int fits = room >= 9; /* then the line that waits is answered, by its LF or by the end */
        left(fed(begun, lent, "\n", 1, room), fits ? empty : begun, fits, fits, line, room);
        left(fed(begun, lent, NULL, 0, room), fits ? empty : begun, 0, fits, line, room);
        expect(!memcmp(lent, k.buffer, 128), "a read's buffer", room);
    }
    return 41;
}

/* The session that a further digit 0 leaves: of six digits or behind a fault it is a fault. */
static fio_session with_zero(fio_session s) {
    if (s.fault || s.digits >= 6) s.fault = 1;
    else s.value = s.value % 0x100000 * 16, s.digits++;
    return s;
}

/* What an LF prints: of the values tried, only 120000 is a frame, if it has six digits. */
static const char *line_of(fio_session s) {
    static char line[10];
    fio_fault f = fault_of_shape(s.fault ? s.digits + 1u : s.digits, s.digits);
    if (f.refusal == 0) f = fault_of_value(s.value);
    if (f.refusal == 0) return "01020003\n";
    sprintf(line, "E4%02X0003\n", (uint8_t)(f.refusal % 10 * 16 + f.column));
    return line;
}

/* Lines that no characters made: any number of digits beside any value. */
static unsigned long wild_lines(chip k) {
    static const uint32_t values[] = {0x112, 0x120000, 0x160100, 0xFFFFFF, 0x1000001, 0x1120000, 0xFFF12000, 0xFFFFFFFF};
    unsigned long tried = 0;
    for (; tried < 256 * 8 * 2; tried++) {
        uint8_t lent[128];
        memcpy(lent, k.buffer, 128);
        fio_session empty = holding(k.control), s = empty;
        s.digits = (uint8_t)(tried / 16), s.value = values[tried % 8], s.fault = tried / 8 % 2;
        int begun = s.fault || s.digits > 0;
        left(fed(s, lent, "\n", 1, 32), empty, 1, 1, line_of(s), tried);
        left(fed(s, lent, NULL, 0, 32), begun ? empty : s, 0, begun, line_of(s), tried);
        left(fed(s, lent, "0", 1, 32), with_zero(s), 1, 0, "", tried);
        left(fed(s, lent, "0\n", 2, 32), empty, 2, 1, line_of(with_zero(s)), tried);
        expect(!memcmp(lent, k.buffer, 128), "a read's buffer", tried);
    }
    return tried;
}

/* ---- bursts */

/* What a burst of a valid record answers: Done, or what comes before its first step. */
static uint8_t begins(fio_control c, int out, int side, size_t length) {
    int connected = side == 1 || ((c.control2 & 1) && (c.one.control0 & 0x08) == 0);
    int writer = c.control3 & 0x10 ? 2 : 1;
    if (side != 1 && side != 2) return FIO_REFUSED_FRAME;
    if (!connected || ((side == 1 ? c.one : c.two).control0 & 1)) return FIO_FLOATING;
    if (length > FIO_BURST_LIMIT) return FIO_REFUSED_LENGTH;
    return (side == writer) == !out ? FIO_DONE : FIO_REFUSED_ROLE;
}

/* A burst by single steps: the side's DMA frames while its REQUEST is active and memory remains. */
static size_t by_steps(chip *k, int out, int side, uint8_t *bytes, size_t length) {
    uint8_t request = side == 1 ? FIO_REQUEST_1 : FIO_REQUEST_2, kind = (uint8_t)(16 * side + (out ? 4 : 3));
    size_t moved = 0;
    for (; moved < length && (fio_lines(k->control).value & request); moved++) {
        fio_answer a = step(k, kind, 0, out ? 0 : bytes[moved]);
        expect(a.number == (out ? FIO_BYTE : FIO_DONE), "a single step", moved);
        if (out) bytes[moved] = a.value;
    }
    return moved;
}

/* The next number below `many`; the numbers are the same in every run. */
static unsigned draw(unsigned many) {
    static uint32_t drawn = 1;
    drawn = drawn * 1664525 + 1013904223;
    return (drawn >> 16) % many;
}

/* How often each answer came, and what was moved by each way and side. */
static struct {
    unsigned long answers[256], moved[4];
} seen;

/* A burst leaves what single steps leave, byte for byte, and says how many they were. */
static void beside_steps(chip k, int out, int side, size_t length, unsigned long which) {
    static uint8_t bytes[sizeof memory];
    for (size_t i = 0; i < sizeof memory; i++) bytes[i] = memory[i] = (uint8_t)draw(256);
    chip single = k;
    uint8_t number = begins(k.control, out, side, length);
    size_t moved = number == FIO_DONE ? by_steps(&single, out, side, bytes, length) : 0;
    fio_burst r = burst(&k, out, side, length);
    expect(r.number == number && r.moved == moved, "a burst's answer", which);
    expect(same_control(k.control, single.control) && !memcmp(k.buffer, single.buffer, 128), "a burst's record", which);
    expect(!memcmp(memory, bytes, sizeof memory), "a burst's memory", which);
    seen.answers[r.number]++;
    seen.moved[2 * out + side - 1] += moved;
}

/* A register's write, by its address on a Z-BUS side and by the pointer on a Non-Z-BUS side. */
static void write_register(chip *k, int side, unsigned number, unsigned data) {
    fio_control c = k->control;
    uint8_t kind = (uint8_t)(16 * side + 1), own = (side == 1 ? c.one : c.two).control0;
    int is_non_z = side == 1 ? c.pins == 2 : (c.one.control0 & 0x04) != 0;
    int is_shifted = (side == 1 ? c.pins == 0 : c.pins != 1) && !(own & 0x02); /* Z-BUS Low, RJA 0 */
    if (is_non_z) step(k, kind, 1, (uint8_t)number), step(k, kind, 1, (uint8_t)data);
    else step(k, kind, (uint8_t)(is_shifted ? 2 * number : number), (uint8_t)data);
}

/* A side as it comes: mostly out of reset and with its REQUEST enabled. */
static void some_side(chip *k, int side) {
    if (draw(12)) write_register(k, side, 0, 0);
    write_register(k, side, 0, draw(2) * 0x02 + (side == 1 ? (draw(12) ? draw(2) : draw(4)) * 0x04 : 0));
    if (side == 1) write_register(k, side, 9, draw(12) ? 1 : 0);
    write_register(k, side, 8, draw(130));                                  /* Count Compare */
    write_register(k, side, 13, draw(256));                                 /* Match */
    write_register(k, side, 14, draw(3) ? draw(256) : 0x00);                /* Mask */
    write_register(k, side, 1, draw(12) ? 0x03 + draw(4) * 0x04 : draw(256)); /* Control 1 */
}

/* A chip as it comes, by frames: a session's beginning, then bytes into the FIFO and out of it. */
static chip some_chip(void) {
    chip k = no_chip();
    step(&k, 0x00, (uint8_t)draw(3), 0);
    some_side(&k, 1);
    some_side(&k, 2);
    write_register(&k, 1, 10, draw(12) ? 0x40 + draw(2) * 0x10 : draw(256)); /* Control 3 */
    unsigned into = draw(5), writer = k.control.control3 & 0x10 ? 2 : 1;
    for (unsigned many = draw(200); many > 0; many--) {
        if (draw(4) < into) step(&k, (uint8_t)(16 * writer + 3), 0, (uint8_t)draw(256));
        else step(&k, (uint8_t)(16 * (3 - writer) + 4), 0, 0);
    }
    if (draw(3) == 0) write_register(&k, 1 + (int)draw(2), 1, 0x03 + draw(4) * 0x04); /* run afresh */
    return k;
}

/* Both ways on both sides of chips as they come. Each answer came, and each way moved bytes on each side. */
static unsigned long some_bursts(void) {
    unsigned long tried = 0;
    for (int i = 0; i < 2000; i++) {
        chip k = some_chip();
        const size_t lengths[] = {0, 1, draw(140), draw(140), draw(FIO_BURST_LIMIT), FIO_BURST_LIMIT, FIO_BURST_LIMIT + 1};
        for (int j = 0; j < 4; j++) beside_steps(k, j / 2, 1 + j % 2, lengths[draw(7)], ++tried);
    }
    static const uint8_t numbers[] = {FIO_DONE, FIO_FLOATING, FIO_REFUSED_LENGTH, FIO_REFUSED_ROLE};
    for (int i = 0; i < 4; i++) expect(seen.answers[numbers[i]] > 0, "an answer that never came", numbers[i]);
    for (int i = 0; i < 4; i++) expect(seen.moved[i] > 0, "a way and a side that moved nothing", (unsigned long)i);
    return tried;
}

/* The frames of document 01's session up to its first byte: both sides live, REQUEST enabled. */
static chip session_chip(int direction) {
    static const uint8_t frames[][3] = {
        {0x00, 0x00, 0}, {0x11, 0x00, 0}, {0x11, 0x00, 2}, {0x11, 0x09, 1}, {0x21, 0x00, 0},
        {0x21, 0x00, 2}, {0x11, 0x0A, 0x40}, {0x11, 0x01, 3}, {0x21, 0x01, 3},
    };
    chip k = no_chip();
    for (size_t i = 0; i < sizeof frames / 3; i++) step(&k, frames[i][0], frames[i][1], frames[i][2]);
    if (direction) step(&k, 0x11, 0x0A, 0x50);
    return k;
}

/* So many bytes are moved, and then the FIFO has so many. */
static void moves(chip *k, int out, int side, size_t length, size_t moved, uint8_t count) {
    fio_burst r = burst(k, out, side, length);
    expect(r.number == FIO_DONE && r.moved == moved && r.control.count == count, "bytes there and back", length);
}

/* What goes in by the writer comes out by the reader, and memory behind it is as it was. */
static void there_and_back(int direction) {
    chip k = session_chip(direction);
    int writer = 1 + direction, reader = 2 - direction;
    moves(&k, 1, reader, 200, 0, 0); /* nothing to give: Done all the same */
    for (int i = 0; i < 200; i++) memory[i] = (uint8_t)(7 * i + 3);
    moves(&k, 0, writer, 5, 5, 5);
    moves(&k, 0, writer, 0, 0, 5);
    moves(&k, 0, writer, 200, 123, 128);
    moves(&k, 0, writer, 200, 0, 128); /* no room */
    memset(memory, UNTOUCHED, sizeof memory);
    moves(&k, 1, reader, 3, 3, 125);
    for (int i = 0; i < 3; i++) expect(memory[i] == 7 * i + 3, "the first bytes", (unsigned long)i);
    expect(all_are(memory + 3, sizeof memory - 3, UNTOUCHED), "the memory behind three", 0);
    moves(&k, 1, reader, FIO_BURST_LIMIT, 125, 0);
    for (int i = 0; i < 2; i++) expect(memory[i] == (uint8_t)(7 * (i + 3) + 3), "the fourth and fifth", (unsigned long)i);
    for (int i = 0; i < 123; i++) expect(memory[2 + i] == (uint8_t)(7 * i + 3), "the further bytes", (unsigned long)i);
    expect(all_are(memory + 125, sizeof memory - 125, UNTOUCHED), "the memory behind", 0);
}

/* Every side's number, with and without a flag above 1, on a chip at work and on one in reset: 4, 1, Floating, 6, 7. */
static unsigned long orders(int direction) {
    static const size_t lengths[] = {0, 3, FIO_BURST_LIMIT, FIO_BURST_LIMIT + 1};
    unsigned long tried = 0;
    for (int i = 0; i < 256 * 32; i++) {
        chip k = session_chip(direction);
        int side = i / 32, out = i / 16 % 2, flag = i / 8 % 2;
        size_t length = lengths[i % 4];
        if (i / 4 % 2) k.control = in_reset(0);
        uint8_t number = begins(k.control, out, side, length);
        if (flag) k.control.two.waiting = 2;
        if (flag && number != FIO_REFUSED_FRAME) number = FIO_REFUSED_RECORD;
        if (number != FIO_DONE) no_burst(k, out, side, length, number, (unsigned long)i), tried++;
    }
    return tried;
}

/* ---- three bytes */

/* Three bytes and the line of their digits, in capitals or not: the same fault, or none. */
static void of_bytes(chip k, uint8_t kind, uint8_t address, uint8_t data, unsigned long which) {
    uint8_t lent[128];
    char line[2][7];
    fio_fault f = fault_of_value((uint32_t)(kind * 0x10000 + address * 0x100 + data));
    memcpy(lent, k.buffer, 128);
    fio_stepped r = fio_step(k.control, lent, kind, address, data);
    int framed = f.refusal == 0;
    expect((r.answer.number == FIO_REFUSED_FRAME) == !framed, "a frame or none", which);
    expect((r.answer.number == FIO_REFUSED_PINS) == (framed && kind == 0 && address > 2), "a start", which);
    if (r.answer.number >= 0xE0) {
        expect(same_control(r.control, k.control) && !memcmp(lent, k.buffer, 128), "all as it was", which);
        expect(r.answer.value == (framed ? 0 : f.refusal % 10 * 16 + f.column), "what is wrong", which);
        expect(framed || is_fault(f, fio_refusal(r.answer), fio_column(r.answer)), "its refusal and column", which);
    }
    sprintf(line[0], "%02X%02X%02X", kind, address, data);
    sprintf(line[1], "%02x%02x%02x", kind, address, data);
    for (int i = 0; i < 2; i++) has_fault((const uint8_t *)line[i], 6, f, which);
}

static unsigned long three_bytes(chip k) {
    static const uint8_t bytes[] = {0x00, 0x01, 0x10, 0x80, 0xFF};
    unsigned long tried = 0;
    for (; tried < 256 * 25; tried++) of_bytes(k, (uint8_t)(tried / 25), bytes[tried / 5 % 5], bytes[tried % 5], tried);
    return tried;
}

int main(int argc, char **argv) {
    unsigned long lines = 0;
    for (int i = 1; i < argc; i++) lines += replay(argv[i]);
    printf("%d sessions, %lu lines: by frames, and by feeding in 15 ways\n", argc - 1, lines);
    unsigned long records = faulty_in_reset(), sessions = 0;
    for (int direction = 0; direction < 2; direction++) {
        chip k = working(direction);
        records += faulty_records(k) + faulty_together(k, direction);
        sessions += faulty_sessions(k);
    }
    chip k = working(0);
    printf("%lu starts, each by a frame too\n", starts(k));
    printf("%lu records with a fault, 12 steps of each, by frames and by feeding, bursts, no frame, a look and a start\n", records);
    printf("%lu sessions with a flag above 1, fed and finished\n", sessions);
    printf("%lu sizes of room, and %lu lines with any digits and value\n", rooms(k), wild_lines(k));
    printf("%lu triples of bytes, each as a line too\n", three_bytes(k));
    unsigned long characters = with_a_character("11aF5cD90") + with_a_character("160000000");
    unsigned long bad = with_bad_characters(), too_long = long_lines();
    printf("%lu lines with any character, %lu with bad ones, and %lu much too long\n", characters, bad, too_long);
    printf("%lu answers, their refusals and columns\n", refusals());
    there_and_back(0);
    there_and_back(1);
    unsigned long bursts = some_bursts(), others = orders(0) + orders(1);
    unsigned long moved = seen.moved[0] + seen.moved[1] + seen.moved[2] + seen.moved[3];
    printf("%lu bursts beside single steps, %lu bytes, and %lu that don't begin\n", bursts, moved, others);
    printf("%lu wrong\n", failures);
    return failures != 0;
}
