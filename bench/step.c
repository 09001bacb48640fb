/* A host that steps: it does in C what fiobench does, finds the lines and their digits itself, and has a chip that it steps frame
 * by frame. */
#include "fio.h"
#include "pieces.h"

#include <string.h>

enum { DIGITS = 6, NO_DIGIT = 0xFF };

static uint8_t digit[256]; /* of a hex digit its value, of any other character NO_DIGIT */
static char hex[256][2];   /* of a byte its two digits */

static void fill_tables(void) {
    static const char capital[] = "0123456789ABCDEF", small[] = "0123456789abcdef";
    memset(digit, NO_DIGIT, sizeof digit);
    for (int i = 0; i < 16; i++) digit[(uint8_t)capital[i]] = digit[(uint8_t)small[i]] = (uint8_t)i;
    for (int i = 0; i < 256; i++) {
        hex[i][0] = capital[i / 16];
        hex[i][1] = capital[i % 16];
    }
}

/* A chip where it is held. Before the first start its record is that of a refused one, on which every step is refusal 1. */
typedef struct {
    fio_control control;
    uint8_t buffer[128];
    int present;
} chip;

static fio_answer step_chip(chip *k, uint8_t kind, uint8_t address, uint8_t data) {
    fio_stepped r;
    if (kind == 0x00 && data == 0x00) {
        r = fio_start(address, k->buffer);
        if (r.answer.number != FIO_DONE) return r.answer; /* the chip stays */
        k->present = 1;
    } else {
        r = fio_step(k->control, k->buffer, kind, address, data);
        if (!k->present && r.answer.number == FIO_REFUSED_RECORD) r.answer.number = FIO_REFUSED_NO_CHIP;
    }
    k->control = r.control;
    return r.answer;
}

static uint8_t *report(const chip *k, fio_answer answer, uint8_t *out) {
    memcpy(out, hex[answer.number], 2);
    memcpy(out + 2, hex[answer.value], 2);
    memcpy(out + 4, hex[fio_lines(k->control).value], 2);
    memcpy(out + 6, hex[fio_count(k->control).value], 2);
    out[8] = '\n';
    return out + FIO_REPORT;
}

/* Answers each line that ends before `end`, and gives back where the line behind them begins. */
static const uint8_t *answer_lines(chip *k, const uint8_t *line, const uint8_t *end, uint8_t **out) {
    for (;;) {
        if (end - line > DIGITS && line[DIGITS] == '\n') {
            uint8_t a = digit[line[0]], b = digit[line[1]], c = digit[line[2]];
            uint8_t d = digit[line[3]], e = digit[line[4]], f = digit[line[5]];
            if ((a | b | c | d | e | f) != NO_DIGIT) {
                fio_answer answer = step_chip(k, (uint8_t)(a << 4 | b), (uint8_t)(c << 4 | d), (uint8_t)(e << 4 | f));
                *out = report(k, answer, *out);
                line += DIGITS + 1;
                continue;
            }
        }
        const uint8_t *lf = memchr(line, '\n', (size_t)(end - line));
        if (lf == NULL) return line;
        fio_fault fault = fio_line_fault(line, (size_t)(lf - line));
        fio_answer answer = {FIO_REFUSED_FRAME, (uint8_t)((fault.refusal - 40) << 4 | fault.column)};
        *out = report(k, answer, *out);
        line = lf + 1;
    }
}

int main(void) {
    /* A line that a piece leaves open waits before the next piece. Behind seven characters nothing changes its fault. */
    enum { HELD = DIGITS + 1 };
    static uint8_t input[HELD + PIECE], output[FIO_REPORT * sizeof input];
    static chip k;
    size_t held = 0, length;
    k.control = fio_start(0xFF, k.buffer).control;
    fill_tables();
    do {
        length = get(input + held);
        uint8_t *end = input + held + length, *out = output;
        if (length == 0 && held > 0) *end++ = '\n'; /* a last line without LF is answered as one with it */
        const uint8_t *open = answer_lines(&k, input, end, &out);
        held = (size_t)(end - open) < HELD ? (size_t)(end - open) : HELD;
        memmove(input, open, held);
        put(output, (size_t)(out - output));
    } while (length > 0);
    return 0;
}
