/* stack FRAMES: replays a file of frames through the library for hosts, each call on a stack of its own that was filled with one byte, and prints the
 * most that a call wrote of it. Compiled so that what is handed over stands above the stack pointer before the call (-maccumulate-outgoing-args). */
#include <stdio.h>
#include <stdlib.h>
#include <string.h>
#include <ucontext.h>

#include "fio.h"

enum { STACK = 1 << 14 };

static uint8_t stack[STACK];
static uint8_t *top; /* the stack pointer before a call */

/* What the calls are given and give back: a chip that is stepped, and a session that is fed. */
static char line[64];
static uint8_t report[FIO_REPORT], stepped[128], held[128];
static size_t length;
static unsigned frame;
static fio_stepped record;
static fio_fed fed;
static fio_answer seen;

#define BEFORE_CALL() __asm__ volatile("mov %%rsp, %0" : "=m"(top) : : "memory")

static void step(void)
{
    BEFORE_CALL();
    record = fio_step(record.control, stepped, (uint8_t)(frame >> 16), (uint8_t)(frame >> 8), (uint8_t)frame);
}

static void lines(void)
{
    BEFORE_CALL();
    seen = fio_lines(record.control);
}

static void count(void)
{
    BEFORE_CALL();
    seen = fio_count(record.control);
}

static void feed(void)
{
    BEFORE_CALL();
    fed = fio_session_feed(fed.session, held, (const uint8_t *)line, length, report, FIO_REPORT);
}

/* Of each: the bytes that the caller hands over on the stack, a record by value, and the most that a call wrote below them. */
static struct {
    const char *name;
    void (*call)(void);
    size_t handed, most;
} calls[] = {
    {"fio_lines", lines, sizeof(fio_control), 0},
    {"fio_count", count, sizeof(fio_control), 0},
    {"fio_step", step, sizeof(fio_control), 0},
    {"fio_session_feed, a line", feed, sizeof(fio_session), 0},
};
enum { CALLS = sizeof calls / sizeof *calls };

/* Makes a call on the stack, filled with one byte. */
static void on_stack(void (*call)(void), uint8_t fill)
{
    static ucontext_t here, there;
    memset(stack, fill, STACK);
    getcontext(&there);
    there.uc_stack.ss_sp = stack;
    there.uc_stack.ss_size = STACK;
    there.uc_link = &here;
    makecontext(&there, call, 0);
    swapcontext(&here, &there);
}

/* Keeps how far below the top the lowest byte is that no longer holds the fill. */
static void measure(int which, uint8_t fill)
{
    size_t depth, lowest = 0;
    on_stack(calls[which].call, fill);
    while (stack + lowest < top && stack[lowest] == fill)
        lowest++;
    if (lowest == 0) {
        fprintf(stderr, "stack: %s went past the end of its stack\n", calls[which].name);
        exit(1);
    }
    depth = (size_t)(top - stack) - lowest;
    if (depth > calls[which].most)
        calls[which].most = depth;
}

static size_t replay(const char *name, uint8_t fill)
{
    size_t lines_read = 0;
    FILE *file = fopen(name, "rb");
    if (!file) {
        perror(name);
        exit(1);
    }
    fed.session = fio_session_start();
    while (fgets(line, sizeof line, file)) {
        length = strlen(line);
        frame = (unsigned)strtoul(line, NULL, 16);
        for (int i = 0; i < CALLS; i++)
            measure(i, fill);
        lines_read++;
    }
    fclose(file);
    return lines_read;
}

int main(int arguments, char **argument)
{
    if (arguments != 2) {
        fputs("stack FRAMES\n", stderr);
        return 1;
    }
    /* A byte that is written with what it held isn't seen: another fill sees it. */
    size_t lines_read = replay(argument[1], 0xA5);
    replay(argument[1], 0x5A);
    printf("bytes of a record handed over on the stack, and the most that a call wrote below them, of %zu lines:\n", lines_read);
    for (int i = 0; i < CALLS; i++)
        printf("  %7zu %7zu  %s\n", (calls[i].handed + 7) / 8 * 8, calls[i].most, calls[i].name);
    return 0;
}
