/* Standard input in pieces, and standard output, for the hosts of bench/run. */
#include <stdint.h>
#include <stdio.h>
#include <stdlib.h>
#include <unistd.h>

enum { PIECE = 65536, ROOM = 98304 };

static size_t get(uint8_t *input) {
    ssize_t length = read(STDIN_FILENO, input, PIECE);
    if (length < 0) {
        perror("standard input");
        exit(1);
    }
    return (size_t)length;
}

static void put(const uint8_t *output, size_t length) {
    while (length > 0) {
        ssize_t written = write(STDOUT_FILENO, output, length);
        if (written < 0) {
            perror("standard output");
            exit(1);
        }
        output += written;
        length -= (size_t)written;
    }
}
