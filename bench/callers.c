/* Asks the library of one file, and prints the verdict as the programs do: callers card|mask|payroll whole|records|BYTES FILE, where BYTES is a chunk's size.
   The file is mapped, so that what is counted is the library, and of `records` the search for the line ends. */
#define _POSIX_C_SOURCE 200809L
#include "lossivurn.h"
#include <fcntl.h>
#include <inttypes.h>
#include <stdio.h>
#include <stdlib.h>
#include <string.h>
#include <sys/mman.h>
#include <sys/stat.h>

static const uint8_t *file;
static size_t length;
static uint64_t row[LOSSIVURN_CARD_ROW];

static void map(const char *name) {
    static const uint8_t nothing[1];
    struct stat found;
    int fd = open(name, O_RDONLY);
    if (fd < 0 || fstat(fd, &found)) exit(2);
    length = (size_t)found.st_size;
    file = length ? mmap(0, length, PROT_READ, MAP_PRIVATE, fd, 0) : nothing;
    if (file == MAP_FAILED) exit(2);
}

/* Calls for each record of a file whose line ends are CR LF, and answers where the rest begins. */
static size_t each_record(void (*feed)(uint64_t *, const void *, size_t), uint64_t *state) {
    size_t at = 0;
    for (const uint8_t *lf; at < length && (lf = memchr(file + at, '\n', length - at)); at = (size_t)(lf - file) + 1) feed(state, file + at, (size_t)(lf - file) - 1 - at);
    return at;
}

static void card(const char *way) {
    if (!strcmp(way, "whole")) {
        lossivurn_card_check(2, file, length, row);
    } else if (!strcmp(way, "records")) {
        uint64_t state[LOSSIVURN_CARD_STATE];
        lossivurn_card_open(2, state);
        each_record(lossivurn_card_feed, state);
        lossivurn_card_close(state);
        lossivurn_card_answer(state, row);
    } else {
        lossivurn_card_stream s;
        size_t step = strtoul(way, 0, 10);
        lossivurn_card_stream_open(2, s.state, &s.waiting, s.held);
        for (size_t at = 0; at < length; at += step) lossivurn_card_stream_take(s.state, &s.waiting, s.held, file + at, length - at < step ? length - at : step);
        lossivurn_card_stream_end(s.state, &s.waiting, s.held);
        lossivurn_card_stream_answer(s.state, s.waiting, s.held, row);
    }
}

static void payroll(const char *way) {
    if (!strcmp(way, "whole")) {
        lossivurn_payroll_check(file, length, row);
    } else if (!strcmp(way, "records")) {
        uint64_t state[LOSSIVURN_PAYROLL_STATE];
        lossivurn_payroll_open(state);
        size_t rest = each_record(lossivurn_payroll_feed, state);
        lossivurn_payroll_close(state, file + rest, length - rest);
        lossivurn_payroll_answer(state, row);
    } else {
        lossivurn_payroll_stream s;
        size_t step = strtoul(way, 0, 10);
        lossivurn_payroll_stream_open(s.state, &s.waiting, s.held);
        for (size_t at = 0; at < length; at += step) lossivurn_payroll_stream_take(s.state, &s.waiting, s.held, file + at, length - at < step ? length - at : step);
        lossivurn_payroll_stream_end(s.state, &s.waiting, s.held);
        lossivurn_payroll_stream_answer(s.state, s.waiting, s.held, row);
    }
}

static void mask(void) {
    uint8_t *out = malloc(length + 1);
    if (!out) exit(2);
    lossivurn_card_mask(2, file, length, out, length, row);
    free(out);
}

static void print(const char *const *names, const int *places, int count) {
    if (row[LOSSIVURN_NUMBER]) {
        printf("REFUSED %" PRIu64 " RECORD %" PRIu64 " COLUMN %" PRIu64 "\n", row[0], row[1], row[2]);
        return;
    }
    printf("ACCEPTED\n");
    for (int i = 0; i < count; i++) printf("%s %" PRIu64 "\n", names[i], row[places[i]]);
}

int main(int count, char **words) {
    static const char *const card_names[] = {"RECORDS", "BATCHES", "FORECAST SALES", "FORECAST GROSS", "FORECAST DISCOUNT", "FORECAST NET", "SETTLED SALES", "SETTLED GROSS", "SETTLED DISCOUNT", "SETTLED NET"};
    static const int card_places[] = {5, 6, 7, 8, 9, 10, 11, 12, 13, 14};
    static const char *const payroll_names[] = {"RECORDS", "BATCHES", "PAYMENTS", "AMOUNT"};
    static const int payroll_places[] = {3, 4, 5, 6};
    if (count != 4) {
        fprintf(stderr, "usage: callers card|mask|payroll whole|records|BYTES FILE\n");
        return 2;
    }
    map(words[3]);
    if (!strcmp(words[1], "payroll")) {
        payroll(words[2]);
        print(payroll_names, payroll_places, 4);
    } else {
        if (strcmp(words[1], "mask")) card(words[2]); else mask();
        print(card_names, card_places, 10);
    }
    return 0;
}
