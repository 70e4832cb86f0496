/* Runs stored cases through the library as C calls it, and prints the lines that the test programs print of them (tests/callers compares the two).

       callers QUESTION WAY FILE     QUESTION: card, fed, mask, payroll, field, read, write1, write2, convert, of_file
                                     WAY: whole, records, or how many bytes a chunk has; of an output, hash or hex
       callers threads FILE          two threads at once, each over all cases of card files in all ways, give the rows that one gives
       callers hostile ROUNDS        made-up states are taken by every call, and nothing is written beside them; zeros alone are refused by 1 */
#define _POSIX_C_SOURCE 200809L
#include "lossivurn.h"
#include <inttypes.h>
#include <pthread.h>
#include <stdio.h>
#include <stdlib.h>
#include <string.h>

enum { LARGEST_FILE = 4 << 20, LARGEST_OUTPUT = 1 << 20 };

/* The length that stands for a close. */
#define CLOSE UINT32_MAX

static uint8_t cases[LARGEST_FILE], nothing[1];
static size_t size;

static void fail(const char *what) {
    fprintf(stderr, "callers: %s\n", what);
    exit(2);
}

static void load(const char *name) {
    FILE *file = fopen(name, "rb");
    if (!file) fail(name);
    size = fread(cases, 1, sizeof cases, file);
    if (size == sizeof cases || ferror(file)) fail("a file of cases is too large, or cannot be read");
    fclose(file);
}

/* ---- A place in the cases -------------------------------------------------------------------------------------------------------------------- */

typedef struct { size_t at; } cursor;

static uint64_t number(cursor *c, int bytes) {
    uint64_t n = 0;
    for (; bytes > 0; bytes--) {
        if (c->at >= size) fail("a case is cut short");
        n = n << 8 | cases[c->at++];
    }
    return n;
}

/* So many bytes; never NULL. */
static const uint8_t *part(cursor *c, size_t length) {
    if (length > size - c->at) fail("a case is cut short");
    c->at += length;
    return length ? cases + c->at - length : nothing;
}

/* ---- Lines ----------------------------------------------------------------------------------------------------------------------------------- */

static void print_refusal(const uint64_t *row) { printf("R %" PRIu64 " %" PRIu64 " %" PRIu64, row[0], row[1], row[2]); }

static void print_numbers(const uint64_t *row, int from, int to) {
    for (int i = from; i < to; i++) printf(" %" PRIu64, row[i]);
}

static void print_card(const uint64_t *row) {
    if (row[LOSSIVURN_NUMBER]) { print_refusal(row); return; }
    if (!row[LOSSIVURN_CARD_ACCEPTED]) { printf("-"); return; }
    printf("A %08" PRIu64 " %06" PRIu64, row[LOSSIVURN_CARD_DATE], row[LOSSIVURN_CARD_MOVEMENT]);
    print_numbers(row, LOSSIVURN_CARD_RECORDS, LOSSIVURN_CARD_ACCEPTED);
}

static void print_payroll(const uint64_t *row) {
    if (row[LOSSIVURN_NUMBER]) { print_refusal(row); return; }
    printf(row[LOSSIVURN_PAYROLL_ACCEPTED] ? "A" : "-");
    if (row[LOSSIVURN_PAYROLL_ACCEPTED]) print_numbers(row, LOSSIVURN_PAYROLL_RECORDS, LOSSIVURN_PAYROLL_ACCEPTED);
}

static void print_sheet(const uint64_t *row) {
    if (row[LOSSIVURN_NUMBER]) { print_refusal(row); return; }
    printf("A %" PRIu64 " %" PRIu64 " %08" PRIu64 " %06" PRIu64, row[LOSSIVURN_SHEET_VERSION], row[LOSSIVURN_SHEET_EDITION], row[LOSSIVURN_SHEET_DATE], row[LOSSIVURN_SHEET_MOVEMENT]);
    print_numbers(row, LOSSIVURN_SHEET_BATCHES, row[LOSSIVURN_SHEET_VERSION] == 1 ? LOSSIVURN_SHEET_SPLIT : LOSSIVURN_SHEET_ROW);
}

static void print_written(const uint64_t *row) {
    if (row[LOSSIVURN_NUMBER]) print_refusal(row); else printf("A");
}

static uint32_t hash(const uint8_t *bytes, size_t length) {
    uint32_t h = 0;
    for (size_t i = 0; i < length; i++) h = h * 31 + bytes[i];
    return h;
}

static void print_output(const uint8_t *out, size_t room, const char *told) {
    if (!strcmp(told, "hash")) { printf(" %" PRIu32, hash(out, room)); return; }
    printf(" [");
    for (size_t i = 0; i < room; i++) printf("%02x", out[i]);
    printf("]");
}

/* An output as every case finds it. */
static uint8_t *output(size_t room) {
    static uint8_t out[LARGEST_OUTPUT];
    if (room > sizeof out) fail("an output is too long");
    for (size_t i = 0; i < room; i++) out[i] = (uint8_t)(i * 7 + 3);
    return out;
}

/* ---- Files in three ways --------------------------------------------------------------------------------------------------------------------- */

/* Whether each LF has a CR right before it; behind the last one there may be a rest. */
static int has_line_ends(const uint8_t *file, size_t length) {
    for (size_t i = 0; i < length; i++)
        if (file[i] == '\n' && (i == 0 || file[i - 1] != '\r')) return 0;
    return 1;
}

static size_t rest_of(const uint8_t *file, size_t length) {
    size_t n = 0;
    while (n < length && file[length - n - 1] != '\n') n++;
    return n;
}

static unsigned fed, asked;

static void card_by_records(uint64_t edition, const uint8_t *file, size_t length, uint64_t *row) {
    uint64_t state[LOSSIVURN_CARD_STATE];
    lossivurn_card_open(edition, state);
    for (size_t at = 0; at < length;) {
        size_t end = at;
        while (file[end] != '\n') end++;
        lossivurn_card_feed(state, file + at, end - 1 - at);
        at = end + 1;
    }
    lossivurn_card_close(state);
    lossivurn_card_answer(state, row);
}

static void card_by_chunks(uint64_t edition, const uint8_t *file, size_t length, size_t step, uint64_t *row) {
    lossivurn_card_stream s;
    lossivurn_card_stream_open(edition, s.state, &s.waiting, s.held);
    for (size_t at = 0; at < length; at += step) {
        lossivurn_card_stream_take(s.state, &s.waiting, s.held, file + at, length - at < step ? length - at : step);
        lossivurn_card_stream_take(s.state, &s.waiting, s.held, nothing, 0);
    }
    lossivurn_card_stream_end(s.state, &s.waiting, s.held);
    lossivurn_card_stream_answer(s.state, s.waiting, s.held, row);
}

/* A file that is no records with line ends cannot be given record by record, and is read whole. */
static void card_row(const char *way, uint64_t edition, const uint8_t *file, size_t length, uint64_t *row) {
    asked++;
    if (!strcmp(way, "whole")) lossivurn_card_check(edition, file, length, row);
    else if (strcmp(way, "records")) card_by_chunks(edition, file, length, strtoul(way, 0, 10), row);
    else if (has_line_ends(file, length) && rest_of(file, length) == 0) { fed++; card_by_records(edition, file, length, row); }
    else lossivurn_card_check(edition, file, length, row);
}

static void payroll_by_records(const uint8_t *file, size_t length, uint64_t *row) {
    uint64_t state[LOSSIVURN_PAYROLL_STATE];
    size_t rest = rest_of(file, length);
    lossivurn_payroll_open(state);
    for (size_t at = 0; at < length - rest;) {
        size_t end = at;
        while (file[end] != '\n') end++;
        lossivurn_payroll_feed(state, file + at, end - 1 - at);
        at = end + 1;
    }
    lossivurn_payroll_close(state, file + length - rest, rest);
    lossivurn_payroll_answer(state, row);
}

static void payroll_by_chunks(const uint8_t *file, size_t length, size_t step, uint64_t *row) {
    lossivurn_payroll_stream s;
    lossivurn_payroll_stream_open(s.state, &s.waiting, s.held);
    for (size_t at = 0; at < length; at += step) {
        lossivurn_payroll_stream_take(s.state, &s.waiting, s.held, file + at, length - at < step ? length - at : step);
        lossivurn_payroll_stream_take(s.state, &s.waiting, s.held, nothing, 0);
    }
    lossivurn_payroll_stream_end(s.state, &s.waiting, s.held);
    lossivurn_payroll_stream_answer(s.state, s.waiting, s.held, row);
}

static void payroll_row(const char *way, const uint8_t *file, size_t length, uint64_t *row) {
    asked++;
    if (!strcmp(way, "whole")) lossivurn_payroll_check(file, length, row);
    else if (strcmp(way, "records")) payroll_by_chunks(file, length, strtoul(way, 0, 10), row);
    else if (has_line_ends(file, length)) { fed++; payroll_by_records(file, length, row); }
    else lossivurn_payroll_check(file, length, row);
}

/* ---- The line of a case, by its question ----------------------------------------------------------------------------------------------------- */

static void card(cursor *c, const char *way) {
    uint64_t row[LOSSIVURN_CARD_ROW], edition = number(c, 1), length = number(c, 4);
    card_row(way, edition, part(c, length), length, row);
    print_card(row);
}

static void fed_calls(cursor *c) {
    uint64_t state[LOSSIVURN_CARD_STATE], row[LOSSIVURN_CARD_ROW], edition = number(c, 1), length = number(c, 4);
    size_t begin = c->at, end = begin + length;
    lossivurn_card_open(edition, state);
    while (c->at < end) {
        if (c->at != begin) printf(";");
        uint64_t call = number(c, 4);
        if (call == CLOSE) lossivurn_card_close(state);
        else lossivurn_card_feed(state, part(c, call), call);
        lossivurn_card_answer(state, row);
        print_card(row);
    }
}

/* A question of a card file that writes: masking, or its day sheet. */
static void written(cursor *c, const char *told, void (*ask)(uint64_t, const void *, size_t, void *, size_t, uint64_t *)) {
    uint64_t row[LOSSIVURN_CARD_ROW], edition = number(c, 1), room = number(c, 4), length = number(c, 4);
    uint8_t *out = output(room);
    ask(edition, part(c, length), length, out, room, row);
    print_card(row);
    print_output(out, room, told);
}

static void payroll(cursor *c, const char *way) {
    uint64_t row[LOSSIVURN_PAYROLL_ROW], length = number(c, 4);
    payroll_row(way, part(c, length), length, row);
    print_payroll(row);
}

static void field(cursor *c) {
    uint64_t row[LOSSIVURN_FIELD_ROW], wanted = number(c, 4), length = number(c, 4);
    const uint8_t *record = part(c, length);
    lossivurn_sale_field(record, length, wanted, row);
    if (row[LOSSIVURN_NUMBER]) print_refusal(row);
    else printf("P %" PRIu64 " %" PRIu32, row[LOSSIVURN_FIELD_LENGTH], hash(record + row[LOSSIVURN_FIELD_PLACE], row[LOSSIVURN_FIELD_LENGTH]));
}

static void sheet_read(cursor *c) {
    uint64_t row[LOSSIVURN_SHEET_ROW], length = number(c, 4);
    lossivurn_sheet_read(part(c, length), length, row);
    print_sheet(row);
}

static void sheet_write(cursor *c, int version, const char *told) {
    uint64_t numbers[LOSSIVURN_SHEET_2_NUMBERS], row[LOSSIVURN_WRITTEN_ROW], room = number(c, 4);
    uint8_t *out = output(room);
    for (int i = 0; i < (version == 1 ? LOSSIVURN_SHEET_1_NUMBERS : LOSSIVURN_SHEET_2_NUMBERS); i++) numbers[i] = number(c, 8);
    if (version == 1) lossivurn_sheet_write_1(numbers, out, room, row);
    else lossivurn_sheet_write_2(numbers, out, room, row);
    print_written(row);
    print_output(out, room, told);
}

static void sheet_convert(cursor *c, const char *told) {
    uint64_t row[LOSSIVURN_WRITTEN_ROW], room = number(c, 4), length = number(c, 4);
    uint8_t *out = output(room);
    lossivurn_sheet_convert(part(c, length), length, out, room, row);
    print_written(row);
    print_output(out, room, told);
}

static void print_case(const char *question, const char *way, cursor *c) {
    if (!strcmp(question, "card")) card(c, way);
    else if (!strcmp(question, "fed")) fed_calls(c);
    else if (!strcmp(question, "mask")) written(c, way, lossivurn_card_mask);
    else if (!strcmp(question, "payroll")) payroll(c, way);
    else if (!strcmp(question, "field")) field(c);
    else if (!strcmp(question, "read")) sheet_read(c);
    else if (!strcmp(question, "write1")) sheet_write(c, 1, way);
    else if (!strcmp(question, "write2")) sheet_write(c, 2, way);
    else if (!strcmp(question, "convert")) sheet_convert(c, way);
    else if (!strcmp(question, "of_file")) written(c, way, lossivurn_card_sheet);
    else fail("no such question");
    printf("\n");
}

/* ---- Two threads ----------------------------------------------------------------------------------------------------------------------------- */

/* The hash of all rows of all card files, in all ways. */
static void *rows_of_all(void *hashed) {
    uint32_t h = 0;
    for (cursor c = {0}; c.at < size;) {
        uint64_t row[LOSSIVURN_CARD_ROW], edition = number(&c, 1), length = number(&c, 4);
        const uint8_t *file = part(&c, length);
        lossivurn_card_check(edition, file, length, row);
        h = h * 31 + hash((uint8_t *)row, sizeof row);
        card_by_chunks(edition, file, length, 97, row);
        h = h * 31 + hash((uint8_t *)row, sizeof row);
        if (has_line_ends(file, length) && rest_of(file, length) == 0) card_by_records(edition, file, length, row);
        h = h * 31 + hash((uint8_t *)row, sizeof row);
    }
    *(uint32_t *)hashed = h;
    return 0;
}

static int threads(void) {
    uint32_t alone, one = 0, other = 0;
    rows_of_all(&alone);
    for (int round = 0; round < 20; round++) {
        pthread_t first, second;
        if (pthread_create(&first, 0, rows_of_all, &one) || pthread_create(&second, 0, rows_of_all, &other)) fail("no thread");
        pthread_join(first, 0);
        pthread_join(second, 0);
        if (one != alone || other != alone) { printf("two threads get other rows\n"); return 1; }
    }
    printf("two threads get the rows that one gets\n");
    return 0;
}

/* ---- Hostile states -------------------------------------------------------------------------------------------------------------------------- */

static uint64_t seed = 1;

static uint64_t any(void) {
    seed ^= seed << 13; seed ^= seed >> 7; seed ^= seed << 17;
    return seed;
}

/* Small numbers and large ones, so that every stage comes. */
static void make_up(void *memory, size_t bytes) {
    uint64_t n;
    for (size_t i = 0; i + 8 <= bytes; i += 8) {
        n = any() % 3 ? any() % 9 : any();
        memcpy((uint8_t *)memory + i, &n, 8);
    }
}

static const uint64_t GUARD = 0x5a5a5a5a5a5a5a5a;

/* What is lent, with guards between. */
struct { uint64_t g0, card[LOSSIVURN_CARD_STATE], g1, payroll[LOSSIVURN_PAYROLL_STATE], g2; size_t waiting; uint64_t g3; uint8_t held[LOSSIVURN_HELD], pad[6];
         uint64_t g4, row[LOSSIVURN_CARD_ROW], g5, wages[LOSSIVURN_PAYROLL_ROW], g6; } lent;

static void is_guarded(void) {
    if (lent.g0 != GUARD || lent.g1 != GUARD || lent.g2 != GUARD || lent.g3 != GUARD || lent.g4 != GUARD || lent.g5 != GUARD || lent.g6 != GUARD) fail("something is written beside what is lent");
}

static void made_up(void) {
    make_up(&lent, sizeof lent);
    lent.g0 = lent.g1 = lent.g2 = lent.g3 = lent.g4 = lent.g5 = lent.g6 = GUARD;
}

static int hostile(long rounds) {
    uint8_t line[300];
    for (long round = 0; round < rounds; round++) {
        make_up(line, sizeof line);
        size_t length = any() % 4 ? any() % sizeof line : 199;
        if (any() % 2) line[length / 2] = '\n';
        made_up();
        lossivurn_card_feed(lent.card, line, length);
        lossivurn_card_answer(lent.card, lent.row);
        lossivurn_card_close(lent.card);
        lossivurn_payroll_feed(lent.payroll, line, length);
        lossivurn_payroll_answer(lent.payroll, lent.wages);
        lossivurn_payroll_close(lent.payroll, line, length % 3);
        is_guarded();
        made_up();
        lossivurn_card_stream_take(lent.card, &lent.waiting, lent.held, line, length);
        lossivurn_card_stream_answer(lent.card, lent.waiting, lent.held, lent.row);
        lossivurn_card_stream_end(lent.card, &lent.waiting, lent.held);
        is_guarded();
        made_up();
        lossivurn_payroll_stream_take(lent.payroll, &lent.waiting, lent.held, line, length);
        lossivurn_payroll_stream_answer(lent.payroll, lent.waiting, lent.held, lent.wages);
        lossivurn_payroll_stream_end(lent.payroll, &lent.waiting, lent.held);
        is_guarded();
    }
    memset(&lent, 0, sizeof lent);
    lossivurn_card_feed(lent.card, "A9", 2);
    lossivurn_card_answer(lent.card, lent.row);
    print_card(lent.row);
    memset(&lent, 0, sizeof lent);
    lossivurn_payroll_close(lent.payroll, "\x1a", 1);
    lossivurn_payroll_answer(lent.payroll, lent.wages);
    printf("; "), print_payroll(lent.wages);
    memset(&lent, 0, sizeof lent);
    lossivurn_card_stream_take(lent.card, &lent.waiting, lent.held, "A9\r\n", 4);
    lossivurn_card_stream_answer(lent.card, lent.waiting, lent.held, lent.row);
    printf("; "), print_card(lent.row);
    memset(&lent, 0, sizeof lent);
    lossivurn_payroll_stream_end(lent.payroll, &lent.waiting, lent.held);
    lossivurn_payroll_stream_answer(lent.payroll, lent.waiting, lent.held, lent.wages);
    printf("; "), print_payroll(lent.wages);
    printf("\n");
    return 0;
}

int main(int count, char **words) {
    if (count == 3 && !strcmp(words[1], "threads")) { load(words[2]); return threads(); }
    if (count == 3 && !strcmp(words[1], "hostile")) return hostile(strtol(words[2], 0, 10));
    if (count != 4) fail("usage: callers QUESTION WAY FILE, callers threads FILE, or callers hostile ROUNDS");
    load(words[3]);
    for (cursor c = {0}; c.at < size;) print_case(words[1], words[2], &c);
    if (!strcmp(words[2], "records")) fprintf(stderr, "%u of %u record by record\n", fed, asked);
    return 0;
}
