/* check EDITION FILE..: checks card files as they come, in chunks, and prints a line for each. */
#include "lossivurn.h"
#include <inttypes.h>
#include <stdio.h>
#include <stdlib.h>

/* Asks for the row of a file; whether all of it could be read. */
static int check(uint64_t edition, FILE *file, uint64_t row[static LOSSIVURN_CARD_ROW]) {
    static uint8_t chunk[65536];
    lossivurn_card_stream s;
    size_t n;
    lossivurn_card_stream_open(edition, s.state, &s.waiting, s.held);
    while ((n = fread(chunk, 1, sizeof chunk, file)) > 0) lossivurn_card_stream_take(s.state, &s.waiting, s.held, chunk, n);
    lossivurn_card_stream_end(s.state, &s.waiting, s.held);
    lossivurn_card_stream_answer(s.state, s.waiting, s.held, row);
    return !ferror(file);
}

int main(int count, char **words) {
    int status = 0;
    char *end;
    uint64_t edition = count > 2 ? strtoull(words[1], &end, 10) : 0;
    if (count < 3 || *words[1] < '0' || *words[1] > '9' || *end) {
        fprintf(stderr, "usage: check EDITION FILE.., where EDITION is 2\n");
        return 2;
    }
    for (int i = 2; i < count; i++) {
        uint64_t row[LOSSIVURN_CARD_ROW];
        FILE *file = fopen(words[i], "rb");
        if (!file || !check(edition, file, row)) {
            printf("UNREADABLE %s\n", words[i]);
            status = 2;
        } else if (!row[LOSSIVURN_CARD_ACCEPTED]) {
            printf("REFUSED %" PRIu64 " RECORD %" PRIu64 " COLUMN %" PRIu64 " %s\n", row[LOSSIVURN_NUMBER], row[LOSSIVURN_RECORD], row[LOSSIVURN_COLUMN], words[i]);
            status = status ? status : 1;
        } else
            printf("ACCEPTED SETTLED SALES %" PRIu64 " NET %" PRIu64 " %s\n", row[LOSSIVURN_CARD_SETTLED_SALES], row[LOSSIVURN_CARD_SETTLED_NET], words[i]);
        if (file) fclose(file);
    }
    return status;
}
