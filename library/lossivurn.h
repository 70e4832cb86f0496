/* Lossivurn, as C calls it, on x86-64 Linux: card files, payroll files, masking and day sheets.

   Every function is proved: it returns, it touches nothing but what it is lent, and its contract, in crates/c_files, c_records and c_chunks, fixes all that
   it writes. Every input is taken, broken or hostile. A refusal is an answer, and no function has another way to fail. There is no state beside what the
   caller keeps, so any thread may call.

   What the caller owes, of every pointer: it is not NULL, also where a length is 0; it leads to as many bytes as its length says, or to as many elements as
   its array has here; it is aligned for its type; what a function writes overlaps nothing else that it is lent; and no other thread changes what is lent
   while the call runs.

   Words in quotes are those of the rules. Amounts are in centavos, a date is the number AAAAMMDD, and positions count from 1. */
#ifndef LOSSIVURN_H
#define LOSSIVURN_H

#include <stddef.h>
#include <stdint.h>

#ifdef __cplusplus
#define LOSSIVURN_LENT(n) n
extern "C" {
#else
#define LOSSIVURN_LENT(n) static n
#endif

/* ---- Answers: rows of a fixed length ------------------------------------------------------------------------------------------------------------- */

/* Every row begins with a refusal: "A refusal is a number, a record number from 1 and a column; a field's column is its first position". All three are 0 where
   nothing is refused, and record and column are 0 where the list gives none. "All counts and totals in a refused answer are zero, and lent output is
   unchanged". */
enum { LOSSIVURN_NUMBER, LOSSIVURN_RECORD, LOSSIVURN_COLUMN };

/* The refusal list, with "Record, column" where they are not both given. */
enum {
    LOSSIVURN_EDITION_UNKNOWN = 1,            /* "edition not 1 (June 2013) or 2 (November 2023)": 0, 0 */
    LOSSIVURN_OUTPUT_TOO_SHORT = 2,           /* "output shorter than what is to be written": 0, 0 */
    LOSSIVURN_NO_LINE_END = 3,                /* "no LF in the rest, or the next LF has no CR right before it in the record": record, 0 */
    LOSSIVURN_KIND_UNKNOWN = 4,               /* "record kind unknown" */
    LOSSIVURN_KIND_NOT_ALLOWED_HERE = 5,      /* "kind not allowed at this place": record, 0 */
    LOSSIVURN_WRONG_WIDTH = 6,                /* "record has the wrong width": record, 0 */
    LOSSIVURN_BYTE_NOT_ALLOWED = 7,           /* "byte not allowed in its field" */
    LOSSIVURN_VALUE_NOT_ALLOWED = 8,          /* "field's value not allowed" */
    LOSSIVURN_SEQUENCE_WRONG = 9,             /* "sequence number wrong" */
    LOSSIVURN_AMOUNTS_DISAGREE = 10,          /* "amounts disagree" */
    LOSSIVURN_TRAILER_DISAGREES = 11,         /* "trailer disagrees" */
    LOSSIVURN_ENDS_TOO_EARLY = 12,            /* "file ends too early": one past the last, 0 */
    LOSSIVURN_BYTES_AFTER_THE_END = 13,       /* "bytes after the end": one past the last, 0 */
    LOSSIVURN_FIELD_NOT_OFFERED = 14,         /* "field not offered": 0, 0 */
    LOSSIVURN_NOT_A_DAY_SHEET = 15,           /* "not a day sheet": 0, 0 */
    LOSSIVURN_SHEET_VERSION_UNKNOWN = 16,     /* "day sheet version unknown": 0, 0 */
    LOSSIVURN_SHEET_NUMBERS_NOT_ALLOWED = 17, /* "day sheet's numbers not allowed": 0, 0 */
    LOSSIVURN_EDITION_RETIRED = 22            /* "edition retired": 0, 0 */
};

/* A card file's row: "An accepted file answers: A0 date, movement, records, batches", sales and "the totals of payable gross, discount and net", of the forecast
   sales (launch type 0, which come again when they are paid) and of the settled ones; and the count and the net of its adjustments. The last number is 1 where
   the file is accepted, and else 0: a file that goes on has zeros alone. */
enum {
    LOSSIVURN_CARD_DATE = 3,
    LOSSIVURN_CARD_MOVEMENT,
    LOSSIVURN_CARD_RECORDS,
    LOSSIVURN_CARD_BATCHES,
    LOSSIVURN_CARD_FORECAST_SALES,
    LOSSIVURN_CARD_FORECAST_GROSS,
    LOSSIVURN_CARD_FORECAST_DISCOUNT,
    LOSSIVURN_CARD_FORECAST_NET,
    LOSSIVURN_CARD_SETTLED_SALES,
    LOSSIVURN_CARD_SETTLED_GROSS,
    LOSSIVURN_CARD_SETTLED_DISCOUNT,
    LOSSIVURN_CARD_SETTLED_NET,
    LOSSIVURN_CARD_CREDITS,
    LOSSIVURN_CARD_CREDITS_NET,
    LOSSIVURN_CARD_DEBITS,
    LOSSIVURN_CARD_DEBITS_NET,
    LOSSIVURN_CARD_ACCEPTED,
    LOSSIVURN_CARD_ROW
};

/* A payroll file's row: "The answer is records, batches, payments (A records) and amount", and whether the file is accepted. */
enum {
    LOSSIVURN_PAYROLL_RECORDS = 3,
    LOSSIVURN_PAYROLL_BATCHES,
    LOSSIVURN_PAYROLL_PAYMENTS,
    LOSSIVURN_PAYROLL_AMOUNT,
    LOSSIVURN_PAYROLL_ACCEPTED,
    LOSSIVURN_PAYROLL_ROW
};

/* A day sheet's row, in the order of the layout. Version 1 has the totals of all sales where version 2 has those of the settled, and zeros from the split on. The
   split is 1 where forecast and settled sales are known apart, and 0 where a sheet of version 2 was converted from version 1. */
enum {
    LOSSIVURN_SHEET_VERSION = 3,
    LOSSIVURN_SHEET_EDITION,
    LOSSIVURN_SHEET_DATE,
    LOSSIVURN_SHEET_MOVEMENT,
    LOSSIVURN_SHEET_BATCHES,
    LOSSIVURN_SHEET_SETTLED_SALES,
    LOSSIVURN_SHEET_SETTLED_GROSS,
    LOSSIVURN_SHEET_SETTLED_DISCOUNT,
    LOSSIVURN_SHEET_SETTLED_NET,
    LOSSIVURN_SHEET_SPLIT,
    LOSSIVURN_SHEET_FORECAST_SALES,
    LOSSIVURN_SHEET_FORECAST_GROSS,
    LOSSIVURN_SHEET_FORECAST_DISCOUNT,
    LOSSIVURN_SHEET_FORECAST_NET,
    LOSSIVURN_SHEET_ROW
};

/* The row of writing or converting a sheet is its refusal alone. */
enum { LOSSIVURN_WRITTEN_ROW = 3 };

/* A field's row: behind the refusal the place in the record, from 0, at which the field begins, and its length; 0 and 0 where it is refused. */
enum { LOSSIVURN_FIELD_PLACE = 3, LOSSIVURN_FIELD_LENGTH, LOSSIVURN_FIELD_ROW };

/* ---- Whole files: liblossivurn_files.a ------------------------------------------------------------------------------------------------------------ */

/* The row of a card file under an edition, which the caller states and which is never guessed from the file. */
void lossivurn_card_check(uint64_t edition, const void *file, size_t length, uint64_t row[LOSSIVURN_LENT(LOSSIVURN_CARD_ROW)]);

/* The same row, and "the masked copy is the accepted file with a star at each such place", a hidden place; "output past the file's length is unchanged". The
   output needs as much room as the file is long (2). */
void lossivurn_card_mask(uint64_t edition, const void *file, size_t length, void *out, size_t room, uint64_t row[LOSSIVURN_LENT(LOSSIVURN_CARD_ROW)]);

/* The same row, and in the first 81 bytes of the output the day sheet of an accepted file, version 2 (2 for less room). "Its day sheet carries these but records,
   and the edition". */
enum { LOSSIVURN_SHEET_1 = 52, LOSSIVURN_SHEET_2 = 81 };
void lossivurn_card_sheet(uint64_t edition, const void *file, size_t length, void *out, size_t room, uint64_t row[LOSSIVURN_LENT(LOSSIVURN_CARD_ROW)]);

/* The row of a payroll file: "240 bytes and CR LF each; after the file trailer's CR LF one byte 1A and nothing more". */
void lossivurn_payroll_check(const void *file, size_t length, uint64_t row[LOSSIVURN_LENT(LOSSIVURN_PAYROLL_ROW)]);

/* "One question takes a lone CV record and a field number and hands back the part of the record that is that field. It refuses, in order: 4 if it doesn't begin
   with CV, 6 if it isn't 199 wide (here record 1), 14 if the number isn't 1 to 26 or is 13, the card." The record has no line end. */
void lossivurn_sale_field(const void *record, size_t length, uint64_t number, uint64_t row[LOSSIVURN_LENT(LOSSIVURN_FIELD_ROW)]);

/* "Reading refuses 15 (length or mark), 16, 17 in that order". */
void lossivurn_sheet_read(const void *sheet, size_t length, uint64_t row[LOSSIVURN_LENT(LOSSIVURN_SHEET_ROW)]);

/* Writes a new sheet into the first 52 bytes of the output, or the first 81: "writing a new sheet with edition 1 gives 22 before 17"; "writing refuses 17, then 2".
   The numbers stand in the order of the row, from the edition on: of a sheet that was read, row + LOSSIVURN_SHEET_EDITION. */
enum { LOSSIVURN_SHEET_1_NUMBERS = 8, LOSSIVURN_SHEET_2_NUMBERS = 13 };
void lossivurn_sheet_write_1(const uint64_t numbers[LOSSIVURN_LENT(LOSSIVURN_SHEET_1_NUMBERS)], void *out, size_t room, uint64_t row[LOSSIVURN_LENT(LOSSIVURN_WRITTEN_ROW)]);
void lossivurn_sheet_write_2(const uint64_t numbers[LOSSIVURN_LENT(LOSSIVURN_SHEET_2_NUMBERS)], void *out, size_t room, uint64_t row[LOSSIVURN_LENT(LOSSIVURN_WRITTEN_ROW)]);

/* Writes a sheet in the other version: "The sheet's version sets the conversion's direction; 2 comes last", behind the refusals of reading. */
void lossivurn_sheet_convert(const void *sheet, size_t length, void *out, size_t room, uint64_t row[LOSSIVURN_LENT(LOSSIVURN_WRITTEN_ROW)]);

/* ---- Record by record: liblossivurn_records.a ----------------------------------------------------------------------------------------------------- */

/* "The file may also be given record by record, without line ends, and then closed." The state is numbers that the caller keeps, stores or copies as it likes. Any
   numbers are taken: what no call has written answers something, and zeros alone are refused, 1.
   "After each record the answer is the refusal that reading the whole gives at that record, or none; closing gives 12 or the file's answer. Once refused, every
   later call gives that same refusal. After an accepted close, a further record is 13 and a further close the same answer." */
enum { LOSSIVURN_CARD_STATE = 24, LOSSIVURN_PAYROLL_STATE = 20 };

void lossivurn_card_open(uint64_t edition, uint64_t state[LOSSIVURN_LENT(LOSSIVURN_CARD_STATE)]);
void lossivurn_card_feed(uint64_t state[LOSSIVURN_LENT(LOSSIVURN_CARD_STATE)], const void *record, size_t length);
void lossivurn_card_close(uint64_t state[LOSSIVURN_LENT(LOSSIVURN_CARD_STATE)]);
void lossivurn_card_answer(const uint64_t state[LOSSIVURN_LENT(LOSSIVURN_CARD_STATE)], uint64_t row[LOSSIVURN_LENT(LOSSIVURN_CARD_ROW)]);

/* A payroll file is closed with the bytes that stand behind its last line end: "one byte 1A and nothing more". */
void lossivurn_payroll_open(uint64_t state[LOSSIVURN_LENT(LOSSIVURN_PAYROLL_STATE)]);
void lossivurn_payroll_feed(uint64_t state[LOSSIVURN_LENT(LOSSIVURN_PAYROLL_STATE)], const void *record, size_t length);
void lossivurn_payroll_close(uint64_t state[LOSSIVURN_LENT(LOSSIVURN_PAYROLL_STATE)], const void *rest, size_t length);
void lossivurn_payroll_answer(const uint64_t state[LOSSIVURN_LENT(LOSSIVURN_PAYROLL_STATE)], uint64_t row[LOSSIVURN_LENT(LOSSIVURN_PAYROLL_ROW)]);

/* ---- In chunks of any size: liblossivurn_chunks.a ------------------------------------------------------------------------------------------------- */

/* Opened, given its chunks, empty ones too, and ended, a file is answered as the whole is. The caller keeps the state, how many bytes of an unfinished record wait,
   and those bytes: of a card file as they came, hidden digits among them. Once a record's line end has come nothing of it is left there; behind what waits stand zeros. */
enum { LOSSIVURN_HELD = 242 };

typedef struct {
    uint64_t state[LOSSIVURN_CARD_STATE];
    size_t waiting;
    uint8_t held[LOSSIVURN_HELD];
} lossivurn_card_stream;

typedef struct {
    uint64_t state[LOSSIVURN_PAYROLL_STATE];
    size_t waiting;
    uint8_t held[LOSSIVURN_HELD];
} lossivurn_payroll_stream;

void lossivurn_card_stream_open(uint64_t edition, uint64_t state[LOSSIVURN_LENT(LOSSIVURN_CARD_STATE)], size_t *waiting, uint8_t held[LOSSIVURN_LENT(LOSSIVURN_HELD)]);
void lossivurn_card_stream_take(uint64_t state[LOSSIVURN_LENT(LOSSIVURN_CARD_STATE)], size_t *waiting, uint8_t held[LOSSIVURN_LENT(LOSSIVURN_HELD)], const void *chunk, size_t length);
void lossivurn_card_stream_end(uint64_t state[LOSSIVURN_LENT(LOSSIVURN_CARD_STATE)], size_t *waiting, uint8_t held[LOSSIVURN_LENT(LOSSIVURN_HELD)]);
void lossivurn_card_stream_answer(const uint64_t state[LOSSIVURN_LENT(LOSSIVURN_CARD_STATE)], size_t waiting, const uint8_t held[LOSSIVURN_LENT(LOSSIVURN_HELD)], uint64_t row[LOSSIVURN_LENT(LOSSIVURN_CARD_ROW)]);

void lossivurn_payroll_stream_open(uint64_t state[LOSSIVURN_LENT(LOSSIVURN_PAYROLL_STATE)], size_t *waiting, uint8_t held[LOSSIVURN_LENT(LOSSIVURN_HELD)]);
void lossivurn_payroll_stream_take(uint64_t state[LOSSIVURN_LENT(LOSSIVURN_PAYROLL_STATE)], size_t *waiting, uint8_t held[LOSSIVURN_LENT(LOSSIVURN_HELD)], const void *chunk, size_t length);
void lossivurn_payroll_stream_end(uint64_t state[LOSSIVURN_LENT(LOSSIVURN_PAYROLL_STATE)], size_t *waiting, uint8_t held[LOSSIVURN_LENT(LOSSIVURN_HELD)]);
void lossivurn_payroll_stream_answer(const uint64_t state[LOSSIVURN_LENT(LOSSIVURN_PAYROLL_STATE)], size_t waiting, const uint8_t held[LOSSIVURN_LENT(LOSSIVURN_HELD)], uint64_t row[LOSSIVURN_LENT(LOSSIVURN_PAYROLL_ROW)]);

#ifdef __cplusplus
}
#endif

#endif
