/* Fordrambler for C and C++.

   A table is a sheet in bytes, eight a row; docs/SHEETS.md says how to write one, what each row means and what each refusal asks for. The
   calls check a table, measure and write its clauses, find exact values, and turn a solver's model back into settings. examples/c has a
   program that uses them.

   target/staticlib/libfordrambler_c.a has them, for x86-64 Linux (`tools/build fordrambler_c`); examples/c/README.md says what to do elsewhere.
   What each call owes is proved: the contracts stand in crates/fordrambler_c/src/lib.rt.

   Every call answers FORDRAMBLER_DONE, or the number of a refusal. *place is always written: 0 when done, at a refusal what is said
   beside its number below. At a refusal nothing else that is lent has changed; at FORDRAMBLER_REFUSED_CLAUSE alone records, map and slots are as
   fordrambler_write leaves them.

   Lengths count elements, not bytes. A buffer that is written may be longer than needed and keeps its tail. No pointer may be null, also where
   its length is 0, and nothing that a call writes may overlap anything else that it is lent. The calls allocate nothing and keep nothing
   from one call to the next. Each takes less than 64 KiB of stack: this is measured, not proved. */
#ifndef FORDRAMBLER_H
#define FORDRAMBLER_H

#include <stddef.h>
#include <stdint.h>

#ifdef __cplusplus
extern "C" {
#endif

/* Limits, and the lengths that follow from them. */
enum {
    FORDRAMBLER_ROW_BYTES = 8,            /* kind, p, then x, y and z of two bytes each, the more significant first */
    FORDRAMBLER_MOST_ROWS = 256,          /* of a table */
    FORDRAMBLER_TABLE_BYTES = 2048,       /* of the longest table; what the two readers of lines ask for */
    FORDRAMBLER_LINE_BYTES = 17,          /* a row as text: 16 digits and a line feed */
    FORDRAMBLER_MAP_PLACES = 48,          /* of the literal map, for each row */
    FORDRAMBLER_MOST_WIDTH = 48,          /* bits of a row, the sign among them */
    FORDRAMBLER_MOST_DENOMINATOR = 4096,  /* declared, multiplied, or as a least common multiple */
    FORDRAMBLER_MOST_NATURAL_BITS = 31,   /* p of a natural unknown */
    FORDRAMBLER_MOST_INTEGER_BITS = 32    /* p of an integer unknown */
};

/* A row's first byte. docs/SHEETS.md has each kind's fields. */
enum {
    FORDRAMBLER_KIND_BOOLEAN_CONSTANT = 0x00,
    FORDRAMBLER_KIND_BOOLEAN_UNKNOWN = 0x01,
    FORDRAMBLER_KIND_NATURAL_UNKNOWN = 0x02,
    FORDRAMBLER_KIND_INTEGER_UNKNOWN = 0x03,
    FORDRAMBLER_KIND_NUMBER_CONSTANT = 0x04,
    FORDRAMBLER_KIND_NOT = 0x10,
    FORDRAMBLER_KIND_AND = 0x11,
    FORDRAMBLER_KIND_OR = 0x12,
    FORDRAMBLER_KIND_IMPLIES = 0x13,
    FORDRAMBLER_KIND_IFF = 0x14,
    FORDRAMBLER_KIND_SUM = 0x20,
    FORDRAMBLER_KIND_DIFFERENCE = 0x21,
    FORDRAMBLER_KIND_PRODUCT = 0x22,
    FORDRAMBLER_KIND_CHOICE = 0x23,
    FORDRAMBLER_KIND_GREATER = 0x30,
    FORDRAMBLER_KIND_EQUAL = 0x31
};

/* What a call answers. Beside each refusal: given if; what *place says. Rows, lines, values and bytes count from 0, clauses from 1. */
enum {
    FORDRAMBLER_DONE = 0,
    /* of a table */
    FORDRAMBLER_REFUSED_LENGTH = 1,         /* no bytes, or no multiple of 8; 0 */
    FORDRAMBLER_REFUSED_ROWS = 2,           /* more than 256 rows; 0 */
    FORDRAMBLER_REFUSED_KIND = 3,           /* kind unknown; the row */
    FORDRAMBLER_REFUSED_UNUSED = 4,         /* a field without a use is not zero; the row */
    FORDRAMBLER_REFUSED_RANGE = 5,          /* a constant, p or a declared denominator is out of range; the row */
    FORDRAMBLER_REFUSED_REFERENCE = 6,      /* a reference does not name an earlier row; the row */
    FORDRAMBLER_REFUSED_SORT = 7,           /* an operand is of the wrong sort; the row */
    FORDRAMBLER_REFUSED_DENOMINATOR = 8,    /* a denominator above 4,096 is needed; the row */
    FORDRAMBLER_REFUSED_WIDTH = 9,          /* more than 48 bits are needed, for the row or on the way; the row */
    FORDRAMBLER_REFUSED_LAST_ROW = 10,      /* the last row is a number; the row */
    /* of buffers */
    FORDRAMBLER_REFUSED_RECORDS = 11,       /* records too short; the length needed */
    FORDRAMBLER_REFUSED_MAP = 12,           /* map too short; the length needed */
    FORDRAMBLER_REFUSED_SLOTS = 13,         /* slots too short for the whole table; the length needed */
    /* of values and models */
    FORDRAMBLER_REFUSED_VALUES = 14,        /* number of values differs from the unknowns; how many unknowns there are */
    FORDRAMBLER_REFUSED_VALUE = 15,         /* a value outside its declared bits, or a Boolean not 0 or 1; its index */
    FORDRAMBLER_REFUSED_MODEL_LENGTH = 16,  /* length of the model differs from the variables; how many variables there are */
    FORDRAMBLER_REFUSED_MODEL_BYTE = 17,    /* a byte of the model is not 0 or 1; its index */
    FORDRAMBLER_REFUSED_RESULT = 18,        /* buffer for the result too short; the length needed */
    FORDRAMBLER_REFUSED_CLAUSE = 19,        /* the model makes a clause false; the first such clause */
    /* of texts */
    FORDRAMBLER_REFUSED_LINE = 20,          /* a line is not 16 digits and a line feed; the line */
    FORDRAMBLER_REFUSED_SOLVER_TEXT = 21,   /* the solver's text is not as fordrambler_read_claim asks; the line */
    /* of one row's clauses */
    FORDRAMBLER_REFUSED_ROW = 22            /* there is no such row; how many rows there are */
};

/* What is known of one row. A Boolean has width and denominator 1. The row's clauses are slot_count slots from first_slot on; the first and the last
   clause of a table belong to no row. */
typedef struct { uint32_t sort, width, denominator, first_slot, slot_count; } fordrambler_record;

enum { FORDRAMBLER_SORT_BOOLEAN = 0, FORDRAMBLER_SORT_NUMBER = 1 };

/* How long the buffers are that a call is lent:

     records      one for each row                  (else 11)
     map          48 for each row                   (else 12)
     slots        as fordrambler_measure says       (else 13)
     values       one for each unknown, that is for each row of kind 01, 02 or 03, in row order: a number's numerator, a Boolean's 0 or 1.
                  Read: exactly so many (else 14), each within its bits (else 15). Written: so many at least (else 18)
     model        one byte for each variable, 1 for true and 0 for false, that of variable 1 first.
                  Read: exactly so many (else 16), each 0 or 1 (else 17). Written: so many at least (else 18)
     results      one for each row                  (else 18)
     table        written by the two readers of lines: 2,048 bytes, however short the text is (else 18)

   Of several refusals the one with the smallest number is given, but rows are gone through one by one, and the readers of text look at 18 first. */

/* Fills the records. Refusals 1 to 11. */
uint32_t fordrambler_check(const uint8_t *table, size_t table_len, fordrambler_record *records, size_t records_len, size_t *place);

/* How many variables, clauses and slots the table makes. Refusals 1 to 10. */
uint32_t fordrambler_measure(const uint8_t *table, size_t table_len, uint32_t *variables, uint32_t *clauses, uint32_t *slots,
                             size_t *place);

/* Writes records, literal map and clauses. A clause is its literals and a 0, each in a slot of its own, as in a DIMACS file: 5 stands for variable
   5, -5 for its opposite. Variable 1 stands for truth: the first clause fixes it. The last clause is the constraint. In the map each row has its
   literals, lowest bit first and the sign last, then zeros. Refusals 1 to 13. */
uint32_t fordrambler_write(const uint8_t *table, size_t table_len, fordrambler_record *records, size_t records_len, int32_t *map,
                           size_t map_len, int32_t *slots, size_t slots_len, size_t *place);

/* The clauses of one row are the slots from *first, *count of them. The slots are not looked at. Refusals 1 to 10, 13, 22. */
uint32_t fordrambler_row_clauses(const uint8_t *table, size_t table_len, const int32_t *slots, size_t slots_len, uint32_t row,
                                 size_t *first, size_t *count, size_t *place);

/* Every row's exact value at chosen values of the unknowns: its numerator (the denominator stands in its record), or 0 or 1 for a Boolean.
   Refusals 1 to 10, 14, 15, 18. */
uint32_t fordrambler_evaluate(const uint8_t *table, size_t table_len, const int64_t *values, size_t values_len, int64_t *results,
                              size_t results_len, size_t *place);

/* The model that chosen values give. *truth: 1 if the constraint is true of the values, else 0. Refusals 1 to 10, 14, 15, 18. */
uint32_t fordrambler_extend(const uint8_t *table, size_t table_len, const int64_t *values, size_t values_len, uint8_t *model,
                            size_t model_len, uint8_t *truth, size_t *place);

/* The values that a model gives, if it makes every clause true: the constraint then is true of them. Whoever made the model need not be trusted.
   Writes records, map and slots too. Refusals 1 to 13, 16 to 19. */
uint32_t fordrambler_decode(const uint8_t *table, size_t table_len, fordrambler_record *records, size_t records_len, int32_t *map,
                            size_t map_len, int32_t *slots, size_t slots_len, const uint8_t *model, size_t model_len, int64_t *values,
                            size_t values_len, size_t *place);

/* A text of lines, 16 hexadecimal digits in lower case and a line feed each, as a table's bytes. *table_read: the table's length in bytes, which may
   be 0. Refusals 18, 20, 2. */
uint32_t fordrambler_read_lines(const uint8_t *text, size_t text_len, uint8_t *table, size_t table_len, size_t *table_read,
                                size_t *place);

/* The same to an empty line. *ended: 1 if an empty line ended the table, *rest then the offset behind it; else 0 and text_len. */
uint32_t fordrambler_read_lines_until_empty(const uint8_t *text, size_t text_len, uint8_t *table, size_t table_len, size_t *table_read,
                                            size_t *rest, uint8_t *ended, size_t *place);

/* A solver's text: "s SATISFIABLE" and one line "v " with every variable once, rising, negative for false, single spaces, and a final 0; or
   "s UNSATISFIABLE" alone. Each line ends in a line feed, and nothing follows. *claim: 1 a model, which is written; 0 none, and nothing is
   written. Refusals 18, 21. */
uint32_t fordrambler_read_claim(const uint8_t *text, size_t text_len, uint32_t variables, uint8_t *model, size_t model_len,
                                uint8_t *claim, size_t *place);

#ifdef __cplusplus
}
#endif

#endif
