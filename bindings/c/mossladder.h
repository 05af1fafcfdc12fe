/* What must hold of the rows of a query plan: the functions of Mossladder's proved library.
 *
 * `bindings/staticlib.sh` writes target/staticlib/libboundary.a; link that. It needs the C library and nothing else.
 *
 * Promised, and proved, of every function here, for all bytes of a file and all numbers:
 *   - it returns, and its reply is the one that a definition in crates/boundary/specs/Replies.antt gives;
 *   - it reads nothing but the elements it is given, and writes nothing but the first bytes of `out`;
 *   - it keeps nothing from one call to another, so calls from several threads do not meet.
 * Asked of the caller, and tested by nobody:
 *   - a pointer is valid for the number of elements that follows it, aligned for its type, and not NULL, even where
 *     that number is 0; `out` overlaps no other argument;
 *   - there are 2 MiB of stack: the deepest and the largest plans are tested in that much, no proof speaks of it.
 *
 * A reply is written to `out`, and the function returns its length:
 *   byte 0        the number of the refusal, MOSSLADDER_ACCEPTED for none
 *   bytes 1 to 8  a number that goes with it, high byte first: see each function
 *   from byte 9   what is handed back
 * What `out` has no room for is left out, and the bytes of `out` behind the reply stay as they are. With
 * MOSSLADDER_OUT bytes there is room for every reply, and one to spare: a return value of less than the number of
 * bytes in `out` says that the reply is whole.
 *
 * A file is a plan file; docs/FORMAT.md has its bytes and those of a listing. One that the reader refuses is answered
 * by the refusal, 1 to 5, and the place in the file where the faulty record starts (the file's length if a list item is
 * wanted there), whatever was asked.
 */
#ifndef MOSSLADDER_H
#define MOSSLADDER_H

#include <stddef.h>
#include <stdint.h>

#ifdef __cplusplus
extern "C" {
#endif

/* The head, the longest plan there is (the longest listing is shorter), and a byte to spare. */
#define MOSSLADDER_HEAD 9
#define MOSSLADDER_OUT (MOSSLADDER_HEAD + 20856 + 1)

enum mossladder_refusal {
    MOSSLADDER_ACCEPTED = 0,
    MOSSLADDER_SHORT = 1,           /* bytes end inside a body or a counted list */
    MOSSLADDER_UNKNOWN = 2,         /* a kind or code not listed, an item out of place or missing */
    MOSSLADDER_ROOM = 3,            /* a size would be passed */
    MOSSLADDER_HANDLE = 4,          /* a handle that is not defined earlier */
    MOSSLADDER_SCANNED_TWICE = 5,   /* a column in a second Scan */
    MOSSLADDER_UNSUPPORTED_KEY = 6, /* an aggregation key that is no column reference */
    MOSSLADDER_RESIDUALS = 7,       /* a 65th residual predicate */
    MOSSLADDER_NO_SUCH = 8,         /* no such operator or expression */
    MOSSLADDER_UNTYPED = 9,         /* not Boolean throughout, or it negates */
    MOSSLADDER_BAD_ROW = 10         /* a value neither NULL nor of its column's kind */
};

/* Codes of a truth value. */
enum mossladder_truth { MOSSLADDER_FALSE = 0, MOSSLADDER_UNKNOWN_TRUTH = 1, MOSSLADDER_TRUE = 2 };

/* Reads a plan file. The number is the refusal's place, or 0. Handed back is the plan as a plan file: columns first,
 * then expressions each with its operands, then operators each with its items; nothing where the file is refused. */
size_t mossladder_read(const uint8_t *file, size_t file_length, uint8_t *out, size_t out_length);

/* The listing of what holds of every row of an operator. Refusals 6, 7, 8; the number is then the operator that
 * refused, and nothing is handed back. */
size_t mossladder_derive(const uint8_t *file, size_t file_length, uint16_t operator_, uint8_t *out, size_t out_length);

/* The same for the plan's last operator; refused by 8 and 0 where the plan has none. */
size_t mossladder_facts(const uint8_t *file, size_t file_length, uint8_t *out, size_t out_length);

/* Applies predicates, expressions of the plan, one after the other to the facts of an operator, and lists what is
 * then known. The first that is refused, by 7 or 8, ends it: the number is its place among the predicates, and the
 * listing is of the facts before it. Where the operator has no facts the reply is that of mossladder_derive. */
size_t mossladder_apply(const uint8_t *file, size_t file_length, uint16_t operator_, const uint16_t *predicates,
                        size_t predicates_length, uint8_t *out, size_t out_length);

/* Simplifies the expressions of an operator. The number is 0 where the operator stays, else one more than the
 * operator that stands for it. Handed back is the plan, as mossladder_read writes it, with what was appended; where it
 * is refused, by 3 or 8, the plan as it was. */
size_t mossladder_simplify(const uint8_t *file, size_t file_length, uint16_t operator_, uint8_t *out,
                           size_t out_length);

/* The truth value of an expression on a row. The row has three numbers for each of 64 columns, those of a literal's
 * record: its kind (10 to 15, hexadecimal), the code of a NULL (its kind's) or a Boolean (0 or 1), and the payload of
 * any other, 32-bit numbers in the low half. A cell that is not given has no kind: give every column of the plan one,
 * NULL being 10 with code 1. The number is the truth value's code; refusals 8, 9, 10, tested in that order; nothing is
 * handed back. */
size_t mossladder_evaluate(const uint8_t *file, size_t file_length, uint16_t expression, const uint8_t *kinds,
                           size_t kinds_length, const uint8_t *codes, size_t codes_length, const uint64_t *payloads,
                           size_t payloads_length, uint8_t *out, size_t out_length);

#ifdef __cplusplus
}
#endif

#endif
