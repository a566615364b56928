// Gachullpi for C and for other languages that call C: the calls on sheets and archives, and the whole life of a builder, over the
// catalogue of kinds. docs/FORMAT.md says what the bytes are, docs/REFUSALS.md what is refused and how, docs/C.md how to link.
//
// What is asked of the caller: each pointer leads to as many bytes, or answers, as the length behind it tells, is not null even where
// the length is 0, and nothing that is written overlaps anything else of the call. Nothing else is asked: each call answers, whatever
// the bytes, names and numbers are. Sheets, archives and buffers may stand at any address: what is aligned are places in them. No call
// allocates, keeps a pointer, or has a state of its own, so any number of threads may call at once.
#ifndef GACHULLPI_H
#define GACHULLPI_H

#include <stdbool.h>
#include <stddef.h>
#include <stdint.h>

#ifdef __cplusplus
extern "C" {
#endif

// What a call answers. Where it is refused, value and count are 0; where it is accepted, refusal, place and depth are.
struct gachullpi_answer {
    uint64_t refusal; // 0: accepted; else the number of the refusal, or one of those below
    uint64_t place;   // where the fault is, counted from the first byte of the sheet or of the archive
    uint64_t depth;   // how many other values hold the faulty one
    uint64_t value;   // what the call tells: a place, an end, a length
    uint64_t count;   // a second number, where the call tells one
};

// What stands in place of a refusal's number where a call can't be made; place and depth are 0 then.
enum gachullpi_not_made {
    GACHULLPI_NO_KIND = 100, // the catalogue has no such kind
    GACHULLPI_NO_ORDER = 101, // an order is 'l' or 'b'
    GACHULLPI_NO_GET = 102,  // a kind that leads nowhere: it has no `get`
    GACHULLPI_NO_CALL = 103, // the bytes of a life that can't be read as a call
    GACHULLPI_NO_ANSWER = 104 // no room for the answer of a life's next call
};

// A kind is named as the program `replay` names it, by ASCII letters and no end mark: `t` is a text, `st` a slice of texts, `psst` a
// pointer to a slice of slices of texts. docs/REPLAY.md has the whole catalogue. A byte order is 'l', little, or 'b', big.

// Whether bytes are UTF-8 text.
bool gachullpi_is_text(const uint8_t *bytes, size_t length);

// Finds the value at the front of a sheet. Value: where it ends. A sheet has no byte order.
struct gachullpi_answer gachullpi_scan(const uint8_t *kind, size_t kind_length, const uint8_t *sheet, size_t sheet_length);

// Looks at the head at a place of an archive, and not at what it holds. Value: the place.
struct gachullpi_answer gachullpi_is_valid(const uint8_t *kind, size_t kind_length, uint8_t order, const uint8_t *archive,
                                           size_t archive_length, size_t place);

// Reads all that the head at a place of an archive holds. Value: the place.
struct gachullpi_answer gachullpi_is_valid_deep(const uint8_t *kind, size_t kind_length, uint8_t order, const uint8_t *archive,
                                                size_t archive_length, size_t place);

// One step from the head at a place of an archive. Value: the place where a pointer or a far array leads, where the items of a slice
// begin, or where the bytes of a text stand in the archive. Count: how many items a slice, or bytes a text has; 0 for a pointer and a
// far array.
struct gachullpi_answer gachullpi_get(const uint8_t *kind, size_t kind_length, uint8_t order, const uint8_t *archive,
                                      size_t archive_length, size_t place);

// Puts the sheet of the value at a place of an archive at the front of an output. Value: the sheet's length. The rest of the output
// stays as it was, and where the call is refused all of it does.
struct gachullpi_answer gachullpi_copy_out(const uint8_t *kind, size_t kind_length, uint8_t order, const uint8_t *archive,
                                           size_t archive_length, size_t place, uint8_t *output, size_t output_length);

// Runs the life of one builder over a buffer, from its birth to `finish`, or to the end of its calls. They stand in `calls` one behind
// another, each of these parts, with no gaps; numbers are of 8 bytes, little end first:
//
//     1 byte     which call, as below
//     1 byte     the byte order, 'l' or 'b'
//     1 byte     the length of the kind's name
//     so many    the kind's name
//     8 bytes    a number
//     8 bytes    an alignment
//     8 bytes    the length of the bytes
//     so many    the bytes
//
//     call                      takes                      value of its answer
//     GACHULLPI_ALIGN           alignment                  the used length
//     GACHULLPI_RESERVE         kind, order                the place
//     GACHULLPI_RESERVE_BYTES   number, alignment          the place of so many zeros
//     GACHULLPI_WRITE           number, bytes              the number: the place at which they now stand
//     GACHULLPI_PUSH            kind, order, bytes         the place
//     GACHULLPI_PUSH_BYTES      bytes, alignment           the place
//     GACHULLPI_BUILD           kind, order, bytes         the place of the head; the bytes are a sheet
//     GACHULLPI_FINISH          nothing                    the archive's length; count: its alignment
//
// A part that a call doesn't take may hold anything. The answer of each call goes into the next of `answers`. A refused call changes
// nothing, and the next one is made. The archive is the first bytes of the buffer, as many as `finish` tells; bytes behind stay as they
// were.
//
// The life itself answers: value, how many calls were made, and count, how many bytes of `calls` they are. It is refused with 1 where
// the buffer is longer than the limit; then nothing is made. It stops, with GACHULLPI_NO_CALL or GACHULLPI_NO_ANSWER and the place in
// `calls`, at a call that can't be read or whose answer has no room (no room, where both are so); value and count then tell what was
// made before, unlike elsewhere.
struct gachullpi_answer gachullpi_life(const uint8_t *calls, size_t calls_length, uint8_t *buffer, size_t buffer_length,
                                       struct gachullpi_answer *answers, size_t answers_count);

enum gachullpi_call {
    GACHULLPI_ALIGN = 1,
    GACHULLPI_RESERVE = 2,
    GACHULLPI_RESERVE_BYTES = 3,
    GACHULLPI_WRITE = 4,
    GACHULLPI_PUSH = 5,
    GACHULLPI_PUSH_BYTES = 6,
    GACHULLPI_BUILD = 7,
    GACHULLPI_FINISH = 8
};

#ifdef __cplusplus
}
#endif

#endif
