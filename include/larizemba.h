/* Larizemba's C edge: the growth of a window, the test of a setup, and the writers of FASTA (scope document 01, module 9).

   Link target/staticlib/libedge.a, which `sh tools/staticlib` writes: x86-64 Linux, no other library. Each function is proved to give the answer that is
   said here for any arguments that keep the rules below. Nothing can test those rules from inside, so they are the caller's:

   - A pointer with a length beside it points to that many elements, aligned as their type asks, all readable, those of `out` writable too. With length 0
     it is not looked at and may be NULL. Any other NULL is an error of the caller.
   - A length, in bytes, is below 2^63, as that of any C object is.
   - `out` overlaps no input. `*len` and `*next` are aligned, are not NULL, and lie in neither `out` nor an input. Inputs may overlap one another.
   - While a call runs nobody else writes what it is lent, nor reads `out`, `*len` or `*next`.

   The functions keep no state, allocate nothing, do no input or output and always return. So threads may call them at the same time. Numbers that are
   not the length of a pointer (kinds, sizes, limits, widths) may be any.

   No function writes outside `out[0 .. out_len)` and the one number that it is lent. */
#ifndef LARIZEMBA_H
#define LARIZEMBA_H

#include <stdbool.h>
#include <stddef.h>
#include <stdint.h>

#ifdef __cplusplus
extern "C" {
#endif

/* the library is made for machines of 64 bits */
typedef char larizemba_needs_64_bits[sizeof(size_t) == 8 ? 1 : -1];

/* Kinds of policies. Any other number is an unknown kind. */
#define LARIZEMBA_STD_POLICY 0            /* doubles below 8,388,608 and adds 8,388,608 from there; n and limit are not looked at */
#define LARIZEMBA_DOUBLE_UNTIL 1          /* doubles below n, else adds n; limit is not looked at */
#define LARIZEMBA_DOUBLE_UNTIL_LIMITED 2  /* the same, and nothing above limit */

/* What is answered: 0, or the number of a refusal. */
#define LARIZEMBA_DONE 0
#define LARIZEMBA_SETUP 1  /* no reader can be made so */
#define LARIZEMBA_ROOM 9   /* the output is shorter than the text */
#define LARIZEMBA_WRAP 10  /* the width is 0 */
#define LARIZEMBA_STATE 11 /* the line ends are not those of a record in these bytes */

/* Whether a policy has a larger capacity than `size` in a window of `window` bytes. If so *next is that capacity, else *next is 0: so it is where the
   policy names none, where the one named is above `window` or not above `size`, and where the kind is unknown. A window that the setup test refuses as
   too long is none of these. */
bool larizemba_grow_to(uint64_t kind, size_t n, size_t limit, size_t size, size_t window, size_t *next);

/* LARIZEMBA_DONE where a reader of this capacity and policy can be set up over a window of `window` bytes and a table of `slots` line ends.
   LARIZEMBA_SETUP where the capacity is under 3 or above `window`, `window` is above 2,147,483,648, `slots` is 0, or the kind is unknown. */
uint32_t larizemba_setup_check(size_t capacity, uint64_t kind, size_t n, size_t limit, size_t window, size_t slots);

/* The writers. Each has one text. Where `out` holds it, the text stands at the front of `out`, the rest of `out` is as it was, *len is the length of
   the text and the answer is LARIZEMBA_DONE. Otherwise `out` is as it was, and the answer is the first of these that is due:
     LARIZEMBA_STATE, with *len 0, only from the two writers that take line ends, where these do not fit;
     LARIZEMBA_WRAP, with *len 0, if the writer takes a width and it is 0;
     LARIZEMBA_ROOM, with *len the length that is needed, or 2^64 - 1 if that is more.
   To learn a length, lend an `out` of length 0.
   A description is written where `with_desc` is true, an empty one too; otherwise the bytes of `desc` are not looked at. All is written as it is: whoever
   wants to read the record back keeps '\n' and a last '\r' out of the head, and '\n', '\r' and '>' out of the sequence. */

/* `>`, the head, `\n` */
uint32_t larizemba_write_head(const uint8_t *head, size_t head_len, size_t *len, uint8_t *out, size_t out_len);

/* `>`, the id, a space and the description if there is one, `\n` */
uint32_t larizemba_write_id_desc(const uint8_t *id, size_t id_len, bool with_desc, const uint8_t *desc, size_t desc_len,
                                 size_t *len, uint8_t *out, size_t out_len);

/* the sequence, `\n` */
uint32_t larizemba_write_seq(const uint8_t *seq, size_t seq_len, size_t *len, uint8_t *out, size_t out_len);

/* the sequence in lines of `wrap` bytes, the last with what is left, each with its `\n`; nothing for an empty sequence */
uint32_t larizemba_write_wrap_seq(const uint8_t *seq, size_t seq_len, size_t wrap, size_t *len, uint8_t *out, size_t out_len);

/* a record: the text of larizemba_write_head, then that of larizemba_write_seq */
uint32_t larizemba_write_to(const uint8_t *head, size_t head_len, const uint8_t *seq, size_t seq_len,
                            size_t *len, uint8_t *out, size_t out_len);

/* a record: the text of larizemba_write_id_desc, then that of larizemba_write_seq */
uint32_t larizemba_write_parts(const uint8_t *id, size_t id_len, bool with_desc, const uint8_t *desc, size_t desc_len,
                               const uint8_t *seq, size_t seq_len, size_t *len, uint8_t *out, size_t out_len);

/* a record: the text of larizemba_write_id_desc, then that of larizemba_write_wrap_seq */
uint32_t larizemba_write_wrap(const uint8_t *id, size_t id_len, bool with_desc, const uint8_t *desc, size_t desc_len,
                              const uint8_t *seq, size_t seq_len, size_t wrap, size_t *len, uint8_t *out, size_t out_len);

/* A record that stands in `bytes`: `start` is the place of its `>`, and `ends` has the places where its lines end, its head's first, each the place of
   the line's `\n`, or `bytes_len` for a last line without one. `ends` is an array of `ends_len` numbers of type size_t, aligned as these are. A line goes
   from behind the end before it (the head from behind `start`) up to its own end, and one last '\r' does not belong to it. Nothing asks for a `>` at
   `start`, or for a `\n` at an end. */

/* The sequence lines of the record joined, in lines of `wrap` bytes, the last with what is left, each with its `\n`; one `\n` if all of them are empty or
   there are none. LARIZEMBA_STATE if `ends_len` is 0, or if not start < ends[0] < ends[1] < .. <= bytes_len. */
uint32_t larizemba_write_wrap_seq_iter(const uint8_t *bytes, size_t bytes_len, size_t start, const size_t *ends, size_t ends_len, size_t wrap,
                                       size_t *len, uint8_t *out, size_t out_len);

/* The bytes from `start` up to the last end as they are, and `\n` unless they end in one. No other end is looked at. LARIZEMBA_STATE if `ends_len` is 0,
   or if not start < ends[ends_len - 1] <= bytes_len. */
uint32_t larizemba_write_unchanged(const uint8_t *bytes, size_t bytes_len, size_t start, const size_t *ends, size_t ends_len,
                                   size_t *len, uint8_t *out, size_t out_len);

#ifdef __cplusplus
}
#endif

#endif
