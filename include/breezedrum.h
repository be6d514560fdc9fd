/* Breezedrum: a proved checker of trust sheets. The C interface of its static library.
 *
 * Every function takes any input, comes to an end, and answers a struct: the number of the table below, and its fields, 0 where a
 * number does not name a field. A number above 0 leaves every lent buffer as it was; an answer (number 0) writes only its own words or
 * bytes at the front. A table is a list of 64-bit words, two a record; a set of nodes is a mask, node i having the value 2^i. A record of two
 * words 0 that has no inner sets is an archive whose sheet is unknown: a node that no set satisfies.
 *
 * Arguments come in one order: inputs (pointer, then length), then sets and numbers, then the allowance, then the lent buffer and its room.
 *
 * To build: `tools/build` proves the library and writes target/staticlib/libinterface.a, for x86-64 Linux. It needs nothing but memcpy
 * and memset, which every C library has:
 *
 *   gcc -Iinclude -o target/yours yours.c target/staticlib/libinterface.a
 *
 * What a caller owes: a pointer is aligned for its type and good for its length (NULL with length 0 is fine), and a lent buffer overlaps
 * neither an input nor another lent buffer. The proofs rest on this.
 *
 * Threads: nothing is kept between calls and there are no globals, so several threads may call at once. Two calls may read one input; a
 * lent buffer belongs to one call until it returns.
 *
 * Stack (bench/stack): at most 58,968 bytes were measured for a report, 34,664 for a list, 25,544 for a verdict or the intact nodes, 4,512
 * for reading a sheet, 480 for anything else, on tables of 64 nodes and 256 records whose searches go as deep as they can: the depth is
 * bounded by the nodes, whatever the allowance. A thread with 96 KiB of stack is enough for a report, one with 64 KiB for all the others.
 *
 *   number  when                                                   also given
 *   0       answered                                               the question's own fields, below
 *   1       odd word count, no record, over 256                    place: 0; 257 for line 257 of a sheet
 *   2       control word 1,024 or more                             place: the record, from 1
 *   3       first record not level 0, or a level jump              place
 *   4       a 65th level 0 record                                  place
 *   5       threshold 0 of a record that is no unknown archive     place
 *   6       a member that is no node                               place
 *   7       threshold above the entries                            place
 *   8       an argument set or node number outside the nodes
 *   9       the allowance ends first                               visits = allowance
 *   10      buffer too short                                       count: words, sets or bytes needed
 *   11      intact asked of a system with two disjoint quorums     first, second, visits
 *   12      malformed line                                         place: the line, from 1
 *   13      a search has no node to split on
 */
#ifndef BREEZEDRUM_H
#define BREEZEDRUM_H

#include <stddef.h>
#include <stdint.h>

#ifdef __cplusplus
extern "C" {
#endif

typedef struct {
    uint64_t number;
    uint64_t place;
    uint64_t nodes;
    uint64_t records;
    uint64_t answer; /* 1 yes, 0 no */
    uint64_t set;
    uint64_t rounds;
    uint64_t first;
    uint64_t second;
    uint64_t count;
    uint64_t visits;
} breezedrum_reply;

/* Checks a packed table. 0: nodes, records. 1 to 7. */
breezedrum_reply breezedrum_check(const uint64_t *table, size_t words);

/* Reads a sheet into `table`, which has room for `words`. The threshold of an unknown archive is written `?`; a written 0 gives 5.
 * 0: count, the words written. 12; 1 to 7; 10. */
breezedrum_reply breezedrum_read_sheet(const uint8_t *sheet, size_t bytes, uint64_t *table, size_t words);

/* Writes a table as a sheet into `sheet`, which has room for `bytes`. 0: count, the bytes written. 1 to 7; 10. */
breezedrum_reply breezedrum_write_sheet(const uint64_t *table, size_t words, uint8_t *sheet, size_t bytes);

/* Writes the report on a sheet into `out`, which has room for `room` bytes: what the report program prints, a bad sheet's `refused` line
 * included. 0: count, the bytes written. 10. */
breezedrum_reply breezedrum_report(const uint8_t *sheet, size_t bytes, uint8_t *out, size_t room);

/* Is `set` a quorum, with `out` counted out? 0: answer. 1 to 7; 8. */
breezedrum_reply breezedrum_quorum(const uint64_t *table, size_t words, uint64_t out, uint64_t set);

/* The greatest quorum within `set`, with `out` counted out. 0: set, rounds. 1 to 7; 8. */
breezedrum_reply breezedrum_greatest(const uint64_t *table, size_t words, uint64_t out, uint64_t set);

/* Does `set` block `node`: is `node` in `set`, or do the nodes outside `set` not satisfy it? 0: answer. 1 to 7; 8. */
breezedrum_reply breezedrum_blocks(const uint64_t *table, size_t words, uint64_t set, uint64_t node);

/* Do all quorums intersect, with `out` counted out? 0: answer, visits, and with a no the pair first, second. 1 to 7; 8; 9; 13. */
breezedrum_reply breezedrum_verdict(const uint64_t *table, size_t words, uint64_t out, uint64_t allowance);

/* The minimal quorums, in the listing order, into `sets`, which has room for `room`. 0: count, visits. 1 to 7; 9; 13; 10. */
breezedrum_reply breezedrum_minimal(const uint64_t *table, size_t words, uint64_t allowance, uint64_t *sets, size_t room);

/* The minimal blocking sets, likewise. Where unknown archives leave no quorum at all, there is one, the empty set, and no minimal quorum. */
breezedrum_reply breezedrum_blocking(const uint64_t *table, size_t words, uint64_t allowance, uint64_t *sets, size_t room);

/* The nodes that stay intact for the ill set `ill`. 0: set, visits. 1 to 7; 8; 9; 11; 13. */
breezedrum_reply breezedrum_intact(const uint64_t *table, size_t words, uint64_t ill, uint64_t allowance);

#ifdef __cplusplus
}
#endif

#endif
