/* The load plan checker for C. Link target/staticlib/libkaqlluwe.a, which `tools/build library` proves and writes.
 *
 * A file or a buffer is given as a pointer to its bytes and their number, the table as a pointer to its words and their number. No pointer
 * is null, also where the number is 0; what a call fills (the table of a check, the two buffers of the writer) overlaps nothing else that
 * it is given; and nothing else changes the bytes or words during a call. Beyond that the caller need check nothing. A call keeps nothing,
 * changes only what it fills, and always returns. Several threads may make calls at once, which may share what they only read, and nothing
 * that one of them fills. A check takes about 22 KB of stack, any other call less than 1 KB; where the program binds memcpy and memset
 * only when they are first called, the first check takes some KB more. */
#ifndef KAQLLUWE_H
#define KAQLLUWE_H

#include <stdbool.h>
#include <stddef.h>
#include <stdint.h>

#ifdef __cplusplus
extern "C" {
#endif

/* Words of the working table that are named. A shorter table is refused and left as it is; words beyond are left as they are. */
#define KAQLLUWE_TABLE_WORDS 8976

/* The most bytes of a file, and the fewest of a buffer that one is written to. */
#define KAQLLUWE_FILE_BYTES 65535

/* Number 0 accepts; any other is a refusal, with up to three places. The cost is in thousandths, the trucks are the used ones. */
typedef struct {
    uint32_t number;
    uint32_t first;
    uint32_t second;
    uint32_t third;
    uint64_t cost;
    uint32_t trucks;
} kaqlluwe_answer;

/* A part of one of the two files: whether that is the plan, and from which byte up to which, which is not included. */
typedef struct {
    bool plan;
    size_t start;
    size_t end;
} kaqlluwe_part;

/* Number 0 and the length of each file; or a refusal, with both lengths 0: 29 where either buffer is too short, otherwise 30 where the
 * table is short or no readable pair of files fills it. */
typedef struct {
    uint32_t number;
    size_t instance_length;
    size_t plan_length;
} kaqlluwe_written;

/* Checks the plan against the instance. The named words of a table that is not short are then what the files say, or zero where they
 * cannot be read. */
kaqlluwe_answer kaqlluwe_check(const uint8_t *instance, size_t instance_bytes, const uint8_t *plan, size_t plan_bytes,
                               uint32_t *table, size_t table_words);

/* The line that a refusal 4, 5, 7 or 8 names, given the answer's number and first place; the empty part at the instance's end for any
 * other number, and for a line that is not there. */
kaqlluwe_part kaqlluwe_bad_line(const uint8_t *instance, size_t instance_bytes, const uint8_t *plan, size_t plan_bytes,
                                uint32_t number, uint32_t line);

/* Writes the files whose check fills the table so, each to the front of its buffer of KAQLLUWE_FILE_BYTES or more. The table is only read,
 * and words beyond the named ones do not matter. No two of the table and the buffers may overlap. Bytes behind a file are left as they
 * are, and after a refusal all bytes of both buffers. */
kaqlluwe_written kaqlluwe_write(const uint32_t *table, size_t table_words, uint8_t *instance, size_t instance_bytes,
                                uint8_t *plan, size_t plan_bytes);

#ifdef __cplusplus
}
#endif

#endif
