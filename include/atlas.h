/* The post-road atlas for C and C++: a sheet is checked, and the k offices nearest by post road to or from a place of it are listed, or
   the question is refused by a number. What is said here of numbers and of bytes is proved of both functions (docs/CONTRACTS.md);
   the stack is measured.

   ./library proves and builds libatlas.a and puts it beside this file, for the processor of the machine that builds it: x86-64 or
   Arm (aarch64), with the calling convention of Linux. It needs the C library, and nothing else:

       cc -Iinclude -o host host.c include/libatlas.a

   examples/catalogue.c is a whole host.

   A SHEET is bytes: 32-bit words, low byte first, in four sections, each a count and then its records:

       places     x, y, gazetteer number                             N of them, numbered from 0
       stages     tail, head, length                                 one way; lengths are in furlongs
       blocks     place, code, level, colour, low ratio, high ratio
       offices    place                                              M of them, numbered from 0

   A gazetteer number is not 0, and different for every place of a sheet. Stages, blocks, offices and questions name a place by its place
   number, which shifts with each sheet; a listed office comes with the gazetteer number of its place.

   Sheets from before places had gazetteer numbers are of another form, and say nowhere that they are. Nearly all are refused, mostly by
   1 or 2; a few small ones are read as another sheet. So keep none of them in use: their new issue is needed. A host that was compiled
   with the header of that time must be compiled again: it lends too little and is refused by 9, or, where it lends more than is needed,
   takes lines of five words for lines of four.

   A QUESTION has a direction, since stages are one way and the two roads between a place and an office may differ: outward the road runs
   from the place asked about to the office, inward from the office to the place. Where a letter was posted that came to a place is asked
   inward.

   A host that was compiled with the header from before questions had a direction must be compiled again: its call of atlas_question has
   an argument less. A compiler refuses that call with this header, but nothing notices an old object file that is linked with this
   archive, and what its calls then do is undefined.

   A ratio is a road length in furlongs over a crow distance, in 4,096ths. The crow distance of two places that are dx apart in x and dy
   in y is the largest whole number whose square is at most 4,096 * (dx^2 + dy^2): it counts in 64ths of a cell, and between different
   places it is 64 to 92,591.

   NO INPUT IS BAD. Any bytes may be a sheet, any numbers a question, and any slice may be too short: each is served or refused by its
   number, and nothing is taken to have been checked before. What is asked of the caller stands under LENDING and ATLAS_STACK_BYTES.

   But a question does not check that the sheet tells the truth. Where answers are to be relied on, ask only sheets that atlas_check
   accepted: there each answer lists the nearest offices, and 16 to 18 never come.

   LENDING. A slice is a pointer and its length in bytes, all of which can be read, and written where it is not the sheet. No slice that
   is written may overlap another slice of the same call, and nothing else may write a slice, the sheet included, until the call returns
   (a mapped file that another program changes will not do). A pointer may be NULL where its length is 0. A slice may be longer than is
   needed and need not be aligned. Nothing is kept after the return.

   THREADS. Any number of threads may call at once: there is no state. One sheet may serve them all, since it is only read; the other
   slices each call has for itself. Memory is taken from the stack alone: see ATLAS_STACK_BYTES. */

#ifndef ATLAS_H
#define ATLAS_H

#include <limits.h>
#include <stddef.h>

#if CHAR_BIT != 8 || UINT_MAX != 4294967295U
#error "atlas.h takes a byte as unsigned char and a 32-bit word as unsigned int"
#endif

/* The stack that a call needs, in bytes, whatever the sheet. A thread must have this much left; one that has less is stopped at its
   guard page, if it has one. tests/catalogue measures that it is enough. */
#define ATLAS_STACK_BYTES 507904

/* The most records of each section (the least is 1 place, and 0 of the others), and the bytes of the largest sheet that there is. */
#define ATLAS_PLACES_MOST 1024
#define ATLAS_STAGES_MOST 8192
#define ATLAS_BLOCKS_MOST 262144
#define ATLAS_OFFICES_MOST 4096
#define ATLAS_SHEET_MOST 6418448

/* The 32-bit words of a record. The count of a section follows the last record of the one before: N is word 0 of the sheet, and M is word
   3 + ATLAS_PLACE_WORDS * N + ATLAS_STAGE_WORDS * (count of stages) + ATLAS_BLOCK_WORDS * (count of blocks). The gazetteer number of
   place p is word 1 + ATLAS_PLACE_WORDS * p + ATLAS_PLACE_GAZETTEER. */
#define ATLAS_PLACE_WORDS 3
#define ATLAS_STAGE_WORDS 3
#define ATLAS_BLOCK_WORDS 6
#define ATLAS_OFFICE_WORDS 1
#define ATLAS_PLACE_GAZETTEER 2

/* The numbers that are returned. Each is given exactly when its condition is the first met, so a sheet may have more faults than the one
   told. The layout is tested in this order: a length in whole words (1); section by section, the count there (1), in its range (2), the
   records there (1); nothing after the last (1); then 3, 4, 5, 6, each over its whole section. */

/* the check accepted, the question was answered */
#define ATLAS_ACCEPTED 0U
#define ATLAS_LISTED 0U

/* the layout of the sheet, tested by both functions */
#define ATLAS_CUT_SHORT 1U        /* byte length no multiple of 4, a section or count cut short, words after the last section */
#define ATLAS_BAD_COUNT 2U        /* a count outside its range */
#define ATLAS_BAD_PLACES 3U       /* the places break a layout rule: x or y above 1,023, two places in one cell, a gazetteer number
                                     that is 0, or the same one at two places */
#define ATLAS_BAD_STAGES 4U       /* the stages do: a place not on the sheet, from a place to itself, a length outside 1 to 65,535,
                                     not strictly ascending by (tail, head), or more than 8 from one place */
#define ATLAS_BAD_BLOCKS 5U       /* the blocks do: a place not on the sheet, a colour that its place has not, a level above 10, a
                                     code not below 1,048,576 or no multiple of 4^level, a low ratio above the high one, not
                                     ascending by place and code, or overlapping within a place */
#define ATLAS_BAD_OFFICES 6U      /* the offices do: an office at a place not on the sheet */

/* the question */
#define ATLAS_BAD_Q 7U            /* q is not below N, or direction is neither ATLAS_OUTWARD nor ATLAS_INWARD */
#define ATLAS_BAD_K 8U            /* k is 0 or above M */
#define ATLAS_SHORT_SLICES 9U     /* answer, working or counts too short */

/* the check */
#define ATLAS_SHORT_DISTANCES 10U /* distances too short */
#define ATLAS_UNREACHED 11U       /* some place cannot be reached from some other */
#define ATLAS_IN_NO_BLOCK 12U     /* a place in no block of some other */
#define ATLAS_WRONG_COLOUR 13U    /* a block's colour is the first stage of no shortest road to a place that it covers */
#define ATLAS_UNTRUE_RATIO 14U    /* a block's ratios do not enclose the true road length */
#define ATLAS_IDLE_BLOCK 15U      /* a block covers no place other than its own */

/* the walk of a question along an office's road; never on a sheet that was accepted */
#define ATLAS_WALK_TOO_LONG 16U   /* N - 1 refinements already made for this office and another is due */
#define ATLAS_WALK_NO_BLOCK 17U   /* no block covers the place sought, which is the office's place outward, and q inward */
#define ATLAS_WALK_EMPTY 18U      /* the interval or overlap is empty */

/* The directions of a question. */
#define ATLAS_OUTWARD 0U          /* the road runs from place q to the office */
#define ATLAS_INWARD 1U           /* the road runs from the office to place q */

#if defined(__cplusplus) || (defined(__STDC_VERSION__) && __STDC_VERSION__ >= 199901L)
#define ATLAS_FUNCTION static inline
#elif defined(__GNUC__)
#define ATLAS_FUNCTION static __inline__
#else
#define ATLAS_FUNCTION static
#endif

#ifdef __cplusplus
extern "C" {
#endif

/* Whether a sheet tells the truth about its roads: the number, 0 where it is accepted. In order: the layout (1 to 6), 10, 11 over all
   pairs, then the pairs by u and then v, the first faulty one giving the lowest of 12, 13 and 14, then 15.

   distances   at least ATLAS_DISTANCES_BYTES(N) bytes; else 10

   Afterwards   0, 12 to 15     32-bit word u * N + v of distances is the road distance from place u to place v, in furlongs
                11              the first ATLAS_DISTANCES_BYTES(N) bytes of distances are 0
                1 to 6, 10      distances is untouched
   Later bytes of distances are never touched. */
unsigned int atlas_check(const unsigned char *sheet, size_t sheet_bytes, unsigned char *distances, size_t distances_bytes);

/* Lists the k offices nearest by road from place q, or inward to place q, nearest first and at equal roads the lower number first (on an
   accepted sheet; on any other, as its blocks have it): the number, 0 where they are listed. In order: the layout (1 to 6), 7, 8, 9, then
   the walk: a first interval, office by office, is tested for 17, 18, a refinement for 16, 17, 18.

   direction   ATLAS_OUTWARD or ATLAS_INWARD; else 7
   answer      at least ATLAS_ANSWER_BYTES(k) bytes; else 9
   working     at least ATLAS_WORKING_BYTES(M) bytes; else 9
   counts      at least ATLAS_COUNTS_BYTES bytes; else 9

   Afterwards   0               answer has five 64-bit words for each listed office, as named below; the first
                                ATLAS_WORKING_BYTES(M) bytes of working are 0
                1 to 9          answer and working are untouched
                16 to 18        their first ATLAS_ANSWER_BYTES(k) and ATLAS_WORKING_BYTES(M) bytes are 0
                any number      counts has two 64-bit words, as named below, both 0 after a refusal; a counts slice that is too
                                short is untouched
   Later bytes of the three are never touched. */
unsigned int atlas_question(const unsigned char *sheet, size_t sheet_bytes, unsigned int q, unsigned int k, unsigned int direction,
                            unsigned char *answer, size_t answer_bytes, unsigned char *working, size_t working_bytes,
                            unsigned char *counts, size_t counts_bytes);

#ifdef __cplusplus
}
#endif

/* How many bytes to lend. A host that lends for the largest sheet needs to know neither N nor M: there are constants for arrays. (The
   exact bytes of distances are worked out by a function, and are no constant expression.) */
#define ATLAS_DISTANCES_BYTES(places) (4 * atlas_square(places))
#define ATLAS_ANSWER_BYTES(k) ((size_t)(k) * 40)
#define ATLAS_WORKING_BYTES(offices) ((size_t)(offices) * 48)
#define ATLAS_COUNTS_BYTES 16

#define ATLAS_DISTANCES_MOST 4194304
#define ATLAS_ANSWER_MOST 163840
#define ATLAS_WORKING_MOST 196608

/* The 64-bit words of answer: listed office number j has these, counted from word j * ATLAS_LINE_WORDS. On an accepted sheet the length
   of the shortest road, which runs as direction says, lies between the two ends, ends included. */
#define ATLAS_LINE_WORDS 5
#define ATLAS_LINE_OFFICE 0
#define ATLAS_LINE_LOW_END 1
#define ATLAS_LINE_HIGH_END 2
#define ATLAS_LINE_STAGES_WALKED 3
#define ATLAS_LINE_GAZETTEER 4 /* of the place where the office stands */

/* The 64-bit words of counts. */
#define ATLAS_COUNT_LISTED 0
#define ATLAS_COUNT_REFINEMENTS 1

/* 32-bit word i of a sheet or of distances; also the low half (i = 2 * j) or high half (i = 2 * j + 1) of 64-bit word j. */
ATLAS_FUNCTION unsigned int atlas_word32(const unsigned char *bytes, size_t i)
{
    const unsigned char *word = bytes + 4 * i;
    return word[0] + 256U * word[1] + 65536U * word[2] + 16777216U * word[3];
}

/* 64-bit word i of answer or counts. C89 has no whole number of 64 bits, but every word that a call writes there is below
   100,000,000,000, whatever the sheet, and a double has every whole number up to 2^53 exactly. */
ATLAS_FUNCTION double atlas_word64(const unsigned char *bytes, size_t i)
{
    return atlas_word32(bytes, 2 * i + 1) * 4294967296.0 + atlas_word32(bytes, 2 * i);
}

ATLAS_FUNCTION size_t atlas_square(size_t number)
{
    return number * number;
}

#endif
