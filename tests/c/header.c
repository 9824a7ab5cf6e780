/* The header as a program uses it that is both C89 and C++: its numbers, its sizes, its words, and each function called. The marked
   sheet comes on standard input; every number expected of it is the paper's. */

#include <atlas.h>
#include <atlas.h>

#include <stdio.h>

static int failed = 0;

static void expect(int holds, const char *what)
{
    if (!holds) {
        printf("header: FAILED: %s\n", what);
        failed = 1;
    }
}

static void numbers(void)
{
    static const unsigned int named[] = {
        ATLAS_ACCEPTED,      ATLAS_CUT_SHORT,     ATLAS_BAD_COUNT,    ATLAS_BAD_PLACES,      ATLAS_BAD_STAGES,
        ATLAS_BAD_BLOCKS,    ATLAS_BAD_OFFICES,   ATLAS_BAD_Q,        ATLAS_BAD_K,           ATLAS_SHORT_SLICES,
        ATLAS_SHORT_DISTANCES, ATLAS_UNREACHED,   ATLAS_IN_NO_BLOCK,  ATLAS_WRONG_COLOUR,    ATLAS_UNTRUE_RATIO,
        ATLAS_IDLE_BLOCK,    ATLAS_WALK_TOO_LONG, ATLAS_WALK_NO_BLOCK, ATLAS_WALK_EMPTY};
    unsigned int number;
    for (number = 0; number < sizeof named / sizeof *named; number++)
        expect(named[number] == number, "each number stands under its name");
    expect(number == ATLAS_WALK_EMPTY + 1, "no number is left out");
    expect(ATLAS_LISTED == 0, "0 is also a list");
    expect(ATLAS_OUTWARD == 0 && ATLAS_INWARD == 1, "0 is outward, 1 inward");
}

static void sizes(void)
{
    unsigned int places = 4;
    expect(ATLAS_DISTANCES_BYTES(places++) == 64 && places == 5, "4 places lend 64 bytes, and are counted once");
    expect(ATLAS_ANSWER_BYTES(1 + 1) == 80, "2 offices lend 80 bytes");
    expect(ATLAS_LINE_WORDS * 8 * 2 == 80, "a line has all the words that are lent for it");
    expect(ATLAS_WORKING_BYTES(1 + 2) == 144, "3 offices lend 144 bytes");
    expect(sizeof(ATLAS_ANSWER_BYTES(1)) == sizeof(size_t), "bytes are a size");
    expect(ATLAS_DISTANCES_BYTES(ATLAS_PLACES_MOST) == ATLAS_DISTANCES_MOST, "distances of the largest sheet");
    expect(ATLAS_ANSWER_BYTES(ATLAS_OFFICES_MOST) == ATLAS_ANSWER_MOST, "answer of the largest sheet");
    expect(ATLAS_WORKING_BYTES(ATLAS_OFFICES_MOST) == ATLAS_WORKING_MOST, "working of the largest sheet");
    expect(4 * (4 + ATLAS_PLACE_WORDS * ATLAS_PLACES_MOST + ATLAS_STAGE_WORDS * ATLAS_STAGES_MOST + ATLAS_BLOCK_WORDS * ATLAS_BLOCKS_MOST +
                ATLAS_OFFICE_WORDS * ATLAS_OFFICES_MOST) == ATLAS_SHEET_MOST,
           "the largest sheet: four counts and all records");
    expect(ATLAS_SHEET_MOST == 6418448, "the largest sheet in bytes");
}

static void words(void)
{
    static const unsigned char bytes[] = {1, 2, 3, 4, 255, 255, 255, 255, 0xE9, 0xFF, 0xEF, 0x9A, 22, 0, 0, 0};
    expect(atlas_word32(bytes, 0) == 67305985U, "a word, low byte first");
    expect(atlas_word32(bytes, 1) == 4294967295U, "the largest word");
    expect(atlas_word64(bytes, 1) == 97088700393.0, "the largest high end");
    expect(atlas_word32(bytes, 2) == 2599419881U && atlas_word32(bytes, 3) == 22, "its halves");
}

static int is_filled(const unsigned char *bytes, size_t from, size_t to, unsigned int byte)
{
    while (from < to && bytes[from] == byte)
        from++;
    return from == to;
}

static void fill(unsigned char *bytes, size_t count)
{
    size_t i;
    for (i = 0; i < count; i++)
        bytes[i] = 170;
}

static void check(const unsigned char *sheet, size_t bytes)
{
    static unsigned char distances[ATLAS_DISTANCES_MOST];
    fill(distances, sizeof distances);
    expect(atlas_check(NULL, 0, NULL, 0) == ATLAS_CUT_SHORT, "no sheet");
    expect(atlas_check(sheet, bytes, NULL, 0) == ATLAS_SHORT_DISTANCES, "no distances");
    expect(atlas_check(sheet, bytes, distances, ATLAS_DISTANCES_BYTES(4) - 1) == ATLAS_SHORT_DISTANCES, "a byte too few");
    expect(is_filled(distances, 0, sizeof distances, 170), "10: distances are untouched");
    expect(atlas_check(sheet, bytes, distances, sizeof distances) == ATLAS_ACCEPTED, "the marked sheet is accepted");
    expect(atlas_word32(distances, 2 * 4 + 3) == 20 && atlas_word32(distances, 2) == 11, "P5 and P6");
    expect(is_filled(distances, ATLAS_DISTANCES_BYTES(4), sizeof distances, 170), "later bytes are untouched");
}

/* Asks in slices that are longer than the marked sheet needs. */
static unsigned char answer[200], working[200], counts[ATLAS_COUNTS_BYTES + 1];

static unsigned int ask(const unsigned char *sheet, size_t bytes, unsigned int q, unsigned int k, unsigned int direction)
{
    fill(answer, sizeof answer);
    fill(working, sizeof working);
    fill(counts, sizeof counts);
    return atlas_question(sheet, bytes, q, k, direction, answer, sizeof answer, working, sizeof working, counts, sizeof counts);
}

static double in_line(size_t rank, size_t which)
{
    return atlas_word64(answer, rank * ATLAS_LINE_WORDS + which);
}

static void places(const unsigned char *sheet)
{
    size_t place;
    for (place = 0; place < 4; place++)
        expect(atlas_word32(sheet, 1 + ATLAS_PLACE_WORDS * place + ATLAS_PLACE_GAZETTEER) == 101 + place, "places 0 to 3: 101 to 104");
}

/* Lends an answer of so many bytes for two offices, and all else that they need. */
static unsigned int ask_in(const unsigned char *sheet, size_t bytes, size_t answer_bytes)
{
    fill(answer, sizeof answer);
    return atlas_question(sheet, bytes, 2, 2, ATLAS_OUTWARD, answer, answer_bytes, working, sizeof working, counts, sizeof counts);
}

static void short_answer(const unsigned char *sheet, size_t bytes)
{
    expect(ask_in(sheet, bytes, 2 * 32) == ATLAS_SHORT_SLICES, "2 offices with 32 bytes each, as before");
    expect(is_filled(answer, 0, sizeof answer, 170), "9 with 32 bytes each: the answer is untouched");
    expect(ask_in(sheet, bytes, 2 * 40 - 1) == ATLAS_SHORT_SLICES, "2 offices with a byte too few");
    expect(is_filled(answer, 0, sizeof answer, 170), "9 with a byte too few: the answer is untouched");
    expect(ask_in(sheet, bytes, 2 * 40) == ATLAS_LISTED, "2 offices with 40 bytes each");
}

/* The marked sheet with a word changed. */
static unsigned char changed[316];

static void change(const unsigned char *sheet, size_t bytes, size_t word, unsigned int number)
{
    size_t i;
    for (i = 0; i < sizeof changed && i < bytes; i++)
        changed[i] = sheet[i];
    for (i = 0; i < 4; i++)
        changed[4 * word + i] = (unsigned char)(number >> 8 * i & 255);
}

static unsigned int check_with(const unsigned char *sheet, size_t bytes, size_t place, unsigned int gazetteer_number)
{
    static unsigned char distances[64];
    change(sheet, bytes, 1 + ATLAS_PLACE_WORDS * place + ATLAS_PLACE_GAZETTEER, gazetteer_number);
    return atlas_check(changed, sizeof changed, distances, sizeof distances);
}

static void gazetteer(const unsigned char *sheet, size_t bytes)
{
    expect(check_with(sheet, bytes, 0, 0) == ATLAS_BAD_PLACES, "0 at the first place");
    expect(check_with(sheet, bytes, 3, 0) == ATLAS_BAD_PLACES, "0 at the last place");
    expect(check_with(sheet, bytes, 3, 101) == ATLAS_BAD_PLACES, "the first and the last place with one number");
    expect(check_with(sheet, bytes, 3, 1) == ATLAS_ACCEPTED, "the least number");
    expect(check_with(sheet, bytes, 0, 4294967295U) == ATLAS_ACCEPTED, "the largest number");
}

/* Whether a listed office has these words, each as the paper has it. */
static int has_line(size_t rank, double office, double length, double stages_walked, double gazetteer_number)
{
    return in_line(rank, ATLAS_LINE_OFFICE) == office && in_line(rank, ATLAS_LINE_LOW_END) == length &&
           in_line(rank, ATLAS_LINE_HIGH_END) == length && in_line(rank, ATLAS_LINE_STAGES_WALKED) == stages_walked &&
           in_line(rank, ATLAS_LINE_GAZETTEER) == gazetteer_number;
}

static int has_counts(double listed, double refinements)
{
    return atlas_word64(counts, ATLAS_COUNT_LISTED) == listed && atlas_word64(counts, ATLAS_COUNT_REFINEMENTS) == refinements;
}

/* What a question of two offices leaves beside its answer, once it came to the walk. */
static void expect_left(void)
{
    expect(is_filled(working, 0, ATLAS_WORKING_BYTES(3), 0), "a walk: the working bytes are 0");
    expect(is_filled(answer, ATLAS_ANSWER_BYTES(2), sizeof answer, 170) && is_filled(counts, ATLAS_COUNTS_BYTES, sizeof counts, 170) &&
               is_filled(working, ATLAS_WORKING_BYTES(3), sizeof working, 170),
           "a walk: later bytes are untouched");
}

static void question(const unsigned char *sheet, size_t bytes)
{
    expect(ask(sheet, bytes, 2, 2, ATLAS_OUTWARD) == ATLAS_LISTED, "P10 is listed");
    expect(has_counts(2, 5), "P10: the counts");
    expect(has_line(0, 2, 5, 1, 102), "P10: office 2");
    expect(has_line(1, 0, 11, 2, 101), "P10: office 0");
    expect_left();
    expect(ask(sheet, bytes, 2, 2, ATLAS_INWARD) == ATLAS_LISTED, "P10 inward is listed");
    expect(has_counts(2, 0), "P10 inward: the counts");
    expect(has_line(0, 2, 5, 0, 102), "P10 inward: office 2");
    expect(has_line(1, 0, 11, 0, 101), "P10 inward: office 0");
    expect_left();
}

/* A question is refused by the number, and leaves what 7 and 8 leave. */
static void expect_refused(unsigned int given, unsigned int number, const char *what)
{
    expect(given == number, what);
    expect(is_filled(answer, 0, sizeof answer, 170) && is_filled(working, 0, sizeof working, 170), "7 and 8: both are untouched");
    expect(is_filled(counts, 0, ATLAS_COUNTS_BYTES, 0), "7 and 8: the counts are 0");
}

static void refused(const unsigned char *sheet, size_t bytes)
{
    static const unsigned int neither[] = {2, 256, 2147483648U, 4294967295U};
    size_t i;
    for (i = 0; i < sizeof neither / sizeof *neither; i++) {
        expect_refused(ask(sheet, bytes, 2, 2, neither[i]), ATLAS_BAD_Q, "a direction that is neither");
        expect_refused(ask(sheet, bytes, 4, 2, neither[i]), ATLAS_BAD_Q, "neither, and q = 4");
        expect_refused(ask(sheet, bytes, 2, 0, neither[i]), ATLAS_BAD_Q, "neither, and k = 0");
    }
    expect_refused(ask(sheet, bytes, 4, 2, ATLAS_OUTWARD), ATLAS_BAD_Q, "q = 4 of 4 places, outward");
    expect_refused(ask(sheet, bytes, 4, 0, ATLAS_INWARD), ATLAS_BAD_Q, "q = 4 of 4 places, inward, and k = 0");
    expect_refused(ask(sheet, bytes, 2, 4, ATLAS_OUTWARD), ATLAS_BAD_K, "4 of 3 offices, outward");
    expect_refused(ask(sheet, bytes, 2, 4, ATLAS_INWARD), ATLAS_BAD_K, "4 of 3 offices, inward");
    expect_refused(ask(sheet, bytes, 2, 0, ATLAS_INWARD), ATLAS_BAD_K, "no office, inward");
}

/* A word of a block: before the blocks stand 4 places, 6 stages and three counts. The blocks of places 2 and 3 are numbers 5 and 6. */
#define BLOCK_WORD(block, word) (3 + ATLAS_PLACE_WORDS * 4 + ATLAS_STAGE_WORDS * 6 + ATLAS_BLOCK_WORDS * (block) + (word))
#define LEVEL 2
#define HIGH_RATIO 5

/* Asks of the changed sheet, which was not checked; a refused walk leaves 0 in what two offices of three need. */
static void expect_walk(unsigned int direction, unsigned int number, const char *what)
{
    unsigned int expected = number == ATLAS_LISTED ? 2 : 0;
    expect(ask(changed, sizeof changed, 2, 2, direction) == number, what);
    expect(atlas_word64(counts, ATLAS_COUNT_LISTED) == expected, "a walk: the count listed");
    expect(is_filled(answer, 0, ATLAS_ANSWER_BYTES(2), 0) == (number != ATLAS_LISTED), "a walk: the answer");
    expect_left();
}

/* The direction decides whose block is asked first, and for which place. */
static void walks(const unsigned char *sheet, size_t bytes)
{
    change(sheet, bytes, BLOCK_WORD(5, LEVEL), 0);
    expect_walk(ATLAS_OUTWARD, ATLAS_WALK_NO_BLOCK, "place 2's block covers place 0 alone: office 1, at place 3, is sought in it outward");
    expect_walk(ATLAS_INWARD, ATLAS_LISTED, "place 2's block covers place 0 alone: it is not asked inward");
    change(sheet, bytes, BLOCK_WORD(6, LEVEL), 0);
    expect_walk(ATLAS_OUTWARD, ATLAS_LISTED, "place 3's block covers place 0 alone: it is not asked outward");
    expect_walk(ATLAS_INWARD, ATLAS_WALK_NO_BLOCK, "place 3's block covers place 0 alone: place 2 is sought in it inward, for office 1");
    /* 115 * 429 / 4,096 is between 12 and 13 */
    change(sheet, bytes, BLOCK_WORD(6, HIGH_RATIO), 115);
    expect_walk(ATLAS_OUTWARD, ATLAS_LISTED, "both ratios of place 3 are 115, which is not asked outward");
    expect_walk(ATLAS_INWARD, ATLAS_WALK_EMPTY, "both ratios of place 3 are 115: no length fits from there to place 2");
}

/* Several faults at once: which number comes first. */
static void nothing_lent(const unsigned char *sheet, size_t bytes)
{
    expect(atlas_question(NULL, 0, 4, 0, 2, NULL, 0, NULL, 0, NULL, 0) == ATLAS_CUT_SHORT, "no sheet, and all else bad");
    expect(atlas_question(sheet, bytes, 2, 2, 2, NULL, 0, NULL, 0, NULL, 0) == ATLAS_BAD_Q, "neither, and nothing lent");
    expect(atlas_question(sheet, bytes, 2, 0, ATLAS_INWARD, NULL, 0, NULL, 0, NULL, 0) == ATLAS_BAD_K, "inward, k = 0, and nothing lent");
    expect(atlas_question(sheet, bytes, 2, 2, ATLAS_OUTWARD, NULL, 0, NULL, 0, NULL, 0) == ATLAS_SHORT_SLICES, "outward, nothing lent");
    expect(atlas_question(sheet, bytes, 2, 2, ATLAS_INWARD, NULL, 0, NULL, 0, NULL, 0) == ATLAS_SHORT_SLICES, "inward, nothing lent");
}

int main(void)
{
    unsigned char sheet[317];
    size_t bytes = fread(sheet, 1, sizeof sheet, stdin);
    expect(bytes == 316, "the marked sheet is 316 bytes");
    numbers();
    sizes();
    words();
    check(sheet, bytes);
    places(sheet);
    gazetteer(sheet, bytes);
    question(sheet, bytes);
    refused(sheet, bytes);
    walks(sheet, bytes);
    nothing_lent(sheet, bytes);
    short_answer(sheet, bytes);
    return failed;
}
