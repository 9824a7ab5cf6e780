/* A host of the library: checks a sheet once, then answers questions about it, in words or in columns. C99 and POSIX.

       cc -std=c99 -Iinclude -o catalogue examples/catalogue.c include/libatlas.a */

#define _POSIX_C_SOURCE 200809L

#include <atlas.h>

#include <errno.h>
#include <fcntl.h>
#include <limits.h>
#include <signal.h>
#include <stdbool.h>
#include <stdio.h>
#include <stdlib.h>
#include <string.h>
#include <sys/stat.h>
#include <unistd.h>

static const char usage[] =
    "usage: catalogue [-c] SHEET [[to|from] Q K]...\n"
    "Lists, for each question, the K offices nearest by road\n"
    "    to Q K      to place Q: the road runs from the office to the place, as that of a letter that came to Q did\n"
    "    from Q K    from place Q: the road runs from the place to the office\n"
    "    Q K         as to Q K; a from before another question is not meant for this one\n"
    "SHEET is a file of bytes. Q is the place's number on the sheet, or # and its gazetteer number: as an argument in quotes, '#103',\n"
    "since the shell takes a bare # and all that follows it for a comment.\n"
    "With no question there, they are read from standard input, one to a line, with spaces or tabs between the words. Blank lines\n"
    "are skipped. What is no question is told on standard error, and the rest is still answered.\n"
    "Where the questions are arguments, the sheet may come on standard input, as /dev/stdin. A question begins at each argument that\n"
    "begins with a letter, and after two numbers; so a word that follows its numbers belongs to the next question. Where the numbers up\n"
    "to the next such argument, or the last, do not come in twos, they are no question, all of them together: one is missing, and\n"
    "which cannot be known.\n"
    "With -c the answers are columns, with tabs between:\n"
    "    listed   Q K OFFICES REFINEMENTS GAZETTEER DIRECTION                  and then a line for each of the OFFICES listed:\n"
    "    office   Q K RANK OFFICE PLACE LOW HIGH STAGES GAZETTEER DIRECTION    the road is LOW to HIGH furlongs long; STAGES were walked\n"
    "    refused  Q K NUMBER DIRECTION\n"
    "    unasked  COUNT             no question: line number COUNT, or question number COUNT of the arguments\n"
    "    refused-sheet  NUMBER      alone: no question is asked\n"
    "Q is a place number there, however it was written; GAZETTEER is the gazetteer number of Q after listed, of PLACE after office;\n"
    "DIRECTION is to or from.\n"
    "Exit status: 0 every question answered; 1 the sheet or a question refused; 2 something could not be asked or written.\n";

/* Exit statuses; of several the highest counts. */
enum status { ANSWERED, REFUSED, NOT_ASKED };

struct host {
    bool columns;
    bool cannot_write;
    unsigned char *sheet;
    size_t sheet_bytes;
    /* N and M, and the sheet's word that has the place of office 0 */
    unsigned int places;
    unsigned int offices;
    size_t first_office;
    /* lent to every question */
    unsigned char *answer;
    unsigned char *working;
    unsigned char counts[ATLAS_COUNTS_BYTES];
};

/* A question as it was written: to or from or neither, and two numbers; of an argument each, or of a line. Words beyond the most that a
   question has are only counted. Where it stood is for what is said of it. */
struct word {
    const char *text;
    size_t length;
};

#define WORDS_MOST 3

struct written {
    const char *where;
    unsigned long count;
    struct word words[WORDS_MOST];
    size_t word_count;
};

struct question {
    unsigned int q;
    unsigned int k;
    unsigned int direction;
};

/* By direction: what stands before the place asked about, and how the road runs. */
static const struct {
    const char *word;
    const char *road;
} directions[] = {
    [ATLAS_OUTWARD] = {"from", "from the place to the office"},
    [ATLAS_INWARD] = {"to", "from the office to the place"},
};

struct refusal {
    const char *meaning;
    const char *remedy;
};

#define OLD_FORM " A sheet from before places had gazetteer numbers is of another form: ask for its new issue."
#define SEND_BACK "Send the sheet back to the atlas house, naming the number." OLD_FORM
#define AS_BYTES " A sheet written as text must be turned into bytes first: ./sheet bytes."
#define NEVER_HERE "Never met here, where enough is lent and the sheet is checked first: the program is at fault, and not the sheet."

/* The meanings are those of docs/REFUSALS.md. */
static const struct refusal refusals[] = {
    [ATLAS_CUT_SHORT] =
        {"The sheet is not whole: it ends too early, has something after its last section, or its length is no multiple of 4 bytes.",
         "Fetch the file again, since copying may have cut it." AS_BYTES OLD_FORM
         " If the number stays, send the sheet back to the atlas house, naming the number."},
    [ATLAS_BAD_COUNT] =
        {"A section has too few or too many records: a sheet has 1 to 1,024 places, up to 8,192 stages, up to 262,144 blocks and up"
         " to 4,096 offices.",
         SEND_BACK AS_BYTES},
    [ATLAS_BAD_PLACES] =
        {"The places break a rule: x or y is above 1,023, or two places share a cell, or a gazetteer number is 0, or two places have"
         " the same one.",
         SEND_BACK},
    [ATLAS_BAD_STAGES] =
        {"The stages break a rule: a stage names a place that is not on the sheet, or begins and ends at one place, or has a length"
         " outside 1 to 65,535; or the stages do not strictly ascend by tail and head; or more than 8 leave a place.",
         SEND_BACK},
    [ATLAS_BAD_BLOCKS] =
        {"The blocks break a rule: a block names a place that is not on the sheet or a colour that its place has not, or its level"
         " is above 10, or its code is 1,048,576 or more or no multiple of 4 to the power of its level, or its low ratio is above"
         " its high ratio; or the blocks are out of order or overlap.",
         SEND_BACK},
    [ATLAS_BAD_OFFICES] = {"An office stands at a place that is not on the sheet.", SEND_BACK},
    [ATLAS_BAD_Q] =
        {"The place asked about is not on the sheet, or the direction is neither outward nor inward.",
         "Ask again with a place number that is. Places are numbered from 0, so the last number is one less than their count. Place"
         " numbers shift with each sheet: a place can also be asked for by its gazetteer number, as #103. A program must give the"
         " direction as 0, outward, or 1, inward; this one does."},
    [ATLAS_BAD_K] =
        {"No office was asked for, or more than the sheet has.",
         "Ask again for at least 1 office and at most as many as the sheet has."},
    [ATLAS_SHORT_SLICES] = {"A program lent the question too little room for its answer, its work or its counts.", NEVER_HERE},
    [ATLAS_SHORT_DISTANCES] = {"A program lent the check too little room for the road lengths.", NEVER_HERE},
    [ATLAS_UNREACHED] = {"Some place cannot be reached by road from some other.", SEND_BACK},
    [ATLAS_IN_NO_BLOCK] = {"A place lies in no block of some other place.", SEND_BACK},
    [ATLAS_WRONG_COLOUR] =
        {"A block's colour is not the first stage of any shortest road to a place that it covers.", SEND_BACK},
    [ATLAS_UNTRUE_RATIO] =
        {"A block's ratios do not enclose the true road length.",
         SEND_BACK " Sheets from before crow distances counted in 64ths of a cell have all been reissued: ask for the new issue."},
    [ATLAS_IDLE_BLOCK] = {"A block covers no place other than its own.", SEND_BACK},
    [ATLAS_WALK_TOO_LONG] =
        {"The walk along an office's road went on for as many stages as there are places, less one, and another was due.", NEVER_HERE},
    [ATLAS_WALK_NO_BLOCK] =
        {"On the walk along an office's road, no block covers the place sought: outward the office's place, inward the place asked"
         " about.",
         NEVER_HERE},
    [ATLAS_WALK_EMPTY] = {"On the walk along an office's road, no length fits between the two ends.", NEVER_HERE},
};

/* Room for so many bytes, or false where there is none left. No bytes need no room: NULL goes with length 0. */
static bool lend(unsigned char **slice, size_t bytes)
{
    *slice = bytes == 0 ? NULL : malloc(bytes);
    if (*slice == NULL && bytes != 0) {
        fputs("catalogue: there is not enough memory\n", stderr);
        return false;
    }
    return true;
}

/* How much is read of a file at the most. The whole of a longer file need not be read: its first bytes, a word more than the largest
   sheet and as far from whole words as the file is, get the number that the file would get. (Of a pipe the length is not known.) */
#define READ_MOST (ATLAS_SHEET_MOST + 4)

static size_t most_bytes(int file)
{
    struct stat about;
    bool has_length = fstat(file, &about) == 0 && S_ISREG(about.st_mode);
    return READ_MOST + (has_length ? (size_t)about.st_size % 4 : 0);
}

/* Reads to the end of the file, or so many bytes; false where it cannot be read. */
static bool read_bytes(int file, size_t most, unsigned char *bytes, size_t *count)
{
    ssize_t more = 1;
    *count = 0;
    while (more != 0 && *count < most) {
        more = read(file, bytes + *count, most - *count);
        if (more > 0)
            *count += (size_t)more;
        else if (more < 0 && errno != EINTR)
            return false;
    }
    return true;
}

/* Reads a copy of the sheet. It is not mapped: another program could change a mapped file after it was checked. */
static bool read_sheet(struct host *host, const char *name)
{
    unsigned char *cut_to_size;
    int file;
    bool is_read;
    if (!lend(&host->sheet, READ_MOST + 3))
        return false;
    file = open(name, O_RDONLY);
    is_read = file >= 0 && read_bytes(file, most_bytes(file), host->sheet, &host->sheet_bytes);
    if (!is_read)
        fprintf(stderr, "%s cannot be read: %s\n", name, strerror(errno));
    if (file >= 0)
        close(file);
    cut_to_size = host->sheet_bytes == 0 ? NULL : realloc(host->sheet, host->sheet_bytes);
    if (cut_to_size != NULL)
        host->sheet = cut_to_size;
    return is_read;
}

static void tell_meaning(unsigned int number)
{
    printf("%s\nWhat to do: %s\n", refusals[number].meaning, refusals[number].remedy);
}

static void tell_refused_sheet(const struct host *host, unsigned int number)
{
    if (host->columns) {
        printf("refused-sheet\t%u\n", number);
    } else {
        printf("Refused, number %u. ", number);
        tell_meaning(number);
    }
}

static void tell_counted(double count, const char *thing)
{
    printf("%.0f %s%s", count, thing, count == 1 ? "" : "s");
}

/* Of a place that is below N. */
static unsigned int gazetteer_of(const struct host *host, unsigned int place)
{
    return atlas_word32(host->sheet, 1 + (size_t)place * ATLAS_PLACE_WORDS + ATLAS_PLACE_GAZETTEER);
}

static void tell_refused(const struct host *host, const struct question *asked, unsigned int number)
{
    const char *word = directions[asked->direction].word;
    if (host->columns) {
        printf("refused\t%u\t%u\t%u\t%s\n", asked->q, asked->k, number, word);
        return;
    }
    printf("Refused, number %u (", number);
    tell_counted(asked->k, "office");
    printf(" %s place %u", word, asked->q);
    if (asked->q < host->places)
        printf(", #%u", gazetteer_of(host, asked->q));
    printf("). ");
    tell_meaning(number);
}

static double in_line(const struct host *host, unsigned int rank, unsigned int which)
{
    return atlas_word64(host->answer, (size_t)rank * ATLAS_LINE_WORDS + which);
}

static unsigned int place_of(const struct host *host, unsigned int office)
{
    return atlas_word32(host->sheet, host->first_office + office);
}

static void tell_columns(const struct host *host, const struct question *asked)
{
    const char *word = directions[asked->direction].word;
    unsigned int rank;
    printf("listed\t%u\t%u\t%.0f\t%.0f\t%u\t%s\n", asked->q, asked->k, atlas_word64(host->counts, ATLAS_COUNT_LISTED),
           atlas_word64(host->counts, ATLAS_COUNT_REFINEMENTS), gazetteer_of(host, asked->q), word);
    for (rank = 0; rank < asked->k; rank++) {
        unsigned int office = (unsigned int)in_line(host, rank, ATLAS_LINE_OFFICE);
        printf("office\t%u\t%u\t%u\t%u\t%u\t%.0f\t%.0f\t%.0f\t%.0f\t%s\n", asked->q, asked->k, rank + 1, office,
               place_of(host, office), in_line(host, rank, ATLAS_LINE_LOW_END), in_line(host, rank, ATLAS_LINE_HIGH_END),
               in_line(host, rank, ATLAS_LINE_STAGES_WALKED), in_line(host, rank, ATLAS_LINE_GAZETTEER), word);
    }
}

static void tell_office(const struct host *host, unsigned int rank)
{
    unsigned int office = (unsigned int)in_line(host, rank, ATLAS_LINE_OFFICE);
    double low = in_line(host, rank, ATLAS_LINE_LOW_END);
    double high = in_line(host, rank, ATLAS_LINE_HIGH_END);
    printf("  %u. office %u (at place %u, #%.0f): ", rank + 1, office, place_of(host, office),
           in_line(host, rank, ATLAS_LINE_GAZETTEER));
    if (low == high)
        printf("exactly ");
    else
        printf("between %.0f and ", low);
    tell_counted(high, "furlong");
    printf(", ");
    tell_counted(in_line(host, rank, ATLAS_LINE_STAGES_WALKED), "stage");
    printf(" walked\n");
}

static void tell_words(const struct host *host, const struct question *asked)
{
    unsigned int rank;
    if (asked->k == 1)
        printf("The office");
    else
        printf("The %u offices", asked->k);
    printf(" nearest by road %s place %u (#%u), the road running %s:\n", directions[asked->direction].word, asked->q,
           gazetteer_of(host, asked->q), directions[asked->direction].road);
    for (rank = 0; rank < asked->k; rank++)
        tell_office(host, rank);
    tell_counted(atlas_word64(host->counts, ATLAS_COUNT_REFINEMENTS), "refinement");
    printf(" in all.\n");
}

static enum status ask(struct host *host, const struct question *asked)
{
    unsigned int number = atlas_question(host->sheet, host->sheet_bytes, asked->q, asked->k, asked->direction, host->answer,
                                         ATLAS_ANSWER_BYTES(host->offices), host->working, ATLAS_WORKING_BYTES(host->offices),
                                         host->counts, sizeof host->counts);
    if (number != ATLAS_LISTED) {
        tell_refused(host, asked, number);
        return REFUSED;
    }
    if (host->columns)
        tell_columns(host, asked);
    else
        tell_words(host, asked);
    return ANSWERED;
}

/* Begins what is said of something that is no question. */
static void tell_unasked(const struct host *host, const struct written *written)
{
    if (host->columns)
        printf("unasked\t%lu\n", written->count);
    fprintf(stderr, "%s %lu: ", written->where, written->count);
}

/* A word as it looks; what a screen would not show as a letter is a question mark. */
static void show(struct word word)
{
    size_t i;
    putc('"', stderr);
    for (i = 0; i < word.length; i++)
        putc(word.text[i] > ' ' && word.text[i] <= '~' ? word.text[i] : '?', stderr);
    putc('"', stderr);
}

static const char no_number[] = "is not a number (digits alone, no commas, no sign)";

/* The number that a word gives; what is returned is what is wrong with it, or NULL. */
static const char *read_number(struct word word, unsigned int *number)
{
    const char *fault = NULL;
    size_t i;
    *number = 0;
    for (i = 0; i < word.length; i++) {
        unsigned int digit = (unsigned int)word.text[i] - '0';
        if (digit > 9)
            return no_number;
        if (*number > (UINT_MAX - digit) / 10)
            fault = "is above 4,294,967,295, the largest number that can be asked";
        *number = *number * 10 + digit;
    }
    return word.length == 0 ? no_number : fault;
}

/* Finds the place that has a gazetteer number: one at the most, since the sheet was accepted. */
static bool find_place(const struct host *host, unsigned int gazetteer, unsigned int *place)
{
    for (*place = 0; *place < host->places; ++*place) {
        if (gazetteer_of(host, *place) == gazetteer)
            return true;
    }
    return false;
}

/* The place that a word names, by its number or by # and its gazetteer number; what is returned is as above. */
static const char *read_place(const struct host *host, struct word word, unsigned int *place)
{
    unsigned int gazetteer;
    const char *fault;
    if (word.length == 0 || word.text[0] != '#')
        return read_number(word, place);
    fault = read_number((struct word){word.text + 1, word.length - 1}, &gazetteer);
    if (fault == no_number)
        return "is no gazetteer number (# and then digits alone, as in #103)";
    if (fault == NULL && gazetteer == 0)
        return "is no gazetteer number, since none is 0";
    if (fault == NULL && !find_place(host, gazetteer, place))
        return "is the gazetteer number of no place of this sheet";
    return fault;
}

static enum status tell_fault(const struct host *host, const struct written *written, struct word word, const char *fault)
{
    tell_unasked(host, written);
    show(word);
    fprintf(stderr, " %s\n", fault);
    return NOT_ASKED;
}

/* What begins with a letter is never a number: it begins a question. */
static bool is_lettered(struct word word)
{
    return word.length > 0 && ((word.text[0] >= 'a' && word.text[0] <= 'z') || (word.text[0] >= 'A' && word.text[0] <= 'Z'));
}

/* The direction that a word gives; what is returned is as above. */
static const char *read_direction(struct word word, unsigned int *direction)
{
    for (*direction = 0; *direction < sizeof directions / sizeof *directions; ++*direction) {
        const char *known = directions[*direction].word;
        if (word.length == strlen(known) && memcmp(word.text, known, word.length) == 0)
            return NULL;
    }
    return "is neither to nor from, in small letters";
}

#define EXPECTED "a question: Q K, to Q K or from Q K"

/* Asks the question of two numbers, in a direction that is known. */
static enum status ask_numbers(struct host *host, const struct written *written, const struct word *numbers, unsigned int direction)
{
    struct question asked = {0, 0, direction};
    const char *fault = read_place(host, numbers[0], &asked.q);
    if (fault != NULL)
        return tell_fault(host, written, numbers[0], fault);
    fault = read_number(numbers[1], &asked.k);
    if (fault != NULL)
        return tell_fault(host, written, numbers[1], fault);
    return ask(host, &asked);
}

/* A word that gives a direction where a number is due, or NULL. */
static const struct word *find_late(const struct written *written)
{
    unsigned int direction;
    size_t i;
    for (i = 1; i < written->word_count && i < WORDS_MOST; i++) {
        if (read_direction(written->words[i], &direction) == NULL)
            return &written->words[i];
    }
    return NULL;
}

static enum status ask_written(struct host *host, const struct written *written)
{
    unsigned int direction = ATLAS_INWARD;
    size_t before = is_lettered(written->words[0]) ? 1 : 0;
    size_t numbers = written->word_count - before;
    const char *fault = before == 0 ? NULL : read_direction(written->words[0], &direction);
    const struct word *late = find_late(written);
    if (fault != NULL)
        return tell_fault(host, written, written->words[0], fault);
    if (late != NULL)
        return tell_fault(host, written, *late, "comes too late: to or from stands before Q and K, once");
    if (numbers != 2) {
        tell_unasked(host, written);
        fprintf(stderr, "too %s numbers (%lu); expected " EXPECTED "\n", numbers < 2 ? "few" : "many", (unsigned long)numbers);
        return NOT_ASKED;
    }
    return ask_numbers(host, written, written->words + before, direction);
}

static enum status not_written(void)
{
    fprintf(stderr, "the answer cannot be written: %s\n", strerror(errno));
    return NOT_ASKED;
}

/* After each question: what was said of it is on its way, or no more is asked. */
static enum status passed_on(struct host *host, enum status status)
{
    host->cannot_write = fflush(stdout) != 0 || ferror(stdout);
    return host->cannot_write ? not_written() : status;
}

static enum status higher(enum status one, enum status other)
{
    return one > other ? one : other;
}

static struct word as_word(const char *argument)
{
    return (struct word){argument, strlen(argument)};
}

static void add_word(struct written *written, struct word word)
{
    if (written->word_count < WORDS_MOST)
        written->words[written->word_count] = word;
    written->word_count++;
}

/* How many arguments stand before the next that begins with a letter. */
static size_t count_numbers(char **arguments, size_t count)
{
    size_t numbers = 0;
    while (numbers < count && !is_lettered(as_word(arguments[numbers])))
        numbers++;
    return numbers;
}

/* The question that the first of the arguments begins. Numbers that do not come in twos are taken all at once, which is no question:
   which of them is missing cannot be known. */
static struct written take_question(char **arguments, size_t count, unsigned long number)
{
    struct written written = {"question", number, {{NULL, 0}}, 0};
    size_t before = is_lettered(as_word(arguments[0])) ? 1 : 0;
    size_t numbers = count_numbers(arguments + before, count - before);
    size_t i, taken = before + (numbers > 0 && numbers % 2 == 0 ? 2 : numbers);
    for (i = 0; i < taken; i++)
        add_word(&written, as_word(arguments[i]));
    return written;
}

static enum status ask_arguments(struct host *host, char **arguments, size_t count)
{
    enum status status = ANSWERED;
    unsigned long number = 0;
    size_t i = 0;
    while (i < count && !host->cannot_write) {
        struct written written = take_question(arguments + i, count - i, ++number);
        status = higher(status, passed_on(host, ask_written(host, &written)));
        i += written.word_count;
    }
    return status;
}

static bool is_space(char byte)
{
    return byte == ' ' || byte == '\t' || byte == '\r';
}

/* A line of standard input without its end; of a line that is too long for any question, only so much. Blanks beyond that are dropped. */
struct line {
    char text[80];
    size_t length;
    bool is_too_long;
};

/* False at the end of the input. */
static bool read_line(struct line *line)
{
    int byte = getchar();
    line->length = 0;
    line->is_too_long = false;
    if (byte == EOF)
        return false;
    for (; byte != EOF && byte != '\n'; byte = getchar()) {
        if (line->length < sizeof line->text)
            line->text[line->length++] = (char)byte;
        else if (!is_space((char)byte))
            line->is_too_long = true;
    }
    return !ferror(stdin);
}

static struct written split(const struct line *line, unsigned long count)
{
    struct written written = {"line", count, {{NULL, 0}}, 0};
    size_t i = 0;
    while (i < line->length) {
        size_t start = i;
        while (i < line->length && !is_space(line->text[i]))
            i++;
        if (i > start)
            add_word(&written, (struct word){line->text + start, i - start});
        else
            i++;
    }
    return written;
}

static enum status ask_line(struct host *host, const struct line *line, unsigned long count)
{
    struct written written = split(line, count);
    if (line->is_too_long) {
        tell_unasked(host, &written);
        fprintf(stderr, "too long for " EXPECTED "\n");
        return NOT_ASKED;
    }
    return written.word_count == 0 ? ANSWERED : ask_written(host, &written);
}

static enum status ask_lines(struct host *host)
{
    enum status status = ANSWERED;
    struct line line;
    unsigned long count = 0;
    while (!host->cannot_write && read_line(&line)) {
        count++;
        status = higher(status, passed_on(host, ask_line(host, &line, count)));
    }
    if (ferror(stdin)) {
        fprintf(stderr, "standard input cannot be read: %s\n", strerror(errno));
        return NOT_ASKED;
    }
    return status;
}

/* Checks the sheet, in a slice that is lent for this alone; false where there is no room for it. */
static bool check(const struct host *host, unsigned int *number)
{
    /* A sheet with no count of places or with too many is refused before the slice is looked at. */
    unsigned int places = host->sheet_bytes < 4 ? 0 : atlas_word32(host->sheet, 0);
    size_t bytes = places > ATLAS_PLACES_MOST ? 0 : ATLAS_DISTANCES_BYTES(places);
    unsigned char *distances;
    if (!lend(&distances, bytes))
        return false;
    *number = atlas_check(host->sheet, host->sheet_bytes, distances, bytes);
    free(distances);
    return true;
}

/* Finds the places and offices of a sheet that was accepted, and lends for as many as there are: whoever asks for more is refused. */
static bool prepare(struct host *host)
{
    static const size_t record_words[] = {ATLAS_PLACE_WORDS, ATLAS_STAGE_WORDS, ATLAS_BLOCK_WORDS};
    size_t section, count_at = 0;
    for (section = 0; section < 3; section++)
        count_at += 1 + record_words[section] * atlas_word32(host->sheet, count_at);
    host->places = atlas_word32(host->sheet, 0);
    host->offices = atlas_word32(host->sheet, count_at);
    host->first_office = count_at + 1;
    return lend(&host->answer, ATLAS_ANSWER_BYTES(host->offices)) && lend(&host->working, ATLAS_WORKING_BYTES(host->offices));
}

static enum status serve(struct host *host, const char *sheet, char **questions, size_t count)
{
    unsigned int number;
    if (!read_sheet(host, sheet) || !check(host, &number))
        return NOT_ASKED;
    if (number != ATLAS_ACCEPTED) {
        tell_refused_sheet(host, number);
        return passed_on(host, REFUSED);
    }
    if (!prepare(host))
        return NOT_ASKED;
    return count > 0 ? ask_arguments(host, questions, count) : ask_lines(host);
}

int main(int argc, char **argv)
{
    struct host host = {0};
    enum status status;
    host.columns = argc > 1 && strcmp(argv[1], "-c") == 0;
    if (host.columns) {
        argc--;
        argv++;
    }
    if (argc < 2 || argv[1][0] == '-') {
        fputs(usage, stderr);
        return NOT_ASKED;
    }
    /* Output that nobody reads any more is then told like any other that cannot be written. */
    signal(SIGPIPE, SIG_IGN);
    status = serve(&host, argv[1], argv + 2, (size_t)argc - 2);
    free(host.sheet);
    free(host.answer);
    free(host.working);
    if (fclose(stdout) != 0 && !host.cannot_write)
        status = not_written();
    return status;
}
