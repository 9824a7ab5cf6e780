/* stack SHEET Q K: how many bytes of stack the check and the question, in both directions, need on a sheet. Each is called on a thread
   whose stack was painted before; what is no longer paint was used. Exit status 1 where it is more than the header says, or the call was
   refused; 2 where nothing could be measured. POSIX threads. */

#define _POSIX_C_SOURCE 200809L

#include <atlas.h>
#include <pthread.h>
#include <stdio.h>
#include <stdlib.h>
#include <string.h>

#define STACK_BYTES 8388608
#define PAINT 0xA7

/* A call whose need is known, to show that what is measured is the need. */
#define KNOWN_BYTES 300000
#define NEAR_BYTES 8192

static unsigned char sheet[ATLAS_SHEET_MOST], distances[ATLAS_DISTANCES_MOST];
static unsigned char answer[ATLAS_ANSWER_MOST], working[ATLAS_WORKING_MOST], counts[ATLAS_COUNTS_BYTES];
static size_t sheet_bytes;
static unsigned int q, k;

static unsigned int check(void)
{
    return atlas_check(sheet, sheet_bytes, distances, sizeof distances);
}

static unsigned int question(unsigned int direction)
{
    return atlas_question(sheet, sheet_bytes, q, k, direction, answer, sizeof answer, working, sizeof working, counts, sizeof counts);
}

static unsigned int outward(void)
{
    return question(ATLAS_OUTWARD);
}

static unsigned int inward(void)
{
    return question(ATLAS_INWARD);
}

static unsigned int known(void)
{
    volatile unsigned char used[KNOWN_BYTES];
    size_t i;
    for (i = 0; i < sizeof used; i++)
        used[i] = 0;
    return used[q % KNOWN_BYTES];
}

struct call {
    unsigned int (*function)(void);
    const unsigned char *stack;
    unsigned int number;
    size_t used;
};

/* The stack grows down, so that what is left of the paint is at its low end. */
static void *called(void *argument)
{
    struct call *call = argument;
    unsigned char here = 0;
    const unsigned char *lowest = call->stack;
    call->number = call->function();
    while (*lowest == PAINT)
        lowest++;
    call->used = (size_t)(&here - lowest);
    return NULL;
}

static void stop(const char *fault)
{
    fprintf(stderr, "stack: %s\n", fault);
    exit(2);
}

static struct call measure(unsigned int (*function)(void))
{
    struct call call = {function, NULL, 0, 0};
    pthread_attr_t attributes;
    pthread_t thread;
    void *stack;
    if (posix_memalign(&stack, 4096, STACK_BYTES) != 0)
        stop("there is not enough memory");
    memset(stack, PAINT, STACK_BYTES);
    call.stack = stack;
    if (pthread_attr_init(&attributes) != 0 || pthread_attr_setstack(&attributes, stack, STACK_BYTES) != 0 ||
        pthread_create(&thread, &attributes, called, &call) != 0 || pthread_join(thread, NULL) != 0)
        stop("there is no thread to measure on");
    free(stack);
    return call;
}

static int holds(const char *name, unsigned int (*function)(void))
{
    struct call call = measure(function);
    printf("stack: %s: number %u, %lu bytes\n", name, call.number, (unsigned long)call.used);
    if (call.used > ATLAS_STACK_BYTES)
        printf("stack: %s: more than the header says, %lu\n", name, (unsigned long)ATLAS_STACK_BYTES);
    return call.number == 0 && call.used <= ATLAS_STACK_BYTES;
}

int main(int argc, char **argv)
{
    FILE *file = argc == 4 ? fopen(argv[1], "rb") : NULL;
    struct call call;
    int all_hold;
    if (file == NULL)
        stop("usage: stack SHEET Q K, of a sheet that can be read");
    sheet_bytes = fread(sheet, 1, sizeof sheet, file);
    fclose(file);
    q = (unsigned int)strtoul(argv[2], NULL, 10);
    k = (unsigned int)strtoul(argv[3], NULL, 10);
    call = measure(known);
    if (call.used < KNOWN_BYTES || call.used > KNOWN_BYTES + NEAR_BYTES)
        stop("a known need is not measured as it is");
    all_hold = holds("the check", check) & holds("the question outward", outward) & holds("the question inward", inward);
    return fflush(stdout) == 0 && all_hold ? 0 : 1;
}
