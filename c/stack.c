/*
 * The stack that each call takes, for every survey that is named and its list, that each call on a list takes for one of the most plans, and that a
 * small survey takes. The call runs in a thread whose stack was filled with a pattern; counted are the bytes from the caller's stack pointer down to
 * the lowest byte that lost the pattern. Writing declines a survey whose yard record is only read.
 *
 *     cc -std=c11 -O2 -pthread c/stack.c crates/capi/out/libcapi.a -o target/c-stack
 *     target/c-stack examples/large.survey examples/large-triple.survey
 */
#define _POSIX_C_SOURCE 200809L
#include "ranqustei.h"

#include <pthread.h>
#include <stdio.h>
#include <string.h>

enum { STACK = 1 << 18, PATTERN = 0xA5 };
enum { LINKS = 40 };
enum { PLANS = RANQUSTEI_POSITIONS, HEAD_BYTES = 10, TREE_LINKS = 8 };

static _Alignas(4096) uint8_t stack[STACK];
static uint8_t survey[4096], list[RANQUSTEI_LIST_BYTES], tree[RANQUSTEI_TREE_BYTES], built[RANQUSTEI_INDEX_BYTES];
static size_t survey_length;
static uint8_t *caller;

/* The figures of the survey's links, and the survey that is written from them. */
static uint8_t ends[2 * LINKS], written[RANQUSTEI_SURVEY_BYTES];
static int32_t sums[LINKS];
static int16_t costs[2 * LINKS];
static size_t links;

/* Notes the caller's stack pointer. */
#define NOTE_CALLER() __asm__ volatile("mov %%rsp, %0" : "=r"(caller))

static void *plans(void *unused)
{
    NOTE_CALLER();
    ranqustei_list(survey, survey_length, RANQUSTEI_POSITIONS, list, sizeof list);
    return unused;
}

static void *best(void *unused)
{
    NOTE_CALLER();
    ranqustei_best(survey, survey_length, INT16_MAX, INT16_MAX, INT16_MAX, tree, sizeof tree);
    return unused;
}

/* Judges the tree that `best` found; the list's head has the number of its links. */
static void *judge(void *unused)
{
    NOTE_CALLER();
    ranqustei_judge(survey, survey_length, tree, list[TREE_LINKS]);
    return unused;
}

/* Writes the survey once more, from its figures. */
static void *write_survey(void *unused)
{
    ranqustei_yard yard = {survey[2], survey[3], survey[4], survey[5]};

    NOTE_CALLER();
    ranqustei_write_survey(survey[0] * 256u + survey[1], yard, ends, 2 * links, sums, links, costs, 2 * links, written, sizeof written);
    return unused;
}

/* Writes the last small survey. */
static void *small_survey(void *unused)
{
    NOTE_CALLER();
    ranqustei_small_survey(RANQUSTEI_SMALL_SURVEYS - 1, written, sizeof written);
    return unused;
}

static void *fetch(void *unused)
{
    NOTE_CALLER();
    ranqustei_fetch(list, sizeof list, 0);
    return unused;
}

static void *build_index(void *unused)
{
    NOTE_CALLER();
    ranqustei_index(list, sizeof list, built, sizeof built);
    return unused;
}

/* Looks up in the index that `build_index` built. */
static void *look_up(void *unused)
{
    NOTE_CALLER();
    ranqustei_index_lookup(list, sizeof list, built, sizeof built, INT16_MAX);
    return unused;
}

/* The bytes of stack that the call has taken; 0 if its thread could not run. */
static size_t taken(void *(*call)(void *))
{
    pthread_attr_t attributes;
    pthread_t thread;
    uint8_t *lowest = stack;

    memset(stack, PATTERN, sizeof stack);
    if (pthread_attr_init(&attributes) != 0 || pthread_attr_setstack(&attributes, stack, sizeof stack) != 0
        || pthread_create(&thread, &attributes, call, NULL) != 0 || pthread_join(thread, NULL) != 0)
        return 0;
    while (lowest < caller && *lowest == PATTERN)
        lowest++;
    return (size_t)(caller - lowest);
}

/* The calls on a list. */
static void measure_list(void)
{
    printf(" %zu |", taken(fetch));
    printf(" %zu |", taken(build_index));
    printf(" %zu | |\n", taken(look_up));
}

/* The yard records by the second byte of their marks, each with its bytes and those of a link record after it. */
static const struct {
    uint8_t mark, yard_bytes, link_bytes;
} layouts[] = {{0x44, 6, 12}, {0x45, 7, 12}, {0x46, 10, 12}, {0x47, 11, 14}};

/* Takes the figures of the links that writing knows from the survey; the machine has its low bytes first, as the records have. */
static void take_links(void)
{
    const uint8_t *record, *end = survey + survey_length;
    size_t row = sizeof layouts / sizeof layouts[0] - 1;

    while (row > 0 && layouts[row].mark != survey[1])
        row--;
    record = survey + layouts[row].yard_bytes;
    for (links = 0; links < LINKS && record + layouts[row].link_bytes <= end; links++, record += layouts[row].link_bytes) {
        memcpy(ends + 2 * links, record + 2, 2);
        memcpy(sums + links, record + 4, 4);
        memcpy(costs + 2 * links, record + 8, 4);
    }
}

static int measure(const char *name)
{
    FILE *file = fopen(name, "rb");

    if (file == NULL) {
        printf("%s cannot be read\n", name);
        return 1;
    }
    survey_length = fread(survey, 1, sizeof survey, file);
    fclose(file);
    take_links();
    /* The dynamic linker looks memcpy and memset up when they are first called, on the caller's stack; here that is done before it counts. */
    plans(NULL);
    printf("| %s | %zu |", name, taken(plans));
    printf(" %zu |", taken(best));
    printf(" %zu |", taken(judge));
    printf(" %zu |", taken(write_survey));
    measure_list();
    return 0;
}

/* A list of the most plans there can be with 2 or 3 ceilings, in no order by ceiling cost 1. */
static void fill_list(uint8_t ceilings)
{
    const uint8_t head[HEAD_BYTES] = {0x50, 0x48, PLANS % 256, PLANS / 256, 0, 0, 0, 0, RANQUSTEI_TREE_BYTES, ceilings};
    const size_t plan_bytes = 6 + 2 * ceilings + RANQUSTEI_TREE_BYTES;

    memset(list, 0, sizeof list);
    memcpy(list, head, sizeof head);
    for (unsigned i = 0; i < PLANS; i++) {
        unsigned y1 = i * 997 % PLANS;
        uint8_t record[] = {0x50, ceilings == 3 ? 0x4D : 0x4C, 0, 0, 0, 0, (uint8_t)(y1 % 256), (uint8_t)(y1 / 256)};
        memcpy(list + HEAD_BYTES + i * plan_bytes, record, sizeof record);
    }
}

static int measure_longest_list(uint8_t ceilings)
{
    fill_list(ceilings);
    build_index(NULL); /* for the dynamic linker, as for a survey */
    printf("| a list of %d plans, %d ceilings | | | | |", PLANS, ceilings);
    measure_list();
    return ranqustei_index_lookup(list, sizeof list, built, sizeof built, INT16_MAX).number != RANQUSTEI_OK;
}

static int measure_small_survey(void)
{
    small_survey(NULL); /* for the dynamic linker, as for a survey */
    printf("| small survey %d | | | | | | | | %zu |\n", RANQUSTEI_SMALL_SURVEYS - 1, taken(small_survey));
    return ranqustei_small_survey(RANQUSTEI_SMALL_SURVEYS - 1, written, sizeof written).number != RANQUSTEI_OK;
}

int main(int count, char **names)
{
    int failures = 0;

    printf("| survey | list | best | judge | write | fetch | index | lookup | small |\n|---|---|---|---|---|---|---|---|---|\n");
    for (int i = 1; i < count; i++)
        failures += measure(names[i]);
    failures += measure_longest_list(2) + measure_longest_list(3) + measure_small_survey();
    return failures != 0;
}
