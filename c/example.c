/* Every call on survey A of document 01, its list and its figures, calls on it with the other yard records, and a small survey with its list. */
#include "ranqustei.h"

#include <stdio.h>
#include <string.h>

/* Three stations, one ceiling with k = 1; links 0-1 (sum 4, cost 7), 1-2 (3, 2), 0-2 (1, 9). */
#define LINKS \
    0x4C, 0x4B, 0, 1, 4, 0, 0, 0, 7, 0, 0, 0, \
    0x4C, 0x4B, 1, 2, 3, 0, 0, 0, 2, 0, 0, 0, \
    0x4C, 0x4B, 0, 2, 1, 0, 0, 0, 9, 0, 0, 0
static const uint8_t survey[] = {0x59, 0x44, 3, 1, 1, 0, LINKS};

/* The same with the counted yard record, and its length when the last link is cut off. */
static const uint8_t counted[] = {0x59, 0x45, 3, 1, 1, 0, 3, LINKS};
enum { CUT_OFF = sizeof counted - 12 };

/* The same with the resting yard record: station 1 rests, so that the tree is link 2; and all rest. */
static const uint8_t resting[] = {0x59, 0x46, 3, 1, 1, 0, 3, 2, 0, 0, LINKS};
static const uint8_t all_resting[] = {0x59, 0x46, 3, 1, 1, 0, 3, 7, 0, 0, LINKS};

/* The same with two ceilings more, of k = 1 too, and the triple yard record. */
static const uint8_t triple[] = {
    0x59, 0x47, 3, 3, 1, 1, 1, 3, 0, 0, 0,
    0x4C, 0x4D, 0, 1, 4, 0, 0, 0, 7, 0, 1, 0, 5, 0,
    0x4C, 0x4D, 1, 2, 3, 0, 0, 0, 2, 0, 6, 0, 8, 0,
    0x4C, 0x4D, 0, 2, 1, 0, 0, 0, 9, 0, 3, 0, 4, 0,
};

static void print_links(const uint8_t *links, size_t count)
{
    for (size_t i = 0; i < count; i++)
        printf(" %d", links[i]);
    printf("\n");
}

static void print_status(const char *what, ranqustei_status status)
{
    printf("%s: number %d, place %d\n", what, status.number, status.place);
}

static void print_reply(const char *what, ranqustei_reply reply)
{
    if (reply.number == RANQUSTEI_OK)
        printf("%s: sum %d, ceiling cost %d\n", what, (int)reply.sum, reply.y1);
    else
        printf("%s: refused %d at %d\n", what, reply.number, reply.place);
}

/* With the costs of three ceilings. */
static void print_triple(const char *what, ranqustei_reply reply)
{
    if (reply.number == RANQUSTEI_OK)
        printf("%s: sum %d, ceiling costs %d %d %d\n", what, (int)reply.sum, reply.y1, reply.y2, reply.y3);
    else
        print_reply(what, reply);
}

static void print_found(const char *what, ranqustei_found found)
{
    if (found.number == RANQUSTEI_OK)
        printf("%s: plan %u\n", what, (unsigned)found.plan);
    else
        printf("%s: refused %d at %d\n", what, found.number, found.place);
}

static uint8_t list[RANQUSTEI_LIST_BYTES];

static void list_and_fetch(const char *what, const uint8_t *bytes, size_t length)
{
    print_status(what, ranqustei_list(bytes, length, RANQUSTEI_POSITIONS, list, sizeof list));
    ranqustei_part part = ranqustei_fetch(list, sizeof list, 0);
    for (uint32_t r = 0; part.number == RANQUSTEI_OK; part = ranqustei_fetch(list, sizeof list, ++r)) {
        printf("plan %u, links", (unsigned)r);
        print_links(list + part.start, part.count);
    }
    printf("after the last plan: number %d\n", part.number);
}

static void index_and_look_up(void)
{
    uint8_t index[RANQUSTEI_INDEX_BYTES];
    print_status("index", ranqustei_index(list, sizeof list, index, sizeof index));
    printf("plans by ceiling cost:");
    for (size_t i = 0; i < 2; i++)
        printf(" %d", index[2 * i] + 256 * index[2 * i + 1]);
    printf("\n");
    print_found("cheapest up to 9", ranqustei_index_lookup(list, sizeof list, index, sizeof index, 9));
    print_found("cheapest up to 8", ranqustei_index_lookup(list, sizeof list, index, sizeof index, 8));
    print_found("cheapest up to 6", ranqustei_index_lookup(list, sizeof list, index, sizeof index, 6));
    print_found("an index cut short", ranqustei_index_lookup(list, sizeof list, index, 3, 8));
    index[0] = 0;
    print_found("an index with a plan twice", ranqustei_index_lookup(list, sizeof list, index, sizeof index, 8));
}

static uint8_t written[RANQUSTEI_SURVEY_BYTES];

/* Writes the survey of the figures of survey A, but with these ends of its links, into so many bytes. */
static ranqustei_status write_a(uint32_t kind, const uint8_t ends[6], size_t length)
{
    static const ranqustei_yard yard = {3, 1, 1, 0};
    static const int32_t sums[] = {4, 3, 1};
    static const int16_t costs[] = {7, 0, 2, 0, 9, 0};

    return ranqustei_write_survey(kind, yard, ends, 6, sums, 3, costs, 6, written, length);
}

static void write_surveys(void)
{
    static const uint8_t ends[] = {0, 1, 1, 2, 0, 2}, to_station_3[] = {0, 1, 1, 2, 0, 3};

    print_status("write, plain", write_a(RANQUSTEI_YARD_PLAIN, ends, sizeof written));
    printf("the bytes of the survey: %s\n", memcmp(written, survey, sizeof survey) == 0 ? "yes" : "no");
    print_status("write, counted", write_a(RANQUSTEI_YARD_COUNTED, ends, sizeof written));
    printf("the bytes of the counted survey: %s\n", memcmp(written, counted, sizeof counted) == 0 ? "yes" : "no");
    print_status("write, stations at rest", write_a(0x5946, ends, sizeof written));
    print_status("write, three ceilings", write_a(0x5947, ends, sizeof written));
    print_status("write, link 2 to station 3", write_a(RANQUSTEI_YARD_PLAIN, to_station_3, sizeof written));
    print_status("write, a byte too few", write_a(RANQUSTEI_YARD_PLAIN, ends, sizeof survey - 1));
}

static void rest(void)
{
    static const uint8_t usable[] = {2}, unusable[] = {0};

    list_and_fetch("list, station 1 at rest", resting, sizeof resting);
    print_reply("drawn 2", ranqustei_judge(resting, sizeof resting, usable, sizeof usable));
    print_reply("drawn 0", ranqustei_judge(resting, sizeof resting, unusable, sizeof unusable));
    print_reply("all at rest", ranqustei_judge(all_resting, sizeof all_resting, usable, sizeof usable));
}

/* Twelve links between two stations, each with costs of its own for every ceiling: 12 * 12 * 12 positions. */
static ranqustei_reply judge_many_values(const uint8_t *drawn, size_t length)
{
    uint8_t many[11 + 12 * 14] = {0x59, 0x47, 2, 3, 1, 1, 1, 12};

    for (uint8_t i = 0; i < 12; i++) {
        const uint8_t link[14] = {0x4C, 0x4D, 0, 1, 1, 0, 0, 0, i, 0, i, 0, i, 0};
        memcpy(many + 11 + 14 * i, link, sizeof link);
    }
    return ranqustei_judge(many, sizeof many, drawn, length);
}

static void third_ceiling(void)
{
    static const uint8_t drawn[] = {0, 2};
    uint8_t tree[RANQUSTEI_TREE_BYTES];

    list_and_fetch("list, three ceilings", triple, sizeof triple);
    print_triple("best under 9, 6 and 7", ranqustei_best(triple, sizeof triple, 9, 6, 7, tree, sizeof tree));
    printf("its links");
    print_links(tree, 2);
    print_triple("best under 8, 6 and 7", ranqustei_best(triple, sizeof triple, 8, 6, 7, tree, sizeof tree));
    print_triple("drawn 0 2", ranqustei_judge(triple, sizeof triple, drawn, sizeof drawn));
    print_triple("1,728 positions", judge_many_values(drawn, 1));
}

/* The choices 0, 5 and 10: links 0-1 (sum 0, cost 0), 0-2 (0, 1), 1-2 (1, 0). */
static void small_surveys(void)
{
    const uint32_t q = 0 * 144 + 5 * 12 + 10;
    uint8_t small[RANQUSTEI_SMALL_SURVEY_BYTES];

    print_status("small survey 70", ranqustei_small_survey(q, small, sizeof small));
    list_and_fetch("its list", small, sizeof small);
    print_status("small survey 1,728", ranqustei_small_survey(RANQUSTEI_SMALL_SURVEYS, small, sizeof small));
    print_status("small survey 70, a byte too few", ranqustei_small_survey(q, small, sizeof small - 1));
}

int main(void)
{
    static const uint8_t drawn[] = {0, 2}, ring[] = {0, 1, 2};
    uint8_t tree[RANQUSTEI_TREE_BYTES];

    if (ranqustei_version() != RANQUSTEI_VERSION) {
        printf("the archive has version %u, the header %d\n", (unsigned)ranqustei_version(), RANQUSTEI_VERSION);
        return 1;
    }
    list_and_fetch("list", survey, sizeof survey);
    index_and_look_up();
    print_reply("best under 8", ranqustei_best(survey, sizeof survey, 8, 0, 0, tree, sizeof tree));
    printf("its links");
    print_links(tree, 2);
    print_reply("best under 6", ranqustei_best(survey, sizeof survey, 6, 0, 0, tree, sizeof tree));
    print_reply("drawn 0 2", ranqustei_judge(survey, sizeof survey, drawn, sizeof drawn));
    print_reply("drawn 0 1 2", ranqustei_judge(survey, sizeof survey, ring, sizeof ring));
    print_reply("a survey cut short", ranqustei_judge(survey, sizeof survey - 1, drawn, sizeof drawn));
    print_reply("counted, best under 8", ranqustei_best(counted, sizeof counted, 8, 0, 0, tree, sizeof tree));
    print_reply("counted, its last link cut off", ranqustei_best(counted, CUT_OFF, 8, 0, 0, tree, sizeof tree));
    write_surveys();
    rest();
    third_ceiling();
    small_surveys();
    return 0;
}
