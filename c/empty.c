/*
 * Every call with null and length 0 for each of its byte strings and columns in turn: the replies are those of empty ones, and what else was lent
 * stays.
 */
#include "ranqustei.h"

#include <stdio.h>
#include <string.h>

/* Survey A of document 01, the yard of one station, whose tree has no links, one of two stations and a link, of which station 1 rests, and one of two
   stations, a link and three ceilings. */
static const uint8_t survey_a[] = {
    0x59, 0x44, 3, 1, 1, 0,
    0x4C, 0x4B, 0, 1, 4, 0, 0, 0, 7, 0, 0, 0,
    0x4C, 0x4B, 1, 2, 3, 0, 0, 0, 2, 0, 0, 0,
    0x4C, 0x4B, 0, 2, 1, 0, 0, 0, 9, 0, 0, 0,
};
static const uint8_t single[] = {0x59, 0x44, 1, 0, 0, 0};
static const uint8_t resting[] = {0x59, 0x46, 2, 0, 0, 0, 1, 2, 0, 0, 0x4C, 0x4B, 0, 1, 5, 0, 0, 0, 0, 0, 0, 0};
static const uint8_t triple[] = {0x59, 0x47, 2, 3, 1, 1, 1, 1, 0, 0, 0, 0x4C, 0x4D, 0, 1, 5, 0, 0, 0, 3, 0, 4, 0, 6, 0};

/* The figures of one link between two stations, under a ceiling and under none, and its survey under none. */
static const ranqustei_yard yard = {2, 1, 1, 0}, open_yard = {2, 0, 0, 0}, single_yard = {1, 0, 0, 0};
static const uint8_t ends[] = {0, 1};
static const int32_t sums[] = {5};
static const int16_t costs[] = {3, 0};
static const uint8_t without_costs[] = {0x59, 0x44, 2, 0, 0, 0, 0x4C, 0x4B, 0, 1, 5, 0, 0, 0, 0, 0, 0, 0};

/* A plan list of one plan, one of one plan with three ceilings, and one of none. */
static const uint8_t one_plan[] = {0x50, 0x48, 1, 0, 1, 0, 0, 0, 1, 1, 0x50, 0x4C, 5, 0, 0, 0, 3, 0, 0, 0, 0};
static const uint8_t triple_plan[] = {0x50, 0x48, 1, 0, 1, 0, 0, 0, 1, 3, 0x50, 0x4D, 5, 0, 0, 0, 3, 0, 4, 0, 6, 0, 0};
static const uint8_t no_plan[] = {0x50, 0x48, 0, 0, 0, 0, 0, 0, 1, 1};

enum { LENT = 50, FILLER = 0xAA };
static uint8_t lent[LENT];

static int failures;

static void check(const char *what, int holds)
{
    if (!holds) {
        printf("empty: %s\n", what);
        failures++;
    }
}

/* The number, and nothing in the rest of the reply: a refusal at place 0, or the costs of the tree without links. */
static int bare_reply(ranqustei_reply reply, int number)
{
    return reply.number == number && reply.place == 0 && reply.sum == 0 && reply.y1 == 0 && reply.y2 == 0 && reply.y3 == 0;
}

static int bare_status(ranqustei_status status, int number)
{
    return status.number == number && status.place == 0;
}

static int bare_part(ranqustei_part part, int number)
{
    return part.number == number && part.start == 0 && part.count == 0;
}

static int bare_found(ranqustei_found found, int number)
{
    return found.number == number && found.place == 0 && found.plan == 0;
}

static int lent_stays(void)
{
    for (size_t i = 0; i < LENT; i++)
        if (lent[i] != FILLER)
            return 0;
    return 1;
}

static void judge(void)
{
    check("judge, no survey", bare_reply(ranqustei_judge(NULL, 0, lent, 2), RANQUSTEI_BAD_LENGTH));
    check("judge, neither", bare_reply(ranqustei_judge(NULL, 0, NULL, 0), RANQUSTEI_BAD_LENGTH));
    check("judge, no links", bare_reply(ranqustei_judge(survey_a, sizeof survey_a, NULL, 0), RANQUSTEI_NOT_A_TREE));
    check("judge, no links for three ceilings", bare_reply(ranqustei_judge(triple, sizeof triple, NULL, 0), RANQUSTEI_NOT_A_TREE));
    check("judge, no links for one station", bare_reply(ranqustei_judge(single, sizeof single, NULL, 0), RANQUSTEI_OK));
    check("judge, no links for one at work", bare_reply(ranqustei_judge(resting, sizeof resting, NULL, 0), RANQUSTEI_OK));
}

static void best(void)
{
    check("best, no survey", bare_reply(ranqustei_best(NULL, 0, 8, 0, 0, lent, LENT), RANQUSTEI_BAD_LENGTH));
    check("best, neither", bare_reply(ranqustei_best(NULL, 0, 8, 0, 0, NULL, 0), RANQUSTEI_BAD_LENGTH));
    check("best, no buffer", bare_reply(ranqustei_best(survey_a, sizeof survey_a, 8, 0, 0, NULL, 0), RANQUSTEI_SHORT_BUFFER));
    check("best, no buffer for three ceilings", bare_reply(ranqustei_best(triple, sizeof triple, 8, 8, 8, NULL, 0), RANQUSTEI_SHORT_BUFFER));
    check("best, no buffer for one station", bare_reply(ranqustei_best(single, sizeof single, 8, 0, 0, NULL, 0), RANQUSTEI_OK));
    check("best, no buffer for one at work", bare_reply(ranqustei_best(resting, sizeof resting, 8, 0, 0, NULL, 0), RANQUSTEI_OK));
}

static void list(void)
{
    check("list, no survey", bare_status(ranqustei_list(NULL, 0, RANQUSTEI_POSITIONS, lent, LENT), RANQUSTEI_BAD_LENGTH));
    check("list, neither", bare_status(ranqustei_list(NULL, 0, RANQUSTEI_POSITIONS, NULL, 0), RANQUSTEI_BAD_LENGTH));
    check("list, no buffer", bare_status(ranqustei_list(survey_a, sizeof survey_a, RANQUSTEI_POSITIONS, NULL, 0), RANQUSTEI_SHORT_BUFFER));
    check("list, no buffer for three ceilings", bare_status(ranqustei_list(triple, sizeof triple, 0, NULL, 0), RANQUSTEI_SHORT_BUFFER));
    check("list, no buffer for one station", bare_status(ranqustei_list(single, sizeof single, 0, NULL, 0), RANQUSTEI_SHORT_BUFFER));
    check("list, no buffer for one at work", bare_status(ranqustei_list(resting, sizeof resting, 0, NULL, 0), RANQUSTEI_SHORT_BUFFER));
}

static void fetch(void)
{
    check("fetch plan 0 of no list", bare_part(ranqustei_fetch(NULL, 0, 0), RANQUSTEI_DAMAGED_LIST));
    check("fetch the last plan of no list", bare_part(ranqustei_fetch(NULL, 0, UINT32_MAX), RANQUSTEI_DAMAGED_LIST));
}

static void build_index(void)
{
    check("index, no list", bare_status(ranqustei_index(NULL, 0, lent, LENT), RANQUSTEI_DAMAGED_LIST));
    check("index, neither", bare_status(ranqustei_index(NULL, 0, NULL, 0), RANQUSTEI_DAMAGED_LIST));
    check("index, no buffer", bare_status(ranqustei_index(one_plan, sizeof one_plan, NULL, 0), RANQUSTEI_SHORT_INDEX));
    check("index, no buffer for three ceilings", bare_status(ranqustei_index(triple_plan, sizeof triple_plan, NULL, 0), RANQUSTEI_SHORT_INDEX));
    check("index, no buffer for no plan", bare_status(ranqustei_index(no_plan, sizeof no_plan, NULL, 0), RANQUSTEI_OK));
    check("index, a buffer for no plan", bare_status(ranqustei_index(no_plan, sizeof no_plan, lent, LENT), RANQUSTEI_OK));
}

static void look_up(void)
{
    check("lookup, no list", bare_found(ranqustei_index_lookup(NULL, 0, lent, LENT, 8), RANQUSTEI_DAMAGED_LIST));
    check("lookup, neither", bare_found(ranqustei_index_lookup(NULL, 0, NULL, 0, 8), RANQUSTEI_DAMAGED_LIST));
    check("lookup, no index", bare_found(ranqustei_index_lookup(one_plan, sizeof one_plan, NULL, 0, 8), RANQUSTEI_SHORT_INDEX));
    check("lookup, no index for three ceilings",
        bare_found(ranqustei_index_lookup(triple_plan, sizeof triple_plan, NULL, 0, 8), RANQUSTEI_SHORT_INDEX));
    check("lookup, no index of no plan", bare_found(ranqustei_index_lookup(no_plan, sizeof no_plan, NULL, 0, 8), RANQUSTEI_NO_SUCH_PLAN));
}

static void decline_to_write(void)
{
    const uint32_t kind = RANQUSTEI_YARD_PLAIN;
    ranqustei_status status = ranqustei_write_survey(kind, yard, NULL, 0, sums, 1, costs, 2, lent, LENT);

    check("write, no ends", status.number == RANQUSTEI_BAD_ENDS && status.place == 1);
    status = ranqustei_write_survey(kind, yard, ends, 2, sums, 1, NULL, 0, lent, LENT);
    check("write, no costs", status.number == RANQUSTEI_BAD_COSTS && status.place == 1);
    status = ranqustei_write_survey(kind, yard, NULL, 0, sums, 1, NULL, 0, NULL, 0);
    check("write, sums alone", status.number == RANQUSTEI_BAD_ENDS && status.place == 1);
    status = ranqustei_write_survey(kind, yard, ends, 2, sums, 1, costs, 2, NULL, 0);
    check("write, no output", bare_status(status, RANQUSTEI_SHORT_OUTPUT));
    status = ranqustei_write_survey(kind, single_yard, NULL, 0, NULL, 0, NULL, 0, NULL, 0);
    check("write, nothing for one station", bare_status(status, RANQUSTEI_SHORT_OUTPUT));
    status = ranqustei_write_survey(0, single_yard, NULL, 0, NULL, 0, NULL, 0, NULL, 0);
    check("write, nothing and no kind", bare_status(status, RANQUSTEI_BAD_MARK));
}

static void write_survey(void)
{
    const uint32_t kind = RANQUSTEI_YARD_PLAIN;
    uint8_t written[sizeof without_costs];
    ranqustei_status status = ranqustei_write_survey(kind, open_yard, ends, 2, sums, 1, NULL, 0, written, sizeof written);

    check("write, no costs under no ceiling", bare_status(status, RANQUSTEI_OK));
    check("write, costs of 0", memcmp(written, without_costs, sizeof written) == 0);
    status = ranqustei_write_survey(kind, single_yard, ends, 2, NULL, 0, costs, 2, written, sizeof written);
    check("write, no sums", bare_status(status, RANQUSTEI_OK));
    check("write, no links", memcmp(written, single, sizeof single) == 0);
    check("write, what follows stays", memcmp(written + sizeof single, without_costs + sizeof single, sizeof written - sizeof single) == 0);
}

static void small_survey(void)
{
    uint8_t written[RANQUSTEI_SMALL_SURVEY_BYTES + 1];

    memset(written, FILLER, sizeof written);
    check("small survey, just enough", bare_status(ranqustei_small_survey(0, written, RANQUSTEI_SMALL_SURVEY_BYTES), RANQUSTEI_OK));
    check("small survey, a byte more", bare_status(ranqustei_small_survey(RANQUSTEI_SMALL_SURVEYS - 1, written, sizeof written), RANQUSTEI_OK));
    check("small survey, its last link", written[32] == 1 && written[33] == 2 && written[34] == 1 && written[38] == 1);
    check("small survey, what follows stays", written[RANQUSTEI_SMALL_SURVEY_BYTES] == FILLER);
    check("small survey, no output", bare_status(ranqustei_small_survey(0, NULL, 0), RANQUSTEI_SHORT_OUTPUT));
    check("small survey, a byte too few", bare_status(ranqustei_small_survey(0, lent, RANQUSTEI_SMALL_SURVEY_BYTES - 1), RANQUSTEI_SHORT_OUTPUT));
    check("small survey 1,728, no output", bare_status(ranqustei_small_survey(RANQUSTEI_SMALL_SURVEYS, NULL, 0), RANQUSTEI_NO_SUCH_SURVEY));
    check("small survey 1,728", bare_status(ranqustei_small_survey(RANQUSTEI_SMALL_SURVEYS, lent, LENT), RANQUSTEI_NO_SUCH_SURVEY));
    check("the last number of all, no output", bare_status(ranqustei_small_survey(UINT32_MAX, NULL, 0), RANQUSTEI_NO_SUCH_SURVEY));
}

int main(void)
{
    memset(lent, FILLER, sizeof lent);
    judge();
    best();
    list();
    fetch();
    build_index();
    look_up();
    decline_to_write();
    write_survey();
    small_survey();
    check("what was lent stays", lent_stays());
    return failures != 0;
}
