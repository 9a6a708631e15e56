/*
 * Ranqustei: relay plans for a hive yard.
 *
 * To build with it. `rt lib` in crates/capi makes the archive crates/capi/out/libcapi.a. It is for x86-64 Linux and for no other machine, and needs
 * memcpy and memset of the C library and nothing else. From the root of the repository:
 *
 *     cc -std=c99 -Ic program.c crates/capi/out/libcapi.a -o program
 *
 * What every call keeps to. A call takes its bytes as a pointer and a length, and likewise a column of numbers, whose length counts its entries.
 * Whatever the bytes and numbers are, the call ends, stays inside what it was lent, allocates nothing, keeps nothing for a later call, and gives the
 * reply that is written below; the caller need check nothing first. The caller owes what C cannot check: each pointer points to as many bytes or
 * entries as its length says, aligned as C has it for their type, and bytes that a call writes are not also lent to it as another argument. A pointer
 * with a length of 0 may be null: nothing is read or written through it. Calls from several threads at once do not disturb each other.
 *
 * Letters. n is the number of stations, m the number of links and p the number of ceilings. A station works or rests; it works unless its yard record
 * says that it rests. A link is usable if both its ends work. A tree joins the working stations by usable links, and t is the number of its links, the
 * working stations less 1. M is the number of positions: for each ceiling count the different costs that the usable links have for it, and multiply;
 * without ceilings M is 1. In an accepted survey M is at most 1,600. Links have their numbers whether they are usable or not.
 *
 * Bytes. A number of several bytes has its low byte first. Sums and ceiling costs are two's complement; all other numbers have no sign. Marks are
 * hexadecimal, everything else is decimal.
 *
 * A survey is a yard record and then m link records. Its first two bytes say which yard record it has: the plain one, of 6 bytes; the counted one, of
 * 7, which also holds m, so that an accepted survey is declined once it is cut off, wherever that is; the resting one, of 10, which also says which
 * stations rest; or the triple one, of 11, which has all that for three ceilings, and whose links have 14 bytes for 12. With the plain one a survey has
 * 6 + 12 * m bytes in all, and link i, counted from 0, begins at byte 6 + 12 * i; with the counted one put 7 for 6, with the resting one 10, and with
 * the triple one 11 for 6 and 14 for 12. Bytes that begin with none of these marks are measured as the plain one is.
 *
 *     plain yard record, 6 bytes
 *     offset  size  field                      range
 *     0       2     mark                       59 44
 *     2       1     n, the stations            1 to 24
 *     3       1     p, the ceilings            0 to 2
 *     4       1     k1, the rank of ceiling 1  1 to 3 and at most t; 0 if p = 0
 *     5       1     k2, the rank of ceiling 2  1 to 3, at most t and at most 4 - k1; 0 if p is below 2
 *
 *     counted yard record, 7 bytes
 *     offset  size  field                      range
 *     0       2     mark                       59 45
 *     2       4     n, p, k1, k2               as in the plain one
 *     6       1     m, the links               0 to 40, as many as follow
 *
 *     resting yard record, 10 bytes
 *     offset  size  field                      range
 *     0       2     mark                       59 46
 *     2       5     n, p, k1, k2, m            as in the counted one
 *     7       3     the stations at rest       below n, and fewer than n: bit j % 8 of byte 7 + j / 8, the low bit first, is 1 if station j rests
 *
 *     triple yard record, 11 bytes
 *     offset  size  field                      range
 *     0       2     mark                       59 47
 *     2       1     n, the stations            1 to 24
 *     3       1     p, the ceilings            3
 *     4       3     k1, k2, k3, a byte each    1 to 3 and at most t; k1 + k2 + k3 is at most 5
 *     7       1     m, the links               as in the counted one
 *     8       3     the stations at rest       as in the resting one, from byte 8 on
 *
 *     link record, 12 bytes
 *     offset  size  field                      range
 *     0       2     mark                       4C 4B
 *     2       1     one end, a station         0 to n - 1
 *     3       1     the other end              0 to n - 1, not the first
 *     4       4     sum cost                   -1,000,000 to 1,000,000
 *     8       2     cost of ceiling 1          -32,768 to 32,767; 0 if p = 0
 *     10      2     cost of ceiling 2          -32,768 to 32,767; 0 if p is below 2
 *
 *     link record after the triple yard record, 14 bytes
 *     offset  size  field                      range
 *     0       2     mark                       4C 4D
 *     2       10    the fields of the other    as there
 *     12      2     cost of ceiling 3          -32,768 to 32,767
 *
 * A plan list is a list head and then the plan records, 10 + count * (10 + t) bytes in all. Plan r, counted from 0, begins at byte
 * 10 + r * (10 + t). If the head's p is 3, put 12 + t for 10 + t. Plans rise by sum, then by ceiling cost 1, then by ceiling cost 2, then by ceiling
 * cost 3.
 *
 *     list head, 10 bytes
 *     offset  size  field                      range
 *     0       2     mark                       50 48
 *     2       2     count, the plans           0 to M
 *     4       4     positions solved           0 to M
 *     8       1     t, the links of a tree     0 to 23
 *     9       1     p, the ceilings            0 to 3
 *
 *     plan record, 10 + t bytes
 *     offset  size  field                      range
 *     0       2     mark                       50 4C
 *     2       4     sum                        -23,000,000 to 23,000,000
 *     6       2     ceiling cost 1             -32,768 to 32,767; 0 if p = 0
 *     8       2     ceiling cost 2             -32,768 to 32,767; 0 if p is below 2
 *     10      t     link numbers, a byte each  0 to m - 1, each larger than the one before
 *
 *     plan record in a list whose p is 3, 12 + t bytes
 *     offset  size  field                      range
 *     0       2     mark                       50 4D
 *     2       8     sum, ceiling costs 1, 2    as in the other
 *     10      2     ceiling cost 3             -32,768 to 32,767
 *     12      t     link numbers, a byte each  as in the other
 *
 * An index of a plan list has 2 bytes for each plan: the numbers of all plans, each once. They rise by ceiling cost 1 of the plan, then by sum, then
 * by ceiling cost 2, then by plan number, and not by ceiling cost 3; if the head's p is 0, by sum and then by plan number. Costs count as they stand in
 * the plan records.
 *
 * The small surveys are numbered from 0 to 1,727. They have the plain yard record, with n = 3, p = 1, k1 = 1 and k2 = 0, and three links. A link is one
 * of 12 choices: its ends are 0 and 1, 0 and 2, or 1 and 2, the lower one first; its sum cost is 0 or 1, its cost of ceiling 1 is 0 or 1, and its cost
 * of ceiling 2 is 0. Choices rise by ends, then by sum cost, then by cost of ceiling 1; surveys rise by the choice of link 0, then of link 1, then of
 * link 2. So in survey q the choices, counted from 0, are q / 144, q / 12 % 12 and q % 12. Each survey of this kind has one number, and each is
 * accepted.
 */
#ifndef RANQUSTEI_H
#define RANQUSTEI_H

#include <stddef.h>
#include <stdint.h>

#ifdef __cplusplus
extern "C" {
#endif

/* The most bytes of a tree, of a survey that is accepted, of a plan list and of an index; and the most positions that a list call solves. */
enum {
    RANQUSTEI_TREE_BYTES = 23,
    RANQUSTEI_SURVEY_BYTES = 571,
    RANQUSTEI_LIST_BYTES = 56010,
    RANQUSTEI_INDEX_BYTES = 3200,
    RANQUSTEI_POSITIONS = 1600
};

/* The number of small surveys, and the bytes of each. */
enum {
    RANQUSTEI_SMALL_SURVEYS = 1728,
    RANQUSTEI_SMALL_SURVEY_BYTES = 42
};

/*
 * The number in every reply: RANQUSTEI_OK, or why the call declined. A call gives the first number of its row whose cause holds:
 *
 *     judge   1, 2 for the yard record, 3, 4, 15, 18, 5, 6; then 2, 7, 8 for link 0, then for link 1, and so on; then 19; then 11
 *     best    as judge up to 19; then 9, 14
 *     list    as judge up to 19; then 9, 10
 *     fetch   12 for head or length; then 13; then 12 for the mark of plan r
 *     index   12 for head or length, or for the mark of any plan; then 16
 *     lookup  as index; then 12 for the index; then 13
 *     write   2 for the kind, 3, 4, 5, 6; then 7, 8 for link 0, then for link 1, and so on; then 17
 *     small   20; then 17
 *
 * The place is the link's number plus 1 where a link is at fault (2, 7, 8), and 0 everywhere else.
 */
enum {
    /* The call succeeded. */
    RANQUSTEI_OK = 0,
    /* The survey has fewer than 6 bytes, or its length less 6 is no multiple of 12; with the mark of the counted yard record put 7 for 6, of the
       resting one 10, of the triple one 11 for 6 and 14 for 12. */
    RANQUSTEI_BAD_LENGTH = 1,
    /* The yard record begins with none of its marks, the kind to be written is not one of those below, or a link record (place) does not begin with the
       mark that goes with the yard record. */
    RANQUSTEI_BAD_MARK = 2,
    /* There are no stations, or more than 24. */
    RANQUSTEI_BAD_STATIONS = 3,
    /* There are more than 40 links. */
    RANQUSTEI_TOO_MANY_LINKS = 4,
    /* There are more than 2 ceilings; with the triple yard record, there are not 3. */
    RANQUSTEI_TOO_MANY_CEILINGS = 5,
    /* A rank is not 1 to 3 or is above t, what the ranks have above 1 adds up to more than 2, or the rank of an absent ceiling is not 0. */
    RANQUSTEI_BAD_RANK = 6,
    /* An end of a link (place) is no station, or both its ends are the same. */
    RANQUSTEI_BAD_ENDS = 7,
    /* The sum cost of a link (place) is outside -1,000,000 to 1,000,000, its cost of an absent ceiling is not 0, or its cost of a present ceiling is
       missing among the figures to be written. */
    RANQUSTEI_BAD_COSTS = 8,
    /* The tree buffer has fewer than t bytes, or the list buffer fewer than 10 + M * (10 + t); with three ceilings put 12 + t for 10 + t. */
    RANQUSTEI_SHORT_BUFFER = 9,
    /* More positions would have to be solved than the allowance says. */
    RANQUSTEI_PAST_ALLOWANCE = 10,
    /* The drawn links are not t, do not rise, are not all in the survey and usable, or have a ring. */
    RANQUSTEI_NOT_A_TREE = 11,
    /* The plan list is damaged, or the index is not its own. */
    RANQUSTEI_DAMAGED_LIST = 12,
    /* The plan list has no plan r, or no plan that meets the value. */
    RANQUSTEI_NO_SUCH_PLAN = 13,
    /* No tree fits the ceilings. */
    RANQUSTEI_NO_TREE_FITS = 14,
    /* The yard record holds another number than the links that follow: the survey may be cut off. */
    RANQUSTEI_WRONG_COUNT = 15,
    /* The index buffer has fewer than 2 bytes for each plan. */
    RANQUSTEI_SHORT_INDEX = 16,
    /* The output has fewer bytes than the survey that is to be written. */
    RANQUSTEI_SHORT_OUTPUT = 17,
    /* The yard record says that a station rests which the yard does not have, or that all rest. */
    RANQUSTEI_BAD_REST = 18,
    /* M is above 1,600, which it can be with three ceilings alone. */
    RANQUSTEI_TOO_MANY_POSITIONS = 19,
    /* There is no small survey q: q is 1,728 or more. */
    RANQUSTEI_NO_SUCH_SURVEY = 20
};

/* The kinds of yard record that a survey is written with: the mark as a number, its first byte high. The others are only read. */
enum {
    RANQUSTEI_YARD_PLAIN = 0x5944,
    RANQUSTEI_YARD_COUNTED = 0x5945
};

/* The version of what this header declares: it changes whenever a struct, a call or the meaning of a reply changes. */
enum { RANQUSTEI_VERSION = 9 };

/* The figures of a yard record that is written: the stations, the ceilings and their ranks. */
typedef struct {
    uint8_t n;
    uint8_t p;
    uint8_t k1;
    uint8_t k2;
} ranqustei_yard;

/* The reply of the list call, of the index call, of writing and of the small surveys: RANQUSTEI_OK and place 0, or the refusal and its place. */
typedef struct {
    uint8_t number;
    uint8_t place;
} ranqustei_status;

/*
 * The reply of the judge and of the ceilings question. With RANQUSTEI_OK and place 0, the costs of a plan: its sum, and its ceiling costs, 0 where a
 * ceiling is absent. With another number, the refusal and its place; the costs are then 0.
 */
typedef struct {
    uint8_t number;
    uint8_t place;
    int32_t sum;
    int16_t y1;
    int16_t y2;
    int16_t y3;
} ranqustei_reply;

/* The reply of fetching. With RANQUSTEI_OK, the plan's links are `count` bytes of the list, from byte `start` on; with another number both are 0. */
typedef struct {
    uint8_t number;
    size_t start;
    size_t count;
} ranqustei_part;

/*
 * The reply of a lookup. With RANQUSTEI_OK and place 0, the number of a plan, as ranqustei_fetch takes it; with another number, the refusal and its
 * place, and plan 0.
 */
typedef struct {
    uint8_t number;
    uint8_t place;
    uint16_t plan;
} ranqustei_found;

/* The version of the archive. Where it is not RANQUSTEI_VERSION, archive and header are of different times: make no other call. */
uint32_t ranqustei_version(void);

/*
 * The costs of a drawn tree. `drawn` holds its link numbers, rising, a byte each. Nothing is written.
 */
ranqustei_reply ranqustei_judge(const uint8_t *survey, size_t survey_length, const uint8_t *drawn, size_t drawn_length);

/*
 * The best tree under the numbers b1, b2 and b3: each of its present ceiling costs is at most that ceiling's number, its sum is the least, and of
 * several such trees it is the first by link numbers. The number of an absent ceiling is ignored. RANQUSTEI_TREE_BYTES are always enough for `tree`.
 * On success the link numbers of the tree stand, rising, in the first t bytes of `tree`, and the bytes after them are as they were. On a refusal all
 * of `tree` is as it was.
 */
ranqustei_reply ranqustei_best(
    const uint8_t *survey, size_t survey_length, int16_t b1, int16_t b2, int16_t b3, uint8_t *tree, size_t tree_length);

/*
 * Every plan that no other plan beats, as a plan list, each with the first tree that has its costs. At most `allowance` positions are solved; M are
 * always enough, and so are RANQUSTEI_POSITIONS. RANQUSTEI_LIST_BYTES are always enough for `buffer`.
 * On success the plan list stands at the front of `buffer`, and the bytes after it are 0. On RANQUSTEI_PAST_ALLOWANCE all of `buffer` is 0. On
 * another refusal it is as it was.
 */
ranqustei_status ranqustei_list(const uint8_t *survey, size_t survey_length, uint32_t allowance, uint8_t *buffer, size_t buffer_length);

/*
 * Where the links of plan r, counted from 0, stand in a plan list; bytes after the list do not matter. Nothing is written. The list is damaged if it
 * is shorter than its head or than its count, t and p say, its count is above 1,600, its t above 23 or its p above 3, or if the mark of its head or of
 * plan r is wrong; nothing else in it is looked at.
 */
ranqustei_part ranqustei_fetch(const uint8_t *list, size_t list_length, uint32_t r);

/*
 * The index of a plan list; bytes after the list do not matter. The list is damaged as for fetching, with the mark of every plan looked at. Nothing
 * else in it is tested: it need not be a list that the planner made. RANQUSTEI_INDEX_BYTES are always enough for `index`.
 * On success the index stands at the front of `index`, and the bytes after it are as they were. On a refusal all of `index` is as it was.
 * Up to 26,000 bytes of stack are used, more than by any other call.
 */
ranqustei_status ranqustei_index(const uint8_t *list, size_t list_length, uint8_t *index, size_t index_length);

/*
 * The number of the cheapest plan that meets a value: a plan meets it if its ceiling cost 1 is at most `value`, or if the list's p is 0. The cheapest
 * has the least sum, and of several such plans it is the first in the list. Nothing is written. `index` holds the list's own index, byte for byte what
 * ranqustei_index gives for the list; bytes after it do not matter. RANQUSTEI_DAMAGED_LIST says that the list is damaged, where ranqustei_index says so
 * too, and else that the index is not the list's. Each lookup goes through the whole list and the whole index, to test them.
 */
ranqustei_found ranqustei_index_lookup(const uint8_t *list, size_t list_length, const uint8_t *index, size_t index_length, int16_t value);

/*
 * The survey of a yard and its links, with the yard record of `kind`, RANQUSTEI_YARD_PLAIN or RANQUSTEI_YARD_COUNTED. There are as many links as `sums`
 * has entries. Of link i, counted from 0, the ends are the entries 2 * i and 2 * i + 1 of `ends`, the sum cost is entry i of `sums`, and the costs of
 * ceiling 1 and ceiling 2 are the entries 2 * i and 2 * i + 1 of `costs`, 0 for an absent ceiling. Where `ends` has no such entry, that end is no
 * station. Where `costs` has none, the cost of an absent ceiling is 0; for a present ceiling that link is declined by RANQUSTEI_BAD_COSTS, after
 * RANQUSTEI_BAD_ENDS of the same link. Entries after those of the last link are not looked at. RANQUSTEI_SURVEY_BYTES are always enough for `survey`.
 * On success the survey stands at the front of `survey`, 6 + 12 * m bytes of it, or with the counted yard record 7 + 12 * m, and the bytes after it are
 * as they were. On a refusal all of `survey` is as it was.
 * A survey that is written is accepted, and its fields are the figures that were handed in. The figures of an accepted survey with one of these two yard
 * records, written with the kind of its own, survey[0] * 256 + survey[1], give its bytes again.
 */
ranqustei_status ranqustei_write_survey(
    uint32_t kind, ranqustei_yard yard, const uint8_t *ends, size_t ends_length, const int32_t *sums, size_t sums_length, const int16_t *costs,
    size_t costs_length, uint8_t *survey, size_t survey_length);

/*
 * Small survey q, counted from 0. RANQUSTEI_SMALL_SURVEY_BYTES are always enough for `survey`.
 * On success the survey stands in the first RANQUSTEI_SMALL_SURVEY_BYTES of `survey`, and the bytes after it are as they were. On a refusal all of
 * `survey` is as it was.
 */
ranqustei_status ranqustei_small_survey(uint32_t q, uint8_t *survey, size_t survey_length);

#ifdef __cplusplus
}
#endif

#endif
