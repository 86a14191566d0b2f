/*
 * Filkotar for C firmware. This header declares the functions of libfilkotar.a, which tools/library builds for x86-64 (System V calling convention).
 *
 * Each function is proved to keep the promise beside it, and to return, whatever numbers it is handed and whatever stands in the arrays that it is lent;
 * README.md says what the proof rests on. It writes no memory but its own stack, its answer and, of those arrays, what the promise says, and keeps nothing
 * else between calls. The library needs no other.
 *
 * What a call of the library for x86-64 takes, beside its arguments, its answer and its return address (docs/FIRMWARE.md has a Cortex-M's, and memory, code
 * and time):
 *
 *                              bytes of stack    of these below the stack pointer    registers other than the general ones
 *     filkotar_build           8                 0                                   xmm0 xmm1 xmm2 xmm3 xmm4
 *     filkotar_close           168               0                                   none
 *     filkotar_gain            0                 0                                   none
 *     filkotar_mark            112               0                                   xmm0
 *     filkotar_open            0                 0                                   xmm0
 *     filkotar_query           152               0                                   xmm0 xmm1
 *     filkotar_rough           120               72                                  xmm0 xmm1 xmm2 xmm3 xmm4
 *     filkotar_search          96                48                                  xmm0 xmm1 xmm2 xmm3 xmm4
 *     filkotar_value           40                0                                   xmm0 xmm1
 *     filkotar_window_open     8                 0                                   none
 *     filkotar_window_value    40                0                                   none
 *
 * Those below the stack pointer are in the red zone of the calling convention: where an interrupt handler runs on the same stack, it has to leave these
 * as they are.
 */
#ifndef FILKOTAR_H
#define FILKOTAR_H

#include <stdint.h>

#ifdef __cplusplus
extern "C" {
#endif

/*
 * The numbers that calls answer with: the call was accepted, or why it was refused. The table beside a function says which it gives, and when.
 *
 * FILKOTAR_UNKNOWN_KIND and FILKOTAR_ARGUMENT_CUT_OFF no function here gives. They are for programs that read the engine's commands as bytes: a kind byte
 * that is none of the four, and fewer bytes after it than its argument has.
 */
enum {
    FILKOTAR_ACCEPTED = 0,
    FILKOTAR_AREA_TOO_SHORT = 1,
    FILKOTAR_UNKNOWN_KIND = 2,
    FILKOTAR_ARGUMENT_CUT_OFF = 3,
    FILKOTAR_UNOPENED = 4,
    FILKOTAR_OTHER_LENGTH = 5,
    FILKOTAR_LAST_POSITION = 6,
    FILKOTAR_NOTHING_TO_MARK = 7,
    FILKOTAR_ALREADY_MARKED = 8,
    FILKOTAR_ALREADY_CLOSED = 9,
    FILKOTAR_FULL = 10,
    FILKOTAR_NOT_ACTIVE = 11,
    FILKOTAR_WIDTH_OUT_OF_RANGE = 12,
    FILKOTAR_TOO_FEW_WORDS = 13,
    FILKOTAR_RANGE_OUT_OF_TAKE = 14,
    FILKOTAR_OTHER_INDEX_LENGTH = 15
};

/*
 * The level engine. It is given values one by one: the headroom of each sample in quarter decibels, below zero where the sample clips. A mark starts a layer.
 * A query tells how low headroom has sunk since that mark, and where: the layer's dip. A close forgets the mark.
 *
 * The first value has position 1, the next 2, and so on. The present position is that of the last value; before the first it is 0. Only the present position
 * can be marked. From then on it is an active mark, until it is closed.
 *
 *     enum { WORDS = FILKOTAR_WORDS(60) };
 *     static uint64_t area[WORDS];
 *     filkotar_answer a = filkotar_open(area, WORDS);                  a.session.limit is 60
 *     a = filkotar_value(a.session, area, WORDS, 12);
 *     a = filkotar_mark(a.session, area, WORDS);                       position 1 is an active mark
 *     a = filkotar_value(a.session, area, WORDS, -3);
 *     a = filkotar_query(a.session, area, WORDS, 1);                   a.value is -3, and a.place is 2
 *     a = filkotar_close(a.session, area, WORDS, 1);                   position 1 is none any more
 *
 * You lend the engine an array of 64-bit words, 576 or more, and lend it again, whole, with each call. K marks can be active at a time, where K is
 * (length - 512) / 64, as C divides, and at most 4096. FILKOTAR_WORDS(k) is the length for k of them, with k from 1 to 4096.
 *
 * What the words hold before the opening does not matter. From then on all of them are the engine's: the answers below are for words that nobody else has
 * written since the last call, and for the session that the last answer has. With l the most marks that were active at a time since the opening, every word
 * from area[512 + 64 * l] on holds what it held just before the opening. A value, a mark or a close that is accepted may write any word before these.
 *
 * A session holds the rest of what the engine knows. Hand in the one that the last answer has. Calls of one engine come one after the other, each with the
 * session of the answer before it; an interrupt handler makes none in between, which would hand in an old session. Engines with sessions and words of their
 * own do not disturb one another, and their calls may run at the same time.
 *
 * In every call `area` points to `length` words, aligned as uint64_t is, which nothing else uses while the call runs; but while a query runs, others may
 * read them. Where `length` is 0 it points to none, and may be a null pointer.
 */
#define FILKOTAR_WORDS(k) (512 + 64 * (uint64_t)(k))

typedef struct {
    uint64_t words;    /* how many words were lent at the opening; 0: the engine is not open */
    uint64_t limit;    /* K: how many marks can be active at a time */
    uint64_t active;   /* how many are */
    uint32_t present;  /* the present position: how many values were accepted */
    int32_t last;      /* the last of these; 0 before the first */
    uint32_t standing; /* what the present position is, one of the four below */
} filkotar_session;

enum {
    FILKOTAR_NONE = 0,     /* no value was accepted yet */
    FILKOTAR_UNMARKED = 1, /* not marked, since its value was accepted */
    FILKOTAR_MARKED = 2,   /* an active mark */
    FILKOTAR_CLOSED = 3    /* a mark that was closed */
};

typedef struct {
    filkotar_session session; /* for the next call */
    uint32_t number;          /* 0, or why the call was refused */
    int32_t value;            /* after a query that was accepted, the least value since the mark; else 0 */
    uint32_t place;           /* and its position; else 0 */
} filkotar_answer;

/* The layout that the library goes by. Compilers from C11 and C++11 on compare the sizes, and GCC and clang the fields' places too. */
#if defined(__cplusplus) && __cplusplus >= 201103L
#define FILKOTAR_SAME(a, b) static_assert((a) == (b), "filkotar.h: the compiler lays out " #a " otherwise than the library")
#elif defined(__STDC_VERSION__) && __STDC_VERSION__ >= 201112L
#define FILKOTAR_SAME(a, b) _Static_assert((a) == (b), "filkotar.h: the compiler lays out " #a " otherwise than the library")
#endif
#ifdef FILKOTAR_SAME
FILKOTAR_SAME(sizeof(filkotar_session), 40);
FILKOTAR_SAME(sizeof(filkotar_answer), 56);
#ifdef __GNUC__
FILKOTAR_SAME(__builtin_offsetof(filkotar_session, words), 0);
FILKOTAR_SAME(__builtin_offsetof(filkotar_session, limit), 8);
FILKOTAR_SAME(__builtin_offsetof(filkotar_session, active), 16);
FILKOTAR_SAME(__builtin_offsetof(filkotar_session, present), 24);
FILKOTAR_SAME(__builtin_offsetof(filkotar_session, last), 28);
FILKOTAR_SAME(__builtin_offsetof(filkotar_session, standing), 32);
FILKOTAR_SAME(__builtin_offsetof(filkotar_answer, session), 0);
FILKOTAR_SAME(__builtin_offsetof(filkotar_answer, number), 40);
FILKOTAR_SAME(__builtin_offsetof(filkotar_answer, value), 44);
FILKOTAR_SAME(__builtin_offsetof(filkotar_answer, place), 48);
#endif
#endif

/*
 * Opens the engine. The first line that applies:
 *
 *     length is less than 576             number 1, FILKOTAR_AREA_TOO_SHORT
 *     any other                           number 0, FILKOTAR_ACCEPTED: the engine is open, session is { length, K, 0, 0, 0, FILKOTAR_NONE }
 *
 * With 1 no word is written, and session is { 0, 0, 0, 0, 0, FILKOTAR_NONE }, which is not open. With 0 no word from area[512] on is written, and whatever an
 * earlier engine kept in the area is forgotten. In each case value and place are 0.
 */
filkotar_answer filkotar_open(uint64_t *area, uint64_t length);

/*
 * Each of the four calls below takes a session s. With any number but 0 nothing has happened: session is s, field by field, no word is written, and value and
 * place are 0. With 0, value and place are 0 too, but after a query.
 *
 * Each is as safe with a session that no call returned, or with words that hold something else than the last call left. It stays within the `length` words,
 * returns, and gives the number and the session that are told with it, where a standing above 3 counts as 3, FILKOTAR_CLOSED. Not promised then is
 *
 *     whether a position from 1 to s.present is an active mark;
 *     which of the `length` words a value, a mark or a close with number 0 writes;
 *     which value and place a query with number 0 shows;
 *     what session.active is after a value, a mark or a close with number 0;
 *     where s.active is 4096 or more, whether a mark that has number 0 by its table gets 0 or 10.
 */

/*
 * Gives the engine its next value, which may be any, INT32_MIN and INT32_MAX too. The first line that applies:
 *
 *     s.words is 0                        number 4, FILKOTAR_UNOPENED
 *     length is not s.words               number 5, FILKOTAR_OTHER_LENGTH
 *     s.present is 4294967295             number 6, FILKOTAR_LAST_POSITION: there are no more positions
 *     any other                           number 0, FILKOTAR_ACCEPTED: the value is accepted
 *
 * With 0, session is { s.words, s.limit, s.active, s.present + 1, v, FILKOTAR_UNMARKED }.
 */
filkotar_answer filkotar_value(filkotar_session s, uint64_t *area, uint64_t length, int32_t v);

/*
 * Marks the present position. The first line that applies:
 *
 *     s.words is 0                        number 4, FILKOTAR_UNOPENED
 *     length is not s.words               number 5, FILKOTAR_OTHER_LENGTH
 *     s.standing is FILKOTAR_NONE         number 7, FILKOTAR_NOTHING_TO_MARK
 *     s.standing is FILKOTAR_MARKED       number 8, FILKOTAR_ALREADY_MARKED
 *     s.standing is FILKOTAR_CLOSED       number 9, FILKOTAR_ALREADY_CLOSED: a position is marked once
 *     s.active is s.limit                 number 10, FILKOTAR_FULL: no more marks until one is closed
 *     any other                           number 0, FILKOTAR_ACCEPTED: position s.present is an active mark
 *
 * With 0, session is { s.words, s.limit, s.active + 1, s.present, s.last, FILKOTAR_MARKED }.
 */
filkotar_answer filkotar_mark(filkotar_session s, uint64_t *area, uint64_t length);

/*
 * Tells the least value since a mark. The first line that applies:
 *
 *     s.words is 0                        number 4, FILKOTAR_UNOPENED
 *     length is not s.words               number 5, FILKOTAR_OTHER_LENGTH
 *     position is not an active mark      number 11, FILKOTAR_NOT_ACTIVE: position 0 and those above s.present never are
 *     any other                           number 0, FILKOTAR_ACCEPTED
 *
 * With 0 too session is s, field by field, and no word is written. value is the least of the values at `position` to s.present, both included, and place is its
 * position: where it stands at several of theirs, the earliest.
 */
filkotar_answer filkotar_query(filkotar_session s, const uint64_t *area, uint64_t length, uint32_t position);

/*
 * Closes a mark, which makes room for another. The first line that applies:
 *
 *     s.words is 0                        number 4, FILKOTAR_UNOPENED
 *     length is not s.words               number 5, FILKOTAR_OTHER_LENGTH
 *     position is not an active mark      number 11, FILKOTAR_NOT_ACTIVE: position 0 and those above s.present never are, and none is where s.active is 0
 *     any other                           number 0, FILKOTAR_ACCEPTED: position is no active mark any more
 *
 * With 0, session is { s.words, s.limit, s.active - 1, s.present, s.last, standing }, where standing is FILKOTAR_CLOSED if position is s.present, and else
 * s.standing, or 3 for one above 3.
 */
filkotar_answer filkotar_close(filkotar_session s, uint64_t *area, uint64_t length, uint32_t position);

/*
 * A layer's gain, from 0 to 32768, for its dip value: the least headroom from the layer's mark on, in quarter decibels.
 *
 *     value          gain
 *     0 or more      32768
 *     -1 to -240     with n = -value, the largest whole g with g^80 * 10^n at most 32768^80
 *     below -240     0
 *
 * The second is 32768 lowered by n quarter decibels and rounded down. So -80 gives 3276, -240 gives 32 and -241 gives 0. Every value has a gain, INT32_MIN
 * and INT32_MAX too. A higher value never has a lower gain.
 */
uint16_t filkotar_gain(int32_t value);

/*
 * A look-ahead window. It is given values one by one, and tells after each the least of the last W of them, and where that stands; while fewer than W
 * have come, the least of all. With W = 144 these are the last three milliseconds at 48 kHz. The first value has position 1, the next 2, and so on.
 *
 *     static uint64_t area[2 * 144];
 *     filkotar_window_answer a = filkotar_window_open(area, 2 * 144, 144);
 *     a = filkotar_window_value(a.session, area, 2 * 144, -3);         a.value is -3, and a.place is 1
 *     a = filkotar_window_value(a.session, area, 2 * 144, 7);          a.value is -3, and a.place is 1
 *
 * You lend the window an array of 64-bit words, 2 * W or more, and lend it again, whole, with each value. What these hold before the opening does not
 * matter. From then on the first 2 * W are the window's: the answers below are for words that nobody else has written since the last call. The words
 * beyond stay yours, and no call writes them.
 *
 * A session holds the rest of what the window knows. Hand in the one that the last answer has. Windows with sessions and words of their own do not
 * disturb one another.
 *
 * In every call `area` points to `length` words, which nothing else uses while the call runs. Where `length` is 0 it points to none, and may be a null
 * pointer.
 */
typedef struct {
    uint64_t words;   /* how many words were lent at the opening; 0: the window is not open */
    uint64_t width;   /* W */
    uint32_t present; /* how many values were accepted: the position of the last one */
} filkotar_window;

typedef struct {
    filkotar_window session; /* for the next call */
    uint32_t number;         /* 0, or why the call was refused */
    int32_t value;           /* after a value that was accepted, the least of the last W; else 0 */
    uint32_t place;          /* and its position; else 0 */
} filkotar_window_answer;

#ifdef FILKOTAR_SAME
FILKOTAR_SAME(sizeof(filkotar_window), 24);
FILKOTAR_SAME(sizeof(filkotar_window_answer), 40);
#ifdef __GNUC__
FILKOTAR_SAME(__builtin_offsetof(filkotar_window, words), 0);
FILKOTAR_SAME(__builtin_offsetof(filkotar_window, width), 8);
FILKOTAR_SAME(__builtin_offsetof(filkotar_window, present), 16);
FILKOTAR_SAME(__builtin_offsetof(filkotar_window_answer, session), 0);
FILKOTAR_SAME(__builtin_offsetof(filkotar_window_answer, number), 24);
FILKOTAR_SAME(__builtin_offsetof(filkotar_window_answer, value), 28);
FILKOTAR_SAME(__builtin_offsetof(filkotar_window_answer, place), 32);
#endif
#endif

/*
 * Opens a window of the last `width` values. The first line that applies:
 *
 *     width is 0, or above 4096           number 12, FILKOTAR_WIDTH_OUT_OF_RANGE
 *     length is less than 2 * width       number 13, FILKOTAR_TOO_FEW_WORDS
 *     any other                           number 0, FILKOTAR_ACCEPTED: the window is open, session is { length, width, 0 }
 *
 * With 12 and 13 no word is written, and session is { 0, 0, 0 }, which is not open. In each case value and place are 0.
 */
filkotar_window_answer filkotar_window_open(uint64_t *area, uint64_t length, uint64_t width);

/*
 * Gives the window its next value, which may be any, INT32_MIN and INT32_MAX too. The first line that applies:
 *
 *     s.words is 0                        number 4, FILKOTAR_UNOPENED: the window is not open
 *     length is not s.words               number 5, FILKOTAR_OTHER_LENGTH
 *     s.present is 4294967295             number 6, FILKOTAR_LAST_POSITION: there are no more positions
 *     any other                           number 0, FILKOTAR_ACCEPTED: the value is accepted
 *
 * With 4, 5 and 6 nothing has happened: session is s, no word is written, and value and place are 0.
 *
 * With 0, session is { s.words, s.width, s.present + 1 }. value is the least of the last s.width values that were accepted, this one among them, or of
 * all where there are fewer; and place is its position: where it stands at several of theirs, the earliest.
 *
 * The call is as safe with a session that no call returned, or with words that hold something else than the last call left. It stays within the `length`
 * words, returns, and gives the number and the session above; value and place may then be any.
 */
filkotar_window_answer filkotar_window_value(filkotar_window s, uint64_t *area, uint64_t length, int32_t v);

/*
 * A stored take: an array of values, take[0] to take[length - 1], that is finished. Beside it stands its index, a second array of yours, which holds the
 * least value of each block of 64: index[0] of take[0] to take[63], index[1] of take[64] to take[127], and so on. The last block may be shorter. You build
 * the index once. With it the least value of any range and its place are found, and of a long range most values are not looked at. A rough reading gives a
 * high and a low figure for that value early, and no place.
 *
 *     static int32_t take[1000], index[16];                            16 is (1000 + 63) / 64
 *     if (filkotar_build(take, 1000, index, 16) == FILKOTAR_ACCEPTED) {
 *         filkotar_found f = filkotar_search(take, 1000, index, 16, 100, 699);
 *         ...                                                          f.value is the least of take[100] to take[699], and take[f.place] is where it stands
 *     }
 *
 * The index of a take of `length` values has (length + 63) / 64 entries, as C divides; so none where the take is empty. Where that sum could wrap, work it
 * out as length / 64 + (length % 64 != 0), which is the same number and never wraps.
 *
 * In each call `take` points to `length` values and `index` to `blocks` entries, and nothing else writes these while the call runs. While an index is
 * built, take and index do not overlap, and nothing else reads the index. Where `length` is 0, `take` points to none and may be a null pointer; so may
 * `index` where `blocks` is 0. C needs no call for the part of a take from i to j, to be drawn for example: where i is at most j and j below `length`, it is
 * the j - i + 1 values from `take + i` on, and else it is empty.
 */
typedef struct {
    uint32_t number; /* 0, or why the search was refused */
    int32_t value;   /* with number 0 and the index of this take, the least value of the range; with another number 0 */
    uint64_t place;  /* and where it stands in the take, from 0 on; with another number 0 */
} filkotar_found;

#ifdef FILKOTAR_SAME
FILKOTAR_SAME(sizeof(filkotar_found), 16);
#ifdef __GNUC__
FILKOTAR_SAME(__builtin_offsetof(filkotar_found, number), 0);
FILKOTAR_SAME(__builtin_offsetof(filkotar_found, value), 4);
FILKOTAR_SAME(__builtin_offsetof(filkotar_found, place), 8);
#endif
#endif

/*
 * Builds the index of a take, and returns a number. The first line that applies:
 *
 *     blocks is not (length + 63) / 64    number 15, FILKOTAR_OTHER_INDEX_LENGTH: nothing is written
 *     any other                           number 0, FILKOTAR_ACCEPTED: the index is built
 *
 * With 0, each of the `blocks` entries is written, whatever it held, and nothing else: index[b] is the least of take[64 * b] to take[64 * b + 63], or of
 * those of them that are in the take. Values may be any, INT32_MIN and INT32_MAX too.
 */
uint32_t filkotar_build(const int32_t *take, uint64_t length, int32_t *index, uint64_t blocks);

/*
 * Searches the range from take[i] to take[j], both included, for its least value. The first line that applies:
 *
 *     blocks is not (length + 63) / 64          number 15, FILKOTAR_OTHER_INDEX_LENGTH
 *     i is above j, or j is not below length    number 14, FILKOTAR_RANGE_OUT_OF_TAKE
 *     any other                                 number 0, FILKOTAR_ACCEPTED
 *
 * With 15 and 14 value and place are 0. i and j may be any numbers, up to UINT64_MAX.
 *
 * With 0, and with an index that filkotar_build wrote for this take, neither of them altered since: value is the least of take[i] to take[j], and place is
 * where it stands there: at several, the first. So place is from i to j, value is take[place], and every value from take[i] to before take[place] is higher.
 *
 * The call is as safe with an index that holds something else. It stays within the `length` values and the `blocks` entries, returns, and gives the number
 * above. With 0, place is then one from i to j, but which one, and value, may be any. In no case is the take or the index written.
 */
filkotar_found filkotar_search(const int32_t *take, uint64_t length, const int32_t *index, uint64_t blocks, uint64_t i, uint64_t j);

/*
 * A rough reading of a range, where drawing cannot wait for a search: a high and a low figure for its least value, after as many looks as you allow. With the
 * take and the index that was built above:
 *
 *     filkotar_reading r = filkotar_rough(take, 1000, index, 16, 100, 699, 10);
 *     ...                                                              r.low <= the least of take[100] to take[699] and, where r.known is 1, that <= r.high
 *
 * A look reads one entry of the index or one value of the take. The looks have a fixed order. First comes the entry of every block that meets the range
 * from take[i] to take[j], left to right, whether the block is wholly inside the range or only partly; then come the range's values in the blocks that are
 * only partly inside, left to right. The last block of a take, which may be shorter, is wholly inside where all values that it has are.
 */
typedef struct {
    uint64_t looks;  /* how many looks were used: the budget or, where there are fewer in all, all of them; 0 where the reading was refused */
    uint32_t number; /* 0, or why the reading was refused */
    uint32_t known;  /* 1: there is a high figure; 0: there is none */
    int32_t high;    /* with known 1 the high figure; else 0 */
    int32_t low;     /* with number 0 the low figure; else 0 */
} filkotar_reading;

#ifdef FILKOTAR_SAME
FILKOTAR_SAME(sizeof(filkotar_reading), 24);
#ifdef __GNUC__
FILKOTAR_SAME(__builtin_offsetof(filkotar_reading, looks), 0);
FILKOTAR_SAME(__builtin_offsetof(filkotar_reading, number), 8);
FILKOTAR_SAME(__builtin_offsetof(filkotar_reading, known), 12);
FILKOTAR_SAME(__builtin_offsetof(filkotar_reading, high), 16);
FILKOTAR_SAME(__builtin_offsetof(filkotar_reading, low), 20);
#endif
#undef FILKOTAR_SAME
#endif

/*
 * Reads the range from take[i] to take[j], both included, with no more than `budget` looks. The first line that applies:
 *
 *     blocks is not (length + 63) / 64          number 15, FILKOTAR_OTHER_INDEX_LENGTH
 *     i is above j, or j is not below length    number 14, FILKOTAR_RANGE_OUT_OF_TAKE
 *     any other                                 number 0, FILKOTAR_ACCEPTED
 *
 * With number 15 or 14 the other four are 0, whatever the budget. i, j and budget may be any numbers, up to UINT64_MAX.
 *
 * With 0, whatever the index holds:
 *
 *     looks   the smaller of budget and the number of all looks
 *     high    the least of what was looked at, of these: entries of blocks wholly inside the range, and values. An entry of a block that is only partly inside
 *             does not count. Where nothing counts yet, known is 0
 *     low     INT32_MIN until the entries of all blocks that meet the range are read, then the least of these entries, and once all looks are used, high. So with
 *             a budget of 0 it is INT32_MIN
 *
 * The answer rests on the two lengths, on i, j and budget, and on what the looks that were used read, and on nothing else.
 *
 * With 0, and with an index that filkotar_build wrote for this take, neither of them altered since: low is never above the least of take[i] to take[j], and
 * a high figure never below it; once all looks are used both are that value. So where known is 1 and low equals high, both are. A bigger budget never gives a
 * lower low, a higher high, or known 0 where it was 1.
 *
 * The call stays within the `length` values and the `blocks` entries, and returns. In no case is the take or the index written.
 */
filkotar_reading filkotar_rough(const int32_t *take, uint64_t length, const int32_t *index, uint64_t blocks, uint64_t i, uint64_t j, uint64_t budget);

#ifdef __cplusplus
}
#endif

#endif
