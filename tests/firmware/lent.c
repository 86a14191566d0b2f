/* The engine, lent right and wrong: openings of every outcome; three boards that are played together, whose calls are lent the words as they were left, or more, fewer or none; then sessions that no
   call returned, on words that no call left. Of each call is printed what its promise fixes, and '-' for what that leaves open. tests/engine_c.py works out the same lines.

   Beside the lent words stand others, which are compared after each call, and at both ends of the memory pages that cannot be read. What is promised of all calls alike is looked at here, and where
   it is broken a line says so that is not stored: the words beside stay; a refusal and a Query give the session back as it was, whatever its numbers, and write no word; nothing is shown but by a
   Query that is accepted.

   Of the last part only counts and digests of the lines are stored. With the argument `calls` the lines are printed too, as tests/engine_c.py prints them with that argument. */
#define _DEFAULT_SOURCE
#include "filkotar.h"
#include "filkotar.h" /* a second time changes nothing */

#include <inttypes.h>
#include <stdarg.h>
#include <stdio.h>
#include <string.h>
#include <sys/mman.h>

/* the types that are declared are those that are promised */
static filkotar_answer (*const engine_open)(uint64_t *, uint64_t) = filkotar_open;
static filkotar_answer (*const engine_value)(filkotar_session, uint64_t *, uint64_t, int32_t) = filkotar_value;
static filkotar_answer (*const engine_mark)(filkotar_session, uint64_t *, uint64_t) = filkotar_mark;
static filkotar_answer (*const engine_query)(filkotar_session, const uint64_t *, uint64_t, uint32_t) = filkotar_query;
static filkotar_answer (*const engine_close)(filkotar_session, uint64_t *, uint64_t, uint32_t) = filkotar_close;

/* THE MEMORY, in words: what the longest area and some words on both sides take, between two pages that cannot be read. It is kept as it was before a call, and before an opening. */
enum { PAGE = 512, AROUND = 64, LONGEST = 512 + 64 * 4096 + 64, MEMORY = (LONGEST + 2 * AROUND + PAGE - 1) / PAGE * PAGE };

static uint64_t *memory, before[MEMORY], opened[MEMORY];

static int map(void)
{
    size_t page = PAGE * sizeof memory[0], bytes = MEMORY * sizeof memory[0] + 2 * page;
    char *all = (char *)mmap(NULL, bytes, PROT_READ | PROT_WRITE, MAP_PRIVATE | MAP_ANONYMOUS, -1, 0);

    if (all == (char *)MAP_FAILED || mprotect(all, page, PROT_NONE) != 0 || mprotect(all + bytes - page, page, PROT_NONE) != 0) {
        return 0;
    }
    memory = (uint64_t *)(void *)(all + page);
    return 1;
}

/* The words that are lent stand from memory[at] on. */
typedef struct {
    size_t at, length;
} place;

/* no words: by a null pointer, or by one to the page behind all */
static uint64_t *words_of(place p)
{
    return p.length == 0 && p.at == 0 ? NULL : memory + p.at;
}

/* with the words beside them, as far as there are any */
static size_t start_of(place p)
{
    return p.at < AROUND ? 0 : p.at - AROUND;
}

static size_t end_of(place p)
{
    return MEMORY - p.at - p.length < AROUND ? (size_t)MEMORY : p.at + p.length + AROUND;
}

static void keep(uint64_t *then, place p)
{
    memcpy(then + start_of(p), memory + start_of(p), (end_of(p) - start_of(p)) * sizeof memory[0]);
}

static int kept(const uint64_t *then, size_t from, size_t end)
{
    return memcmp(memory + from, then + from, (end - from) * sizeof memory[0]) == 0;
}

/* zeros, ones, small numbers, and any */
static void fill(place p, int kind)
{
    size_t i;

    for (i = start_of(p); i < end_of(p); i++) {
        memory[i] = kind == 0 ? 0 : kind == 1 ? UINT64_MAX : kind == 2 ? i : (i + 1) * UINT64_C(0x9e3779b97f4a7c15);
    }
}

/* NUMBERS that tests/engine_c.py makes likewise; and others, on which no line depends. */
static uint32_t noise = 1, other_noise = 1;

/* from 0 to n - 1, with n at most 65536 */
static uint32_t below(uint32_t n)
{
    noise = noise * 1664525u + 1013904223u;
    return (noise >> 16) % n;
}

/* COMMANDS, by their letters: V, M, Q and C. */
typedef struct {
    char letter;
    int32_t value;
    uint32_t position;
} command;

static filkotar_answer tell(filkotar_session s, place p, command c)
{
    uint64_t *area = words_of(p);

    switch (c.letter) {
    case 'V':
        return engine_value(s, area, p.length, c.value);
    case 'M':
        return engine_mark(s, area, p.length);
    case 'Q':
        return engine_query(s, area, p.length, c.position);
    default:
        return engine_close(s, area, p.length, c.position);
    }
}

static void write_command(char *text, command c)
{
    if (c.letter == 'V') {
        sprintf(text, "V %" PRId32, c.value);
    } else if (c.letter == 'M') {
        sprintf(text, "M");
    } else {
        sprintf(text, "%c %" PRIu32, c.letter, c.position);
    }
}

/* few values, so that many are equal, and both ends of the range */
static int32_t some_value(void)
{
    int32_t value = (int32_t)below(41) - 20;

    return value == -20 ? INT32_MIN : value == 20 ? INT32_MAX : value;
}

/* A board, by its session, and the latest positions that were marked, as many as there can be marks, but no more than eight. */
typedef struct {
    filkotar_session session;
    uint32_t marks[8], count;
} board;

static void start(board *b, filkotar_session s)
{
    memset(b, 0, sizeof *b);
    b->session = s;
    b->count = s.limit < 1 ? 1 : s.limit > 8 ? 8 : (uint32_t)s.limit;
}

static void follow(board *b, command c, filkotar_answer a)
{
    uint32_t n;

    b->session = a.session;
    if (c.letter == 'M' && a.number == FILKOTAR_ACCEPTED) {
        for (n = b->count - 1; n > 0; n--) {
            b->marks[n] = b->marks[n - 1];
        }
        b->marks[0] = a.session.present;
    }
}

/* The position of a Query or a Close is one of those, or one of the last four. */
static command some_command(const board *b)
{
    command c = {' ', 0, 0};

    c.letter = "VVVVVVMMMMMQQQQQCCCC"[below(20)];
    if (c.letter == 'V') {
        c.value = some_value();
    } else if (c.letter != 'M') {
        c.position = below(4) > 0 ? b->marks[below(b->count)] : b->session.present - below(4);
    }
    return c;
}

/* CALLS, and what is promised of all alike. */
static void broken(const char *what)
{
    printf("not as promised: %s\n", what);
}

static int same(filkotar_session s, filkotar_session t)
{
    return s.words == t.words && s.limit == t.limit && s.active == t.active && s.present == t.present && s.last == t.last && s.standing == t.standing;
}

/* s: the session that a refusal gives back */
static void look_at(filkotar_answer a, place p, filkotar_session s, int query)
{
    if (!kept(before, start_of(p), p.at) || !kept(before, p.at + p.length, end_of(p))) {
        broken("a word beside those that are lent is written");
    }
    if ((a.number != FILKOTAR_ACCEPTED || query) && !kept(before, p.at, p.at + p.length)) {
        broken("a word is written");
    }
    if ((a.number != FILKOTAR_ACCEPTED || query) && !same(a.session, s)) {
        broken("the session is another");
    }
    if ((a.number != FILKOTAR_ACCEPTED || !query) && (a.value != 0 || a.place != 0)) {
        broken("a value or a place is shown");
    }
}

static filkotar_answer opening(place p)
{
    static const filkotar_session zeros = {0, 0, 0, 0, 0, 0};
    filkotar_answer a;

    keep(before, p);
    a = engine_open(words_of(p), p.length);
    look_at(a, p, zeros, 0);
    if (a.number == FILKOTAR_ACCEPTED && !kept(before, p.at + 512, p.at + p.length)) {
        broken("a word from 512 on is written");
    }
    return a;
}

static filkotar_answer call(filkotar_session s, place p, command c)
{
    filkotar_answer a;

    keep(before, p);
    a = tell(s, p, c);
    look_at(a, p, s, c.letter == 'Q');
    return a;
}

/* LINES, each an answer: number, value and place, and the session. What its promise may leave open has names. */
enum { NUMBER = 1, SHOWN = 2, ACTIVE = 4, STANDING = 8 };

static int printing = 1;
static uint64_t digest; /* of the bytes of all lines, by FNV-1a */

static void line(const char *format, ...)
{
    char text[300];
    const char *byte;
    va_list arguments;

    va_start(arguments, format);
    vsnprintf(text, sizeof text, format, arguments);
    va_end(arguments);
    for (byte = text; *byte != '\0'; byte++) {
        digest = (digest ^ (unsigned char)*byte) * UINT64_C(0x100000001b3);
    }
    if (printing) {
        printf("%s\n", text);
    }
}

static void answered(const char *what, filkotar_answer a, int open)
{
    filkotar_session s = a.session;
    char number[12] = "-", shown[24] = "- -", active[24] = "-", standing[12] = "-";

    if (!(open & NUMBER)) {
        sprintf(number, "%" PRIu32, a.number);
    }
    if (!(open & SHOWN)) {
        sprintf(shown, "%" PRId32 " %" PRIu32, a.value, a.place);
    }
    if (!(open & ACTIVE)) {
        sprintf(active, "%" PRIu64, s.active);
    }
    if (!(open & STANDING)) {
        sprintf(standing, "%" PRIu32, s.standing);
    }
    line("%s: %s %s of %" PRIu64 " %" PRIu64 " %s %" PRIu32 " %" PRId32 " %s", what, number, shown, s.words, s.limit, active, s.present, s.last, standing);
}

/* OPENINGS of every outcome, at both ends of the memory. */
static void openings(void)
{
    static const size_t lengths[] = {0, 1, 511, 512, 575, 576, 639, 640, 4351, 4352, 262655, 262656, 262720};
    size_t n;
    int kind;

    for (n = 0; n < sizeof lengths / sizeof lengths[0]; n++) {
        for (kind = 0; kind < 4; kind++) {
            place p = {kind % 2 == 0 ? 0 : MEMORY - lengths[n], lengths[n]};
            char what[40];

            fill(p, kind);
            sprintf(what, "%lu words", (unsigned long)p.length);
            answered(what, opening(p), 0);
        }
    }
}

/* BOARDS THAT ARE PLAYED TOGETHER. Of twenty calls one is lent more words, one fewer, one none, and one goes to a session that is not open. With l the most marks active together since the opening,
   every word from 512 + 64 * l on is as it was before that. */
enum { BOARDS = 3 };

static void some_call(int n, board *b, place p)
{
    static const filkotar_session unopened = {0, UINT64_MAX, 1, UINT32_MAX, -1, UINT32_MAX};
    command c = some_command(b);
    uint32_t chance = below(20);
    filkotar_answer a;
    char text[20], what[80];

    if (chance == 0) {
        p.length += below(2) == 0 ? 1 : AROUND;
    } else if (chance == 1) {
        p.length -= below(2) == 0 ? 1 : 64;
    } else if (chance == 2) {
        p.at = p.length = 0;
    }
    write_command(text, c);
    sprintf(what, "%s %d lent %lu, %s", chance == 3 ? "unopened" : "board", n, (unsigned long)p.length, text);
    a = call(chance == 3 ? unopened : b->session, p, c);
    answered(what, a, 0);
    if (chance != 3) {
        follow(b, c, a);
    }
}

static void boards(void)
{
    static const place own[BOARDS] = {{AROUND, FILKOTAR_WORDS(1)}, {1000, FILKOTAR_WORDS(2)}, {2000, FILKOTAR_WORDS(8) + 31}};
    static board of[BOARDS];
    size_t most[BOARDS];
    int calls;

    for (calls = 0; calls < 900; calls++) {
        int n = calls < BOARDS ? calls : (int)below(BOARDS);
        place p = own[n];

        if (calls < BOARDS) {
            fill(p, 3);
        }
        if (calls < BOARDS || below(100) == 0) {
            filkotar_answer a;
            char what[20];

            keep(opened, p);
            a = opening(p);
            sprintf(what, "board %d opened", n);
            answered(what, a, 0);
            start(&of[n], a.session);
            most[n] = 0;
        } else {
            some_call(n, &of[n], p);
        }
        if (most[n] < of[n].session.active) {
            most[n] = (size_t)of[n].session.active;
        }
        if (!kept(opened, p.at + 512 + 64 * most[n], p.at + p.length)) {
            broken("a word is not as it was lent");
        }
    }
}

/* SESSIONS THAT NO CALL RETURNED: some numbers of one are replaced by others. */
static filkotar_session replaced(filkotar_session s)
{
    switch (below(8)) {
    case 0:
        s.words = 0;
        break;
    case 1:
        s.words += below(2) == 0 ? 1 : UINT64_MAX;
        break;
    }
    if (below(2) == 0) {
        static const uint64_t limits[] = {0, 1, 2, 60, 4095, 4096, 4097, UINT64_C(1) << 32, UINT64_C(1) << 63, UINT64_MAX};

        s.limit = limits[below(10)];
    }
    if (below(2) == 0) {
        const uint64_t actives[] = {0, 1, s.limit - 1, s.limit, s.limit, s.limit + 1, 4095, 4096, 4097, UINT64_MAX};

        s.active = actives[below(10)];
    }
    if (below(2) == 0) {
        const uint32_t presents[] = {0, 1, 2, 64, s.present + 1, UINT32_C(1) << 31, UINT32_MAX - 1, UINT32_MAX};

        s.present = presents[below(8)];
    }
    if (below(2) == 0) {
        static const int32_t lasts[] = {0, -1, INT32_MIN, INT32_MAX};

        s.last = lasts[below(4)];
    }
    if (below(2) == 0) {
        static const uint32_t standings[] = {0, 1, 1, 1, 2, 3, 4, 5, 255, 256, UINT32_C(1) << 31, UINT32_MAX};

        s.standing = standings[below(12)];
    }
    return s;
}

static command some_junk_command(const board *b)
{
    command c = some_command(b);

    if ((c.letter == 'Q' || c.letter == 'C') && below(3) == 0) {
        const uint32_t positions[] = {0, 1, 2, b->session.present, b->session.present + 1, UINT32_MAX};

        c.position = positions[below(6)];
    }
    return c;
}

/* The number that a command may be refused with and need not be, or 0 where there is none: of a Mark where the session counts 4,096 marks or more, and of a Query or Close whose position can be an
   active mark. */
static uint32_t possible_refusal(filkotar_session s, uint64_t length, command c)
{
    if (s.words == 0 || s.words != length || c.letter == 'V') {
        return 0;
    }
    if (c.letter == 'M') {
        return s.standing == FILKOTAR_UNMARKED && s.active != s.limit && s.active >= 4096 ? FILKOTAR_FULL : 0;
    }
    return 0 < c.position && c.position <= s.present && (c.letter == 'Q' || s.active != 0) ? FILKOTAR_NOT_ACTIVE : 0;
}

/* of a Mark, a Query or a Close that is accepted */
static uint32_t standing_after(filkotar_session s, command c)
{
    switch (c.letter) {
    case 'M':
        return FILKOTAR_MARKED;
    case 'Q':
        return s.standing;
    default:
        return c.position == s.present || s.standing > FILKOTAR_CLOSED ? (uint32_t)FILKOTAR_CLOSED : s.standing;
    }
}

static int count[17]; /* of lines with each number, and last of those where it is open */

static void junk_call(filkotar_session s, place p, command c)
{
    filkotar_answer a = call(s, p, c);
    uint32_t possible = possible_refusal(s, p.length, c);
    int open = 0;
    char text[20], what[160];

    if (possible != 0) {
        open = c.letter == 'Q' ? NUMBER | SHOWN : NUMBER | ACTIVE | STANDING;
        if (a.number != FILKOTAR_ACCEPTED && a.number != possible) {
            broken("the number is none of the two");
        }
        if (a.number == FILKOTAR_ACCEPTED && a.session.standing != standing_after(s, c)) {
            broken("the standing is another");
        }
    } else if (a.number == FILKOTAR_ACCEPTED) {
        open = ACTIVE;
    }
    count[possible != 0 || a.number > 15 ? 16 : a.number]++;
    write_command(text, c);
    sprintf(what, "%" PRIu64 " %" PRIu64 " %" PRIu64 " %" PRIu32 " %" PRId32 " %" PRIu32 ", %s", s.words, s.limit, s.active, s.present, s.last, s.standing, text);
    answered(what, a, open);
}

/* What calls return and leave: of a hundred commands and, on the longest area, of as many Values and Marks as it has room for. */
static void play(board *b, place p)
{
    int n;

    start(b, engine_open(words_of(p), p.length).session);
    for (n = 0; n < 100; n++) {
        command c = some_command(b);

        follow(b, c, tell(b->session, p, c));
    }
    for (n = 0; p.length == LONGEST && n < 4096; n++) {
        command v = {'V', some_value(), 0}, m = {'M', 0, 0};

        follow(b, v, tell(b->session, p, v));
        follow(b, m, tell(b->session, p, m));
    }
}

static void alter(place p)
{
    other_noise = other_noise * 1664525u + 1013904223u;
    memory[p.at + (other_noise >> 8) % (other_noise >> 31 ? p.length : 32)] ^= UINT64_C(1) << (other_noise >> 25) % 64;
}

enum { KINDS = 5, AS_LEFT = KINDS - 1 };

static void junk_calls(place p, int kind)
{
    filkotar_session s = {p.length, p.length < 576 ? 0 : (p.length - 512) / 64, 0, 7, 5, FILKOTAR_UNMARKED};
    int left = kind == AS_LEFT && p.length >= 576, calls = p.length == LONGEST ? 20 : left ? 240 : 60, n, altered;
    board b;

    start(&b, s);
    fill(p, kind);
    if (left) {
        play(&b, p);
        s = b.session;
    }
    keep(opened, p);
    for (n = 0; n < calls; n++) {
        b.session = below(4) == 0 ? s : replaced(s);
        if (left) { /* but for up to three words */
            memcpy(memory + p.at, opened + p.at, p.length * sizeof memory[0]);
            for (altered = 0; altered < n % 4; altered++) {
                alter(p);
            }
        }
        junk_call(b.session, p, some_junk_command(&b));
    }
}

static void junk(int each)
{
    static const size_t lengths[] = {0, 1, 8, 511, 512, 513, 575, 576, 640, 1024, 4352, LONGEST};
    static const char *const kinds[KINDS] = {"zeros", "ones", "small", "any", "as left"};
    size_t n;
    int kind, last, number;

    for (n = 0; n < sizeof lengths / sizeof lengths[0]; n++) {
        for (kind = 0; kind < KINDS; kind++) {
            for (last = 0; last < 2; last++) { /* at the start of the memory, and at its end */
                place p = {last ? MEMORY - lengths[n] : 0, lengths[n]};

                memset(count, 0, sizeof count);
                digest = UINT64_C(0xcbf29ce484222325);
                printing = each;
                junk_calls(p, kind);
                printf("%lu words, %s:", (unsigned long)p.length, kinds[kind]);
                for (number = 0; number < 16; number++) {
                    if (count[number] > 0) {
                        printf(" %d of %d,", count[number], number);
                    }
                }
                printf(" %d of -; %016" PRIx64 "\n", count[16], digest);
            }
        }
    }
}

int main(int argc, char **argv)
{
    if (!map()) {
        return 1;
    }
    openings();
    boards();
    junk(argc == 2 && strcmp(argv[1], "calls") == 0);
    return 0;
}
