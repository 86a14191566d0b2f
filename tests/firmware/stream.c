/* The stream program from C: command bytes from standard input, of which no more than the first 16,384 are read, go through an engine for 60 marks, and a line is printed of each command. A
   command is a kind byte and, but for a Mark, an argument of four bytes, least significant first. A kind byte that is none of the four, or an argument that is cut off, ends the stream.
   crates/stream is the same program in Rattle; tests/firmware/run holds this one to what is stored of that. */
#include "filkotar.h"

#include <inttypes.h>
#include <stdio.h>

enum { WORDS = FILKOTAR_WORDS(60), BYTES_READ = 16384 };

/* the kind bytes */
enum { VALUE = 1, MARK = 2, QUERY = 3, CLOSE = 4 };

typedef struct {
    int kind;
    uint32_t argument; /* 0 where there is none */
    size_t length;     /* in bytes, the kind byte with them */
} command;

static uint32_t little_endian(const unsigned char *bytes)
{
    return bytes[0] | (uint32_t)bytes[1] << 8 | (uint32_t)bytes[2] << 16 | (uint32_t)bytes[3] << 24;
}

/* A value's bits are two's complement. A conversion of the upper half is left to the compiler before C23 and C++20, and this is not. */
static int32_t signed_of(uint32_t bits)
{
    return bits <= INT32_MAX ? (int32_t)bits : -(int32_t)(UINT32_MAX - bits) - 1;
}

/* Reads the command that the `left` bytes begin with, of which there is at least one. FILKOTAR_ACCEPTED: it stands in *next. Else it is the refusal's number: a kind that is unknown comes
   first, also where nothing follows. */
static uint32_t read_command(const unsigned char *bytes, size_t left, command *next)
{
    next->kind = bytes[0];
    switch (next->kind) {
    case MARK:
        next->argument = 0;
        next->length = 1;
        return FILKOTAR_ACCEPTED;
    case VALUE:
    case QUERY:
    case CLOSE:
        if (left < 5) {
            return FILKOTAR_ARGUMENT_CUT_OFF;
        }
        next->argument = little_endian(bytes + 1);
        next->length = 5;
        return FILKOTAR_ACCEPTED;
    default:
        return FILKOTAR_UNKNOWN_KIND;
    }
}

static filkotar_answer perform(filkotar_session s, uint64_t *area, command c)
{
    switch (c.kind) {
    case VALUE:
        return filkotar_value(s, area, WORDS, signed_of(c.argument));
    case MARK:
        return filkotar_mark(s, area, WORDS);
    case QUERY:
        return filkotar_query(s, area, WORDS, c.argument);
    default:
        return filkotar_close(s, area, WORDS, c.argument);
    }
}

int main(void)
{
    static unsigned char bytes[BYTES_READ];
    static uint64_t area[WORDS];
    size_t length = fread(bytes, 1, sizeof bytes, stdin), at = 0;
    uint32_t commands = 0, accepted = 0;
    filkotar_answer a = filkotar_open(area, WORDS);

    printf("taps %" PRIu64 "\n", a.session.limit);
    while (at < length) {
        command next;
        uint32_t refusal = read_command(bytes + at, length - at, &next);

        if (refusal != FILKOTAR_ACCEPTED) {
            printf("stop %lu %" PRIu32 "\n", (unsigned long)at, refusal);
            break;
        }
        /* the session goes in as the last answer has it, also after a refusal, which gives it back as it was */
        a = perform(a.session, area, next);
        at += next.length;
        commands++;
        printf("%" PRIu32 " %c %" PRIu32, commands, " VMQC"[next.kind], a.number);
        if (a.number == FILKOTAR_ACCEPTED) {
            accepted++;
            if (next.kind == QUERY) {
                printf(" %" PRId32 " %" PRIu32, a.value, a.place);
            }
        }
        printf("\n");
    }
    printf("end %" PRIu32 " %" PRIu32 " %" PRIu64 "\n", commands, accepted, a.session.active);
    return 0;
}
