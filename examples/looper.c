/* The layers of a loop pedal, by the level engine: each sample's headroom goes in, a tap starts a layer, and the mixer gets the gain of each layer. In a
   pedal the samples come from the converter and the taps from a foot switch; here both stand in a table, and a log is printed. All calls are made from one
   place: a foot switch that interrupts only notes its tap, and the sample loop makes the call, since one that is made between another and the keeping of its
   answer would hand in an old session. Only a mistake in this program could make an assertion fail.

     cc -Iinclude examples/looper.c target/filkotar/libfilkotar.a -o looper */
#include "filkotar.h"

#include <assert.h>
#include <inttypes.h>
#include <stdio.h>
#include <string.h>

enum { LAYERS = 8, WORDS = FILKOTAR_WORDS(LAYERS), STEP = 6 };

static uint64_t area[WORDS];    /* the engine's: from the opening on nothing else writes it */
static filkotar_answer engine;  /* the last answer: its session goes into the next call, also after a refusal, which gives it back as it was */
static uint32_t layers[LAYERS]; /* the positions of the active marks, the oldest first */
static int count;

/* headroom in quarter decibels, and what the player does in that sample: T taps, D drops the oldest layer */
static const struct { int32_t headroom; const char *foot; } samples[] = {
    {40, ""}, {36, "T"}, {12, ""}, {-3, ""}, {20, "TT"}, {18, "T"}, {31, "T"}, {-11, "T"}, {-11, "T"}, {25, "T"}, {9, "T"}, {4, "T"},
    {22, "DDDDDD"}, {-2, "TDDDT"}, {15, "T"}, {-250, "T"}, {28, "T"}, {-1, "D"}
};

static void sample(int32_t headroom)
{
    engine = filkotar_value(engine.session, area, WORDS, headroom);
    if (engine.number == FILKOTAR_LAST_POSITION) { /* after 2^32 - 1 samples, at 48 kHz a day and 51 minutes: all begins anew, without layers */
        engine = filkotar_open(area, WORDS);
        count = 0;
        engine = filkotar_value(engine.session, area, WORDS, headroom);
    }
    assert(engine.number == FILKOTAR_ACCEPTED);
}

static void drop_oldest(void)
{
    engine = filkotar_close(engine.session, area, WORDS, layers[0]);
    assert(engine.number == FILKOTAR_ACCEPTED);
    printf("%" PRIu32 ": layer %" PRIu32 " is dropped\n", engine.session.present, layers[0]);
    count--;
    memmove(layers, layers + 1, (size_t)count * sizeof layers[0]);
}

static void tap(void)
{
    engine = filkotar_mark(engine.session, area, WORDS);
    if (engine.number == FILKOTAR_FULL) { /* this pedal gives up its oldest layer */
        drop_oldest();
        engine = filkotar_mark(engine.session, area, WORDS);
    }
    switch (engine.number) {
    case FILKOTAR_NOTHING_TO_MARK: /* there is no sample yet */
    case FILKOTAR_ALREADY_MARKED:  /* the switch bounces */
    case FILKOTAR_ALREADY_CLOSED:  /* the layer of this sample is dropped; the next sample can start another */
        printf("%" PRIu32 ": no layer starts, %" PRIu32 "\n", engine.session.present, engine.number);
        return;
    }
    assert(engine.number == FILKOTAR_ACCEPTED);
    layers[count++] = engine.session.present;
    printf("%" PRIu32 ": a layer starts\n", engine.session.present);
}

/* The gain of a layer is that of the least headroom since its tap. */
static void mix(void)
{
    for (int n = 0; n < count; n++) {
        engine = filkotar_query(engine.session, area, WORDS, layers[n]);
        assert(engine.number == FILKOTAR_ACCEPTED);
        printf("%" PRIu32 ": layer %" PRIu32 " dips to %" PRId32 " at %" PRIu32 ", gain %" PRIu16 "\n", engine.session.present, layers[n],
            engine.value, engine.place, filkotar_gain(engine.value));
    }
}

int main(void)
{
    engine = filkotar_open(area, WORDS);
    assert(engine.number == FILKOTAR_ACCEPTED);
    for (size_t n = 0; n < sizeof samples / sizeof samples[0]; n++) {
        sample(samples[n].headroom);
        for (const char *foot = samples[n].foot; *foot != '\0'; foot++) {
            if (*foot == 'T') {
                tap();
            } else if (count > 0) {
                drop_oldest();
            }
        }
        if (engine.session.present % STEP == 0) {
            mix();
        }
    }
    return 0;
}
