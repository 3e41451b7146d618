/*
 * How much stack each call of the archive uses at most: it runs on a stack of its own that was painted before, and
 * what is no longer painted afterwards was used. Prints these bytes, and fails where a call comes near to what
 * gentianlathe.h promises.
 *
 *     stack        exit status: 0 all within the bound, 1 not
 *
 * The figure has the most joints, in a chain, and two states with the deepest tree that 31 nodes can make; it is
 * shown in the middle of a transition, so that both are evaluated. Behind these come small states up to the most that
 * there can be, each with the most transitions and all of them to the next state: no states take longer to be reached.
 */
#define _XOPEN_SOURCE 700
#include "gentianlathe.h"

#include <stdio.h>
#include <stdlib.h>
#include <string.h>
#include <ucontext.h>

enum {
    PROMISED = 64 * 1024, /* gentianlathe.h: enough for any call */
    BOUND = PROMISED / 2, /* the rest is for the host's own calls, and for what a signal handler takes */
    PAINT = 0xa5,
    JOINTS = GENTIANLATHE_MAX_JOINTS,
    CLIPS = GENTIANLATHE_MAX_CLIPS,
    STATES = GENTIANLATHE_MAX_STATES,
    TRANSITIONS = 16, /* of each state */
    OUTPUT = GENTIANLATHE_MATRIX * JOINTS,
    WORDS = 4096,
    NUMBERS = CLIPS + 2 * STATES * TRANSITIONS + 8 * JOINTS * CLIPS,
    TEXT = 1 << 20
};

static uint16_t plan[WORDS];
static size_t words;
static float numbers[NUMBERS];
static char text[TEXT];
static size_t text_length;
static float output[OUTPUT];
static gentianlathe_player player;
static size_t number; /* of the last answer */
static unsigned last_mark; /* whether the last state is reachable */

static void put(unsigned word)
{
    plan[words++] = (uint16_t)word;
}

/* A tree over so many clips: each node that is no clip has the one before it for its first input. */
static void put_tree(unsigned clips)
{
    put(2 * clips - 1);
    for (unsigned clip = 0; clip < clips; clip++) {
        put(0), put(clip), put(0), put(0);
    }
    for (unsigned clip = 1; clip < clips; clip++) {
        put(1 + clip % 2), put(clip == 1 ? 0 : clips + clip - 2), put(clip), put(0);
    }
}

/* To the next state, and from the last to itself, where parameter 0 is at most 1. */
static void put_transitions(unsigned state)
{
    put(TRANSITIONS);
    for (unsigned i = 0; i < TRANSITIONS; i++) {
        put(0), put(1), put(state + 1 < STATES ? state + 1 : state);
    }
}

static void make_figure(void)
{
    put(JOINTS), put(CLIPS), put(1), put(STATES), put(0);
    for (unsigned joint = 0; joint < JOINTS; joint++)
        put(joint == 0 ? GENTIANLATHE_ROOT : joint - 1);
    for (unsigned clip = 0; clip < CLIPS; clip++) {
        put(1), put(clip % 2);
    }
    for (unsigned state = 0; state < STATES; state++) {
        put_tree(state < 2 ? CLIPS : 2); /* 60 clip nodes in all, of at most 64 */
        put_transitions(state);
    }
    for (size_t i = 0; i < NUMBERS; i++)
        numbers[i] = 1.0f;
}

/* A text of as many joints, with a sample of each clip. */
static void make_text(void)
{
    char *at = text + sprintf(text, "figure,%d,%d,0,1,0\n", JOINTS, CLIPS);
    for (int joint = 0; joint < JOINTS; joint++)
        at += sprintf(at, "joint,%d\n", joint == 0 ? GENTIANLATHE_ROOT : joint - 1);
    for (int clip = 0; clip < CLIPS; clip++)
        at += sprintf(at, "clip,1,3f800000,0\n");
    at += sprintf(at, "state,1,0\nnode,0,0,0,0\n");
    for (int pose = 0; pose < JOINTS * CLIPS; pose++)
        at += sprintf(at, "pose,3f800000,3f800000,3f800000,3f800000,3f800000,3f800000,3f800000,3f800000\n");
    text_length = (size_t)(at - text);
}

static void nothing(void) {}
static void start(void) { number = gentianlathe_start(plan, words, numbers, NUMBERS, &player).number; }
static void update(void) { gentianlathe_update(&player, 0.25); }
static void speed(void) { gentianlathe_speed(&player, 1.0); }
static void set(void) { number = gentianlathe_set(&player, 0, 0.5f).number; }

static void frame(void)
{
    number = gentianlathe_frame(plan, words, numbers, NUMBERS, &player, 0.0, output, OUTPUT).number;
}

static void page_frame(void)
{
    number = gentianlathe_page_frame(plan, words, numbers, NUMBERS, &player, 0.0, output, OUTPUT).number;
}

/* The last state is reached only by way of all others. */
static void uses(void)
{
    gentianlathe_uses_answer answer = gentianlathe_uses(plan, words, numbers, NUMBERS);
    number = answer.number;
    last_mark = answer.states[STATES - 1];
}

/* The last state's first node plays a clip that loops, and comes behind all others. */
static void loops(void)
{
    number = gentianlathe_loops(plan, words, numbers, NUMBERS, &player, STATES - 1, 0, 0.25f).number;
}

static void read_text(void)
{
    static uint16_t read_words[WORDS];
    static float read_numbers[NUMBERS];
    number = gentianlathe_read_text((const uint8_t *)text, text_length, read_words, WORDS, read_numbers, NUMBERS).number;
}

static void sizes(void)
{
    gentianlathe_player_size(), gentianlathe_most_words(), gentianlathe_most_numbers(TEXT);
    gentianlathe_output_length(plan, words);
}

/* Bytes of stack between where a call begins and the deepest byte that it wrote. */
static size_t used_by(void (*call)(void))
{
    static unsigned char stack[2 * PROMISED]; /* one that uses too much is to be seen, not to crash */
    ucontext_t here, there;
    size_t untouched = 0;
    memset(stack, PAINT, sizeof stack);
    if (getcontext(&there) != 0)
        abort();
    there.uc_stack.ss_sp = stack;
    there.uc_stack.ss_size = sizeof stack;
    there.uc_link = &here;
    makecontext(&there, call, 0);
    number = 0;
    if (swapcontext(&here, &there) != 0)
        abort();
    while (untouched < sizeof stack && stack[untouched] == PAINT)
        untouched++;
    return sizeof stack - untouched;
}

int main(void)
{
    static const struct {
        const char *name;
        void (*call)(void);
    } calls[] = {{"start", start}, {"update", update}, {"speed", speed}, {"set", set}, {"frame", frame},
                 {"page_frame", page_frame}, {"uses", uses}, {"loops", loops}, {"read_text", read_text},
                 {"the four sizes", sizes}};
    int failed = 0;
    make_figure();
    make_text();
    size_t own = used_by(nothing); /* what coming and going takes */
    for (size_t i = 0; i < sizeof calls / sizeof calls[0]; i++) {
        used_by(calls[i].call); /* the dynamic linker looks memcpy up at its first call, on the same stack */
        size_t used = used_by(calls[i].call) - own;
        printf("%s %s %lu", i == 0 ? "c: stack in bytes:" : ",", calls[i].name, (unsigned long)used);
        if (number != 0 || used > BOUND) {
            fprintf(stderr, "c: stack of %s: answered %lu, and more than %d bytes are too many\n", calls[i].name,
                    (unsigned long)number, BOUND);
            failed = 1;
        }
    }
    putchar('\n');
    if (player.running == 0) {
        fprintf(stderr, "c: stack: the frames were not shown in a transition\n");
        failed = 1;
    }
    if (last_mark != 1) {
        fprintf(stderr, "c: stack: the last state was not reached\n");
        failed = 1;
    }
    return failed;
}
