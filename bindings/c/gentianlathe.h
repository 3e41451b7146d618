/*
 * gentianlathe.h: the C interface of Gentianlathe, the evaluator of a signing figure's animation.
 *
 * It belongs to the archive libcapi.a, which `tools/build capi` proves and writes for 64-bit x86.
 * The header is C99 and C++. NOTICE has the licence of what was ported.
 *
 * A figure is a plan (16-bit words: joints, clips, blend trees, transitions) with its numbers (rates,
 * values, durations and poses); docs/FORMAT.md says what they hold, docs/PLAYING.md how they play and which
 * way rotations turn. A player is what moves: clock, speed, state, parameters. Every call answers on every
 * content of what it is lent; none makes it undefined.
 * A host promises only this about its pointers:
 *
 *   - not null and aligned for their type, also where the length beside them is 0;
 *   - valid for as many elements as that length says, to be read or, where not const, to be written;
 *   - what one pointer of a call spans does not overlap what another spans.
 *
 * The library allocates nothing and keeps nothing between calls. So it has no handle to close, and several
 * threads may call it at once, each with its own player and output; plan and numbers may be shared. A stack of
 * 64 KiB is enough for any call.
 *
 * Floats are IEEE 754. All NaNs count as one: which payload and sign a NaN in an output or in a player
 * has is not promised.
 */
#ifndef GENTIANLATHE_H
#define GENTIANLATHE_H

#include <stddef.h>
#include <stdint.h>

#ifdef __cplusplus
extern "C" {
#endif

/*
 * For hosts that build plans: the most joints of a figure, and the parent that marks a root. 255 marks one too, but
 * only in a figure of at most 64 joints; in a larger one it is joint 255.
 */
#define GENTIANLATHE_MAX_JOINTS 400
#define GENTIANLATHE_ROOT 65535

/* The most states and clips of a figure: as many have a mark in what gentianlathe_uses answers. */
#define GENTIANLATHE_MAX_STATES 16
#define GENTIANLATHE_MAX_CLIPS 16

/* A player has 32 parameters and 64 clip instances of three floats each; a matrix has 16 floats. */
#define GENTIANLATHE_PARAMETERS 32
#define GENTIANLATHE_INSTANCES 64
#define GENTIANLATHE_MATRIX 16

/*
 * A player. It is plain data: copy it by assignment, save and restore it, read it as you like. Any content
 * is taken; one that no figure has is at most refused, by a frame or by gentianlathe_loops (number 9).
 *
 * A start makes one. A start that is refused makes the blank one: clock 0, speed 1, state 0, idle, all
 * parameters 0, all clip instances at start 0, rate 1, offset 0.
 *
 * Use a player with the figure that it was started with. Another figure does no harm, but takes the
 * numbers that it finds here for its own.
 *
 * No call begins a clip anew, also not one that stopped on its last pose. A host does so by storing the clip's
 * time, clock + ext * speed, as its instance's start, and 0 as its offset.
 */
typedef struct gentianlathe_player {
    double clock;      /* seconds played */
    double speed;      /* by how much the clock grows in a second: 1 where nothing was set */
    size_t state;      /* number of the current state, from 0 */
    size_t running;    /* 0: idle; anything else: in a transition. Calls write 0 or 1 */
    double start;      /* a transition's start, in seconds of clock + ext ... */
    size_t target;     /* ... the number of the state that it leads to ... */
    float duration;    /* ... and its seconds. Idle, these three mean nothing, and calls write zeros */
    float parameters[GENTIANLATHE_PARAMETERS];
    float instances[3 * GENTIANLATHE_INSTANCES]; /* start, rate, offset of clip node 0 of the plan, of 1, .. */
} gentianlathe_player;

/* No host is compiled with another layout than the archive's. gentianlathe_player_size() tells the archive's. */
typedef char gentianlathe_player_has_952_bytes[sizeof(gentianlathe_player) == 952 ? 1 : -1];

/*
 * An answer. Number 0 is the acceptance, and place is then 0. Any other number is a refusal; where more
 * than one applies, the first in the order of checks is told. A plan's words are checked front to back, and
 * the first missing or wrong one decides (1 to 5 and 14); then 6, 7, 9; then, by what is asked for, 10 or
 * 16 and 17. A text: 11, then 12.
 *
 *   number and what is wrong, as docs/FORMAT.md has it
 *   1   the plan ends too early (place: its length)
 *   2   a count or the initial state is out of range, or there is a 65th clip node (place: that word; the node's kind)
 *   3   a parent is neither 65535 (a root; with J at most 64 also 255) nor an earlier joint (place: that word)
 *   4   a node's word is wrong, or nothing uses a node (place: that word; K of the state)
 *   5   a transition's parameter, operator or target is wrong (place: that word)
 *   14  a clip's ending is neither 0 (loop) nor 1 (stop) (place: that word)
 *   6   there are words after the last state (place: the first of them)
 *   7   there are not exactly as many numbers as the plan says (place: 0)
 *   8   a parameter number is 32 or above (place: 0)
 *   9   the player's state, or its running transition's target, is not below S (place: 0)
 *   10  the output holds fewer than 16 floats a joint (place: 0)
 *   16  there is no such state or node, or the node is no clip (place: 0)
 *   17  the clip has no samples, or stops (place: 0)
 *   11  a line is malformed, missing or one too many, or has a count above its limit (place: that line, from 1)
 *   12  the plan or number slice is too short (place: 0)
 *
 * Words are counted from 0. A refused call writes nothing to an output, a plan or numbers, and leaves every
 * field of the player as it was. (A refused start is the exception: it stores the blank player.)
 */
typedef struct gentianlathe_answer {
    size_t number;
    size_t place;
} gentianlathe_answer;

/* A reading's answer: as above, and how many words and numbers were written; both 0 where refused. */
typedef struct gentianlathe_text_answer {
    size_t number;
    size_t place;
    size_t words;
    size_t numbers;
} gentianlathe_text_answer;

/*
 * What a figure can ever use. Number and place are an answer's, as above; every mark is 0 or 1:
 *
 *   states[s]      1: state s is reachable. It is the initial one, or a chain of transitions leads to it from there
 *   parameters[p]  1: a reachable state reads parameter p, by a lerp or additive node or by a condition
 *   clips[c]       1: a reachable state plays clip c, which may be one without samples
 *
 * A figure has S states, P parameters and C clips (words 3, 2 and 1 of its plan); the marks behind these are 0. Where
 * refused, all marks are 0.
 */
typedef struct gentianlathe_uses_answer {
    size_t number;
    size_t place;
    uint8_t states[GENTIANLATHE_MAX_STATES];
    uint8_t parameters[GENTIANLATHE_PARAMETERS];
    uint8_t clips[GENTIANLATHE_MAX_CLIPS];
} gentianlathe_uses_answer;

/* It comes by value, so a host that expects another size would have its stack written over. */
typedef char gentianlathe_uses_answer_has_80_bytes[sizeof(gentianlathe_uses_answer) == 80 ? 1 : -1];

/*
 * How many whole loops a clip has played, and how many samples of the next. Number and place are an answer's, as above.
 * Of a clip of N samples, loops * N + rest is the position rounded down, and rest is below N. Refused, both are 0.
 */
typedef struct gentianlathe_loops_answer {
    size_t number;
    size_t place;
    size_t loops;
    size_t rest;
} gentianlathe_loops_answer;

typedef char gentianlathe_loops_answer_has_32_bytes[sizeof(gentianlathe_loops_answer) == 32 ? 1 : -1];

/*
 * Checks a figure and starts it: *player becomes a fresh player, in the plan's initial state.
 * Refused with 1 to 7 or 14; *player is then the blank one. What *player held before does not matter.
 */
gentianlathe_answer gentianlathe_start(const uint16_t *plan, size_t plan_length,
                                       const float *numbers, size_t numbers_length,
                                       gentianlathe_player *player);

/* Moves the player's clock on by delta seconds times its speed. Never refused, whatever delta is. */
void gentianlathe_update(gentianlathe_player *player, double delta);

/* Gives the player another speed. Never refused, whatever it is. */
void gentianlathe_speed(gentianlathe_player *player, double speed);

/*
 * Gives a parameter another value, any float. Refused with 8 from parameter 32 on; the player then stays.
 * A parameter below 32 that the plan does not read is taken as well, and has no effect.
 */
gentianlathe_answer gentianlathe_set(gentianlathe_player *player, size_t parameter, float value);

/*
 * Shows a frame: at most one step of the transitions, at clock + ext, then the matrix of each joint, its clips at
 * clock + ext * speed: 16 floats by rows and the joints one after another, at the front of output. The player moves
 * with it (a transition begins or ends, clip instances are synchronised). Floats of output behind the last joint's
 * stay as they are. A clip without samples, a pause, shows the identity pose at every joint, and a lerp node with one
 * leaves its clip instances as they are.
 *
 * Refused with 1 to 7 or 14 for the figure, which is checked anew at each frame; with 9 for the player; with 10
 * for an output shorter than gentianlathe_output_length(). Player and output then stay.
 */
gentianlathe_answer gentianlathe_frame(const uint16_t *plan, size_t plan_length,
                                       const float *numbers, size_t numbers_length,
                                       gentianlathe_player *player, double ext,
                                       float *output, size_t output_length);

/*
 * The same, but that the upper 3x3 of each joint's own matrix is transposed before its parent's is multiplied on: for
 * rotations as glTF, three.js and web pages have them (docs/PLAYING.md, examples/page.md). Frames of both kinds may be
 * asked for in turns; the player moves alike. Refused likewise.
 */
gentianlathe_answer gentianlathe_page_frame(const uint16_t *plan, size_t plan_length,
                                            const float *numbers, size_t numbers_length,
                                            gentianlathe_player *player, double ext,
                                            float *output, size_t output_length);

/*
 * Tells which states of a figure are reachable, and which parameters and clips these use: gentianlathe_uses_answer says
 * what a mark of 1 means. A mark of 0 means that it never matters: a player that was started on this figure never gets
 * to that state, no frame of it changes by that parameter's value, nor by that clip's rate and poses. (A host that
 * stores another state into a player gets there all the same.)
 *
 * A mark of 1 does not promise that it will be seen. Conditions are not weighed: a transition counts also where no value
 * of its parameter lets it pass.
 *
 * So authors list what nobody can see before a figure goes to review:
 *
 *     gentianlathe_uses_answer uses = gentianlathe_uses(plan, plan_length, numbers, numbers_length);
 *     for (size_t clip = 0; uses.number == 0 && clip < plan[1]; clip++)
 *         if (uses.clips[clip] == 0)
 *             printf("clip %lu is never played\n", (unsigned long)clip);
 *
 * Refused as a start of the figure is, with 1 to 7 or 14.
 */
gentianlathe_uses_answer gentianlathe_uses(const uint16_t *plan, size_t plan_length,
                                           const float *numbers, size_t numbers_length);

/*
 * Tells how many whole loops the clip of a node has played at a time, and how many samples of the next: so editors time
 * signs that repeat. States are numbered from 0, and so are the nodes of each, as the plan has them; any state may be
 * asked about, not only the player's. The player is only read, and nothing is synchronised first: the position is that
 * of the clip's instance as the player has it. One that is negative or NaN gives 0 and 0, and one of 2^64 or above
 * counts as 2^64 - 1.
 *
 * The time is in seconds. Frames play clips at (float)(clock + ext * speed), so of the frame that was shown last:
 *
 *     float time = (float)(player.clock + ext * player.speed);
 *     gentianlathe_loops_answer played =
 *         gentianlathe_loops(plan, plan_length, numbers, numbers_length, &player, player.state, 0, time);
 *     if (played.number == 0)
 *         printf("%lu loops and %lu samples\n", (unsigned long)played.loops, (unsigned long)played.rest);
 *
 * Of a time to come the answer holds until a frame synchronises the clip to another rate.
 *
 * Refused with 1 to 7 or 14 for the figure; with 9 for the player; with 16 for a state or node that is not there, or a
 * node that is no clip; with 17 for a clip that has no samples or stops.
 */
gentianlathe_loops_answer gentianlathe_loops(const uint16_t *plan, size_t plan_length,
                                             const float *numbers, size_t numbers_length,
                                             const gentianlathe_player *player,
                                             size_t state, size_t node, float time);

/*
 * Reads a figure's text. Accepted, the front of both slices holds plan and numbers, the answer tells how much
 * of them, and what follows stays. Refused with 11 for the text, then with 12 for the slices; both then stay.
 * The text need not end with a zero byte, and may hold some: they are bytes like others, and malformed.
 *
 * Slices of gentianlathe_most_words() words and gentianlathe_most_numbers(text_length) numbers are never
 * refused. That a text can be read does not yet make it a figure: gentianlathe_start tells.
 */
gentianlathe_text_answer gentianlathe_read_text(const uint8_t *text, size_t text_length,
                                                uint16_t *plan, size_t plan_length,
                                                float *numbers, size_t numbers_length);

/* Bytes of the archive's player. Hold sizeof(gentianlathe_player) to it before the first call. */
size_t gentianlathe_player_size(void);

/* Floats that a frame of this plan writes, 16 a joint by the plan's first word, 6,400 for 400 joints; 0 for an empty plan. */
size_t gentianlathe_output_length(const uint16_t *plan, size_t plan_length);

/* Words of the longest plan that a text can have. */
size_t gentianlathe_most_words(void);

/* The most numbers that a text of so many bytes can have. It can be 0: lend a pointer all the same. */
size_t gentianlathe_most_numbers(size_t text_length);

#ifdef __cplusplus
}
#endif

#endif
