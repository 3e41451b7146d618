/*
 * A small host in C: reads a figure's text, starts it, shows frames.
 *
 *     example [-p] [FIGURE [SECONDS [PARAMETER VALUE]]]
 *     example -u [FIGURE]
 *     example -l STATE NODE TIME [FIGURE]
 *
 * FIGURE is a file with a figure's text (default: examples/printed.figure, from the repository's folder).
 * The first frame right after the start is printed as the program gentianlathe prints it, with ext 0. Where
 * SECONDS are given the player is then updated by them, the parameter takes its value if one is named, and
 * a second frame is printed. With -p both are page frames.
 *
 * With -u no frame is shown. It prints what the figure can ever use, as `inspect uses` does: `ok`, and then for each
 * state, parameter and clip a line with its number and its mark, 1 or 0.
 *
 * With -l no frame is shown either. It prints how many loops the clip of that node has played at TIME, in seconds, by a
 * player that was just started: `ok`, and then `loops,LOOPS,REST`.
 *
 * A refusal is printed as `refused,number,place`, and put in words on standard error.
 * Exit status: 0 shown, 1 refused, 2 something else went wrong (usage, file, memory, a foreign archive).
 */
#include "gentianlathe.h"

#include <errno.h>
#include <stdio.h>
#include <stdlib.h>
#include <string.h>

enum { SHOWN = 0, REFUSED = 1, FAILED = 2 };

enum question { FRAMES, PAGE_FRAMES, USES, LOOPS };

typedef struct {
    uint8_t *bytes;
    size_t length;
} text;

typedef struct {
    uint16_t *plan;
    size_t words;
    float *numbers;
    size_t count;
} figure;

typedef struct {
    enum question question;
    const char *path;
    int again; /* whether a second frame is asked for */
    double seconds;
    int sets; /* whether a parameter is to be set */
    size_t parameter;
    float value;
    size_t state, node; /* of which loops are counted */
    float time;
} options;

/* malloc may give null for 0 bytes, and the library wants a pointer for a length of 0 too. */
static void *allocate(size_t count, size_t size)
{
    void *memory = count > SIZE_MAX / size ? NULL : malloc(count == 0 ? size : count * size);
    if (memory == NULL) {
        fprintf(stderr, "example: not enough memory\n");
        exit(FAILED);
    }
    return memory;
}

static const char *meaning(size_t number)
{
    static const char *const meanings[] = {
#include "refusals.h"
    };
    /* The numbers that the library never gives have no meaning here. */
    int known = number < sizeof meanings / sizeof meanings[0] && meanings[number] != NULL;
    return known ? meanings[number] : "unknown to this host";
}

static int refuse(size_t number, size_t place)
{
    printf("refused,%lu,%lu\n", (unsigned long)number, (unsigned long)place);
    fprintf(stderr, "example: refused with %lu at %lu: %s\n", (unsigned long)number, (unsigned long)place,
            meaning(number));
    return REFUSED;
}

static int fail(const char *path)
{
    fprintf(stderr, "example: '%s' cannot be read: %s\n", path, strerror(errno));
    return FAILED;
}

/* Reads the whole file: it grows the buffer, since not every file tells its length. */
static int read_file(const char *path, text *read)
{
    size_t room = 65536;
    FILE *file = fopen(path, "rb");
    if (file == NULL)
        return fail(path);
    read->bytes = allocate(room, 1);
    read->length = 0;
    for (;;) {
        read->length += fread(read->bytes + read->length, 1, room - read->length, file);
        if (read->length < room)
            break;
        uint8_t *more = room > SIZE_MAX / 2 ? NULL : realloc(read->bytes, 2 * room);
        if (more == NULL) {
            errno = ENOMEM;
            break;
        }
        read->bytes = more;
        room *= 2;
    }
    int status = ferror(file) || read->length == room ? fail(path) : SHOWN;
    fclose(file);
    return status;
}

/* Reads the text into slices that hold any text of its length. */
static int read_figure(const text *from, figure *read)
{
    size_t most_words = gentianlathe_most_words();
    size_t most_numbers = gentianlathe_most_numbers(from->length);
    read->plan = allocate(most_words, sizeof *read->plan);
    read->numbers = allocate(most_numbers, sizeof *read->numbers);
    gentianlathe_text_answer answer =
        gentianlathe_read_text(from->bytes, from->length, read->plan, most_words, read->numbers, most_numbers);
    if (answer.number != 0)
        return refuse(answer.number, answer.place);
    read->words = answer.words;
    read->count = answer.numbers;
    return SHOWN;
}

/* A float's bits, as the program prints them: every NaN alike. */
static unsigned long printed_bits(float value)
{
    uint32_t bits;
    memcpy(&bits, &value, sizeof bits);
    return value != value ? 0x7fc00000ul : (unsigned long)bits;
}

static int show(const figure *shown, int pages, gentianlathe_player *player, float *output, size_t length)
{
    gentianlathe_answer answer = (pages ? gentianlathe_page_frame : gentianlathe_frame)(
        shown->plan, shown->words, shown->numbers, shown->count, player, 0.0, output, length);
    if (answer.number != 0)
        return refuse(answer.number, answer.place);
    for (size_t i = 0; i < length; i++) {
        if (i % GENTIANLATHE_MATRIX == 0)
            printf("joint,%lu", (unsigned long)(i / GENTIANLATHE_MATRIX));
        printf(",%08lx", printed_bits(output[i]));
        if (i % GENTIANLATHE_MATRIX == GENTIANLATHE_MATRIX - 1)
            putchar('\n');
    }
    return SHOWN;
}

static int start(const figure *started, gentianlathe_player *player)
{
    gentianlathe_answer answer =
        gentianlathe_start(started->plan, started->words, started->numbers, started->count, player);
    return answer.number == 0 ? SHOWN : refuse(answer.number, answer.place);
}

static int play(const figure *played, const options *asked)
{
    gentianlathe_player player;
    int pages = asked->question == PAGE_FRAMES;
    int status = start(played, &player);
    if (status != SHOWN)
        return status;
    size_t length = gentianlathe_output_length(played->plan, played->words);
    float *output = allocate(length, sizeof *output);
    status = show(played, pages, &player, output, length);
    if (status == SHOWN && asked->again) {
        gentianlathe_update(&player, asked->seconds);
        if (asked->sets) {
            gentianlathe_answer answer = gentianlathe_set(&player, asked->parameter, asked->value);
            status = answer.number == 0 ? SHOWN : refuse(answer.number, answer.place);
        }
        if (status == SHOWN)
            status = show(played, pages, &player, output, length);
    }
    free(output);
    return status;
}

static void print_marks(const char *name, const uint8_t *marks, size_t count)
{
    for (size_t i = 0; i < count; i++)
        printf("%s,%lu,%u\n", name, (unsigned long)i, (unsigned)marks[i]);
}

static int list_uses(const figure *listed)
{
    gentianlathe_uses_answer uses =
        gentianlathe_uses(listed->plan, listed->words, listed->numbers, listed->count);
    if (uses.number != 0)
        return refuse(uses.number, uses.place);
    puts("ok");
    /* An accepted plan has C, P and S in its words 1 to 3. */
    print_marks("state", uses.states, listed->plan[3]);
    print_marks("parameter", uses.parameters, listed->plan[2]);
    print_marks("clip", uses.clips, listed->plan[1]);
    return SHOWN;
}

static int count_loops(const figure *counted, const options *asked)
{
    gentianlathe_player player;
    int status = start(counted, &player);
    if (status != SHOWN)
        return status;
    gentianlathe_loops_answer played =
        gentianlathe_loops(counted->plan, counted->words, counted->numbers, counted->count, &player,
                           asked->state, asked->node, asked->time);
    if (played.number != 0)
        return refuse(played.number, played.place);
    printf("ok\nloops,%lu,%lu\n", (unsigned long)played.loops, (unsigned long)played.rest);
    return SHOWN;
}

static int run(const figure *read, const options *asked)
{
    switch (asked->question) {
    case USES:
        return list_uses(read);
    case LOOPS:
        return count_loops(read, asked);
    default:
        return play(read, asked);
    }
}

static int usage(void)
{
    fprintf(stderr, "usage: example [-p] [FIGURE [SECONDS [PARAMETER VALUE]]]\n"
                    "       example -u [FIGURE]\n"
                    "       example -l STATE NODE TIME [FIGURE]\n");
    return FAILED;
}

static int is_count(const char *word, size_t *count)
{
    char *end = NULL;
    *count = strtoul(word, &end, 10);
    return end != word && *end == '\0' && word[0] != '-';
}

static int is_real(const char *word, double *real)
{
    char *end = NULL;
    *real = strtod(word, &end);
    return end != word && *end == '\0';
}

/* How many words the option takes, itself included, and what it asks for. -1 where they are not right. */
static int parse_option(int count, char **words, options *asked)
{
    static const char *const flags[] = {[PAGE_FRAMES] = "-p", [USES] = "-u", [LOOPS] = "-l"};
    double time = 0;
    for (enum question question = PAGE_FRAMES; count > 1 && question <= LOOPS; question++)
        if (strcmp(words[1], flags[question]) == 0)
            asked->question = question;
    if (asked->question != LOOPS)
        return asked->question == FRAMES ? 0 : 1;
    if (count < 5 || !is_count(words[2], &asked->state) || !is_count(words[3], &asked->node) ||
        !is_real(words[4], &time))
        return -1;
    asked->time = (float)time;
    return 4;
}

static int parse(int count, char **words, options *asked)
{
    double value = 0;
    memset(asked, 0, sizeof *asked);
    int taken = parse_option(count, words, asked);
    if (taken < 0)
        return usage();
    count -= taken;
    words += taken;
    asked->path = count > 1 ? words[1] : "examples/printed.figure";
    asked->again = count > 2;
    asked->sets = count > 4;
    int frames = asked->question == FRAMES || asked->question == PAGE_FRAMES;
    if (count == 4 || count > (frames ? 5 : 2) || (asked->again && !is_real(words[2], &asked->seconds)) ||
        (asked->sets && (!is_count(words[3], &asked->parameter) || !is_real(words[4], &value))))
        return usage();
    asked->value = (float)value;
    return SHOWN;
}

int main(int count, char **words)
{
    options asked;
    text from = {NULL, 0};
    figure read = {NULL, 0, NULL, 0};
    /* The header's layout is held to the archive's before anything is lent to it. */
    if (gentianlathe_player_size() != sizeof(gentianlathe_player)) {
        fprintf(stderr, "example: the archive's player has %lu bytes, the header's %lu: take both from one version\n",
                (unsigned long)gentianlathe_player_size(), (unsigned long)sizeof(gentianlathe_player));
        return FAILED;
    }
    int status = parse(count, words, &asked);
    if (status == SHOWN)
        status = read_file(asked.path, &from);
    if (status == SHOWN)
        status = read_figure(&from, &read);
    if (status == SHOWN)
        status = run(&read, &asked);
    free(read.numbers);
    free(read.plan);
    free(from.bytes);
    if (fflush(stdout) != 0 || ferror(stdout)) {
        fprintf(stderr, "example: standard output cannot be written\n");
        return FAILED;
    }
    return status;
}
