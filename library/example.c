/*
 * What a wall has to bind: reads the module file that is named on the command line, analyses it, and prints for each function the globals
 * that it uses and the images and samplers that it, or anything that it calls, samples together.
 *
 *     cc -std=c99 -I library/include library/example.c crates/fiuraccju_c/out/libfiuraccju_c.a -o example
 *     ./example examples/wall/wall.module
 *
 * Exit status: 0 a report, 1 a refusal, 2 the file can't be read.
 */
#include <errno.h>
#include <stdio.h>
#include <string.h>

#include "fiuraccju.h"

/* One byte more than the longest module file, so that a longer file is refused and not cut off. */
#define FILE_ROOM (65536 + 1)

static uint8_t file[FILE_ROOM];
static struct fiuraccju_room room;

/* Reads the file of this name; 1 where that went well. */
static int read_file(const char *name, size_t *length)
{
    FILE *stream = fopen(name, "rb");
    int failed;
    if (stream == NULL) {
        fprintf(stderr, "example: %s can't be opened: %s\n", name, strerror(errno));
        return 0;
    }
    *length = fread(file, 1, sizeof file, stream);
    failed = ferror(stream);
    fclose(stream);
    if (failed) {
        fprintf(stderr, "example: %s can't be read\n", name);
        return 0;
    }
    return 1;
}

static void print_refusal(struct fiuraccju_answer answer)
{
    printf("refused %u: %s; function %u, place %u", answer.number, fiuraccju_meaning(answer.number), answer.function, answer.place);
    if (answer.cause == FIURACCJU_BY_EXPRESSION) {
        printf(", cause: expression %u", answer.cause_number);
    } else if (answer.cause == FIURACCJU_BY_RETURN) {
        printf(", cause: a return before it");
    } else if (answer.cause == FIURACCJU_BY_DISCARD) {
        printf(", cause: a discard before it");
    }
    printf("\n");
}

static void print_uses(const struct fiuraccju_section *section)
{
    unsigned global;
    for (global = 0; global < section->globals; global++) {
        unsigned use = fiuraccju_use_of(section, global);
        if (use != 0) {
            printf("  global %u:%s%s%s%s\n", global, use & FIURACCJU_READ ? " read" : "", use & FIURACCJU_WRITE ? " written" : "",
                   use & FIURACCJU_QUERY ? " queried" : "", use & FIURACCJU_ATOMIC ? " atomic" : "");
        }
    }
}

static const char *kind(struct fiuraccju_end end)
{
    return end.is_argument ? "argument" : "global";
}

static void print_pairs(const struct fiuraccju_section *section)
{
    struct fiuraccju_pair pair;
    unsigned i;
    for (i = 0; fiuraccju_pair_at(section, i, &pair); i++) {
        printf("  bind image %u with sampler %u\n", pair.image.number, pair.sampler.number);
    }
    for (i = 0; fiuraccju_mixed_at(section, i, &pair); i++) {
        printf("  its caller decides: image %s %u with sampler %s %u\n", kind(pair.image), pair.image.number, kind(pair.sampler),
               pair.sampler.number);
    }
}

int main(int count, char **words)
{
    struct fiuraccju_answer answer;
    struct fiuraccju_section section;
    size_t length;
    unsigned f;
    if (count != 2) {
        fprintf(stderr, "usage: example MODULE-FILE\n");
        return 2;
    }
    if (!read_file(words[1], &length)) {
        return 2;
    }
    answer = fiuraccju_analyse(file, length, &room);
    if (answer.number != FIURACCJU_REPORTED) {
        print_refusal(answer);
        return 1;
    }
    for (f = 0; fiuraccju_section_of(room.report, answer.length, f, &section); f++) {
        printf("function %u\n", f);
        print_uses(&section);
        print_pairs(&section);
    }
    return 0;
}
