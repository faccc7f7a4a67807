/*
 * Checks what the header promises of its numbers, of wrong calls, of unpacking and of damaged reports. Usage:
 * test_header MODULE-FILE REPORT-FILE, which are those of examples/wall. It writes one line for each thing that does not
 * hold, and exits with 1 where there is one.
 */
#include <stdio.h>
#include <string.h>

#include "fiuraccju.h"

static int failed;

static void check(int holds, const char *what)
{
    if (!holds) {
        failed = 1;
        printf("test_header: does not hold: %s\n", what);
    }
}

static size_t read_file(const char *name, uint8_t *bytes, size_t room)
{
    FILE *stream = fopen(name, "rb");
    size_t length;
    if (stream == NULL) {
        return 0;
    }
    length = fread(bytes, 1, room, stream);
    fclose(stream);
    return length;
}

static int all_are(const uint8_t *bytes, size_t length, uint8_t value)
{
    size_t i;
    for (i = 0; i < length; i++) {
        if (bytes[i] != value) {
            return 0;
        }
    }
    return 1;
}

static uint8_t module[65536], expected[65536];
static struct fiuraccju_room room;

/* The table of 01, 8.1: no number moves, and 13 is given to nothing. */
static void numbers(void)
{
    static const unsigned table[16] = {
        FIURACCJU_REPORTED,
        FIURACCJU_LENT,
        FIURACCJU_LENGTH,
        FIURACCJU_COUNT,
        FIURACCJU_CODE,
        FIURACCJU_SHAPE,
        FIURACCJU_RANGE,
        FIURACCJU_UNTRACED,
        FIURACCJU_BASE,
        FIURACCJU_CAPABILITY,
        FIURACCJU_ARGUMENTS,
        FIURACCJU_NON_UNIFORM,
        FIURACCJU_FULL,
        13,
        FIURACCJU_REPORT_TOO_LONG,
        FIURACCJU_DEEP,
    };
    unsigned number;
    for (number = 0; number < 16; number++) {
        check(table[number] == number, "a refusal has its number");
        check((strcmp(fiuraccju_meaning(number), "unknown") == 0) == (number == 13), "13 alone has no meaning");
    }
    check(strcmp(fiuraccju_meaning(16), "unknown") == 0, "16 has no meaning");
}

/* Calls that C can get wrong: each is refused, and touches nothing. */
static void wrong_calls(size_t length)
{
    uint8_t *report = room.report, *work = room.work;
    size_t r = sizeof room.report, w = sizeof room.work;
    memset(&room, 0xAA, sizeof room);
    check(fiuraccju_analyse(NULL, 10, &room).number == FIURACCJU_MISUSED, "a null module is refused");
    check(fiuraccju_analyse(module, length, NULL).number == FIURACCJU_MISUSED, "a null room is refused");
    check(fiuraccju_analyse(module, (size_t)-1, &room).number == FIURACCJU_MISUSED, "a length past the end of memory is refused");
    check(fiuraccju_analyse(room.report + 9, 10, &room).number == FIURACCJU_MISUSED, "a module in the report is refused");
    check(fiuraccju_analyse(room.work, w, &room).number == FIURACCJU_MISUSED, "a module in the working memory is refused");
    check(fiuraccju_analyse_in(module, length, NULL, r, work, w).number == FIURACCJU_MISUSED, "a null report is refused");
    check(fiuraccju_analyse_in(module, length, report, r, NULL, w).number == FIURACCJU_MISUSED, "a null working memory is refused");
    check(fiuraccju_analyse_in(module, length, report, r, report + r - 1, w).number == FIURACCJU_MISUSED, "one shared byte is refused");
    check(fiuraccju_analyse_in(module, length, report + 1, r - 1, report, 2).number == FIURACCJU_MISUSED, "and so is it the other way round");
    check(all_are(report, r, 0xAA) && all_are(work, w, 0xAA), "a wrong call writes nothing");
    check(fiuraccju_overlap(report, 4, report + 4, 4) == 0, "neighbours do not overlap");
}

/* Calls that are right and say so, or are refused by document 01. */
static void other_calls(size_t length)
{
    struct fiuraccju_answer answer = fiuraccju_analyse_in(module, length, room.report, 65535, room.work, sizeof room.work);
    check(answer.number == FIURACCJU_LENT && all_are(room.report, 65535, 0) && room.report[65535] == 0xAA, "a short report is refusal 1");
    answer = fiuraccju_analyse_in(module, length, room.report, sizeof room.report, room.work, 22015);
    check(answer.number == FIURACCJU_LENT && all_are(room.report, sizeof room.report, 0), "a short working memory is refusal 1");
    answer = fiuraccju_analyse_in(NULL, 0, NULL, 0, NULL, 0);
    check(answer.number == FIURACCJU_LENT, "null pointers without bytes are only short");
    answer = fiuraccju_analyse(NULL, 0, &room);
    check(answer.number == FIURACCJU_LENGTH && answer.function == 0 && answer.place == 0, "no module file is refusal 2");
}

/* The module's report is the expected one. */
static void the_report(size_t length, size_t report_length)
{
    struct fiuraccju_answer answer = fiuraccju_analyse(module, length, &room);
    check(answer.number == FIURACCJU_REPORTED && answer.length == report_length, "the report is as long as the expected one");
    check(memcmp(room.report, expected, sizeof room.report) == 0, "the report is the expected one, and zero behind it");
    check(all_are(room.work, sizeof room.work, 0), "the working memory is zero");
}

/* Every value in its own digit, largest and smallest. */
static void unpacking(void)
{
    struct fiuraccju_answer answer = fiuraccju_unpack(UINT64_C(0x0B12345678039ABC));
    check(answer.number == 11 && answer.function == 0x1234 && answer.place == 0x5678 && answer.cause == 3 && answer.cause_number == 0x9ABC,
          "five values are had back");
    check(answer.length == 0, "a refusal has no length");
    answer = fiuraccju_unpack(65536);
    check(answer.number == 0 && answer.length == 65536 && answer.place == 0, "the longest report is no refusal");
}

/* Whether no accessor finds anything in these bytes, whose end is the end of the lent ones. */
static int nothing_found(const uint8_t *report, size_t length)
{
    struct fiuraccju_section section;
    return fiuraccju_functions(report, length) == 0 && !fiuraccju_section_of(report, length, 0, &section);
}

static void damaged_reports(size_t length)
{
    static uint8_t copy[65536];
    struct fiuraccju_section section;
    struct fiuraccju_pair pair;
    struct fiuraccju_expression expression;
    size_t cut;
    unsigned found;
    check(nothing_found(NULL, 0) && nothing_found(NULL, 9), "null is no report");
    for (cut = 0; cut < length; cut++) {
        check(nothing_found(expected, cut), "a report that is cut off is none");
        /* The same with a length field that is right for what is left. */
        memcpy(copy, expected, cut);
        if (cut >= 9) {
            copy[2] = (uint8_t)((cut - 4) >> 8);
            copy[3] = (uint8_t)(cut - 4);
            for (found = 0; fiuraccju_section_of(copy, cut, found, &section); found++) {
                check(section.uses + section.globals + section.pairs * 4 + section.mixed * 6 + section.expressions * 9 <= copy + cut,
                      "a section lies within the report");
            }
            check(found < 3, "a section that is cut off is not found");
        }
    }
    check(fiuraccju_section_of(expected, length, 2, &section) && !fiuraccju_section_of(expected, length, 3, &section), "there are three");
    check(fiuraccju_section_of(expected, length, 2, &section) && section.pairs == 1 && section.expressions == 3, "the third has its counts");
    check(!fiuraccju_pair_at(&section, 1, &pair) && !fiuraccju_mixed_at(&section, 0, &pair), "no pair past the last");
    check(!fiuraccju_expression_at(&section, 3, &expression), "no expression past the last");
    check(fiuraccju_expression_at(&section, 2, &expression) && expression.references == 1 && expression.assignable == FIURACCJU_NONE,
          "the last expression is read");
    check(fiuraccju_use_of(&section, 3) == 0, "no use of a global that there isn't");
}

int main(int count, char **words)
{
    size_t length, report_length;
    if (count != 3) {
        fprintf(stderr, "usage: test_header MODULE-FILE REPORT-FILE\n");
        return 2;
    }
    length = read_file(words[1], module, sizeof module);
    report_length = read_file(words[2], expected, sizeof expected);
    if (length == 0 || report_length == 0) {
        fprintf(stderr, "test_header: the two files can't be read\n");
        return 2;
    }
    numbers();
    wrong_calls(length);
    other_calls(length);
    the_report(length, report_length);
    unpacking();
    damaged_reports(report_length);
    return failed;
}
