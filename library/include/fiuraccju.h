/*
 * fiuraccju.h: the module analyzer, for C99 and C++11.
 *
 *     static struct fiuraccju_room room;
 *     struct fiuraccju_answer answer = fiuraccju_analyse(module, length, &room);
 *     if (answer.number == FIURACCJU_REPORTED) {
 *         ... room.report holds a report of answer.length bytes ...
 *     }
 *
 * Link it with libfiuraccju_c.a, which needs nothing but memset. A run has no state outside of what it is lent, so several may go on at once,
 * each in a room of its own. Section numbers ("01, 8.1") are those of docs/01-scope.md, which decides what each answer means.
 */
#ifndef FIURACCJU_H
#define FIURACCJU_H

#include <stddef.h>
#include <stdint.h>

#ifdef __cplusplus
extern "C" {
#endif

/* What a run asks for, in bytes (01, 9.2). */
#define FIURACCJU_REPORT_SIZE 65536
#define FIURACCJU_WORK_SIZE 22016

/* Stands in a report for no expression and no global (01, 7.2 and 7.4). */
#define FIURACCJU_NONE 65535

/* ---- The answer ------------------------------------------------------------------------------------------------------------- */

/* What a run comes to: a report, or one of document 01's refusals (01, 8.1); 255 is this header's own. */
enum fiuraccju_number {
    /* A report, `length` bytes long, stands at the start of the lent report; behind it all is zero. */
    FIURACCJU_REPORTED = 0,
    /* The lent report is under 65,536 bytes, or the working memory under 22,016. */
    FIURACCJU_LENT = 1,
    /* A length or the version is wrong, the file is too long or too short, or bytes are left over. */
    FIURACCJU_LENGTH = 2,
    /* A count is over its limit. */
    FIURACCJU_COUNT = 3,
    /* An unknown code or bit, or a sub that its kind doesn't have. */
    FIURACCJU_CODE = 4,
    /* A record is not shaped as its kind wants: operands, an idle field, nesting or arms. */
    FIURACCJU_SHAPE = 5,
    /* A number that names nothing there: an operand, a pool part, an Emit range, a global, an argument or a callee. */
    FIURACCJU_RANGE = 6,
    /* An image or a sampler can't be traced to a global or an argument. */
    FIURACCJU_UNTRACED = 7,
    /* The base of an Access to an array of buffers is no global in Uniform or Storage. */
    FIURACCJU_BASE = 8,
    /* A non-uniform index into a binding array without the capability that it asks for. */
    FIURACCJU_CAPABILITY = 9,
    /* A Call with another number of arguments than its callee has. */
    FIURACCJU_ARGUMENTS = 10,
    /* A barrier or cooperative requirement in control flow that is not uniform; `cause` says what made it so. */
    FIURACCJU_NON_UNIFORM = 11,
    /* A 257th pair or mixed pair of one function. */
    FIURACCJU_FULL = 12,
    /* 13 is retired and given to nothing. */
    /* The report would pass 65,536 bytes. */
    FIURACCJU_REPORT_TOO_LONG = 14,
    /* A statement stands inside more than 32 others. */
    FIURACCJU_DEEP = 15,
    /* Not of document 01: the call itself was wrong, and nothing was read or written. See fiuraccju_analyse_in. */
    FIURACCJU_MISUSED = 255
};

/* What made control flow non-uniform, in refusal 11; none in all others. */
enum fiuraccju_cause {
    FIURACCJU_NO_CAUSE = 0,
    /* An expression: `cause_number` is its number. */
    FIURACCJU_BY_EXPRESSION = 1,
    FIURACCJU_BY_RETURN = 2,
    FIURACCJU_BY_DISCARD = 3
};

struct fiuraccju_answer {
    /* An enum fiuraccju_number. */
    unsigned number;
    /* After a report: its bytes. After a refusal: 0. */
    size_t length;
    /* After a refusal: its function, and its place, which is the index of the record in question in its own part of the module file. */
    unsigned function;
    unsigned place;
    /* An enum fiuraccju_cause, and the expression's number where it is one. */
    unsigned cause;
    unsigned cause_number;
};

/* A few words on a number, for a message. Never null. */
static inline const char *fiuraccju_meaning(unsigned number)
{
    switch (number) {
    case FIURACCJU_REPORTED: return "a report";
    case FIURACCJU_LENT: return "a lent slice is too short";
    case FIURACCJU_LENGTH: return "a length or the version is wrong";
    case FIURACCJU_COUNT: return "a count is over its limit";
    case FIURACCJU_CODE: return "an unknown code";
    case FIURACCJU_SHAPE: return "a record is not shaped as its kind wants";
    case FIURACCJU_RANGE: return "a number that names nothing there";
    case FIURACCJU_UNTRACED: return "an image or sampler can't be traced";
    case FIURACCJU_BASE: return "the base of an access is no buffer";
    case FIURACCJU_CAPABILITY: return "a non-uniform index without its capability";
    case FIURACCJU_ARGUMENTS: return "a call with a wrong number of arguments";
    case FIURACCJU_NON_UNIFORM: return "control flow must be uniform and is not";
    case FIURACCJU_FULL: return "too many pairs";
    case FIURACCJU_REPORT_TOO_LONG: return "the report would be too long";
    case FIURACCJU_DEEP: return "a statement stands too deep";
    case FIURACCJU_MISUSED: return "the call was given a null pointer, or stretches that overlap";
    default: return "unknown";
    }
}

/* ---- The call --------------------------------------------------------------------------------------------------------------- */

/*
 * The library's one function, whose contract is proved. It reads `module` and writes all of `report` and `work`, whatever their lengths, and
 * answers with one number: a report's length, below 2^56; or a refusal's number * 2^56 + function * 2^40 + place * 2^24 + cause * 2^16 + the
 * cause's number. It takes the three stretches for what C says of them, so call one of the two functions below, which look at them first.
 */
uint64_t fiuraccju_run(const uint8_t *module, size_t module_length, uint8_t *report, size_t report_length, uint8_t *work,
                       size_t work_length);

static inline struct fiuraccju_answer fiuraccju_unpack(uint64_t packed)
{
    struct fiuraccju_answer answer = {0, 0, 0, 0, 0, 0};
    answer.number = (unsigned)(packed >> 56);
    if (answer.number == FIURACCJU_REPORTED) {
        answer.length = (size_t)packed;
        return answer;
    }
    answer.function = (unsigned)(packed >> 40 & 0xFFFF);
    answer.place = (unsigned)(packed >> 24 & 0xFFFF);
    answer.cause = (unsigned)(packed >> 16 & 0xFF);
    answer.cause_number = (unsigned)(packed & 0xFFFF);
    return answer;
}

/* Whether n bytes from p can be a stretch of memory at all. */
static inline int fiuraccju_is_stretch(const uint8_t *p, size_t n)
{
    return n == 0 || (p != NULL && n <= UINTPTR_MAX - (uintptr_t)p);
}

/* Whether two stretches have a byte in common. */
static inline int fiuraccju_overlap(const uint8_t *p, size_t n, const uint8_t *q, size_t k)
{
    return n != 0 && k != 0 && (uintptr_t)p < (uintptr_t)q + k && (uintptr_t)q < (uintptr_t)p + n;
}

/*
 * Analyses a module file into memory of the caller's own. FIURACCJU_MISUSED, with nothing read or written, where a pointer is null and its
 * length is not zero, where a length leads past the end of memory, or where two of the stretches overlap. That there are as many bytes behind
 * a pointer as its length says is the one thing that can't be looked at here; fiuraccju_analyse leaves it open for the module alone.
 */
static inline struct fiuraccju_answer fiuraccju_analyse_in(const uint8_t *module, size_t module_length, uint8_t *report, size_t report_length,
                                                           uint8_t *work, size_t work_length)
{
    struct fiuraccju_answer misused = {FIURACCJU_MISUSED, 0, 0, 0, 0, 0};
    /* What stands in for a null pointer with no bytes behind it. */
    uint8_t nothing = 0;
    if (!fiuraccju_is_stretch(module, module_length) || !fiuraccju_is_stretch(report, report_length) ||
        !fiuraccju_is_stretch(work, work_length)) {
        return misused;
    }
    if (fiuraccju_overlap(module, module_length, report, report_length) || fiuraccju_overlap(module, module_length, work, work_length) ||
        fiuraccju_overlap(report, report_length, work, work_length)) {
        return misused;
    }
    return fiuraccju_unpack(fiuraccju_run(module != NULL ? module : &nothing, module_length, report != NULL ? report : &nothing,
                                          report_length, work != NULL ? work : &nothing, work_length));
}

/* Room for one run. It is too large for a small stack: make it static, or have it from malloc. It needs no clearing before a run. */
struct fiuraccju_room {
    uint8_t report[FIURACCJU_REPORT_SIZE];
    uint8_t work[FIURACCJU_WORK_SIZE];
};

/* Analyses a module file. FIURACCJU_MISUSED where `room` is null, and as fiuraccju_analyse_in says of the module. */
static inline struct fiuraccju_answer fiuraccju_analyse(const uint8_t *module, size_t length, struct fiuraccju_room *room)
{
    if (room == NULL) {
        struct fiuraccju_answer misused = {FIURACCJU_MISUSED, 0, 0, 0, 0, 0};
        return misused;
    }
    return fiuraccju_analyse_in(module, length, room->report, sizeof room->report, room->work, sizeof room->work);
}

/* ---- The report ------------------------------------------------------------------------------------------------------------- */

/* What is done with a global: a mask (01, 7.3). */
enum fiuraccju_use { FIURACCJU_READ = 1, FIURACCJU_WRITE = 2, FIURACCJU_QUERY = 4, FIURACCJU_ATOMIC = 8 };

/* What is required of control flow: a mask (01, 3.6). */
enum fiuraccju_requirement {
    FIURACCJU_BARRIER = 1,
    FIURACCJU_DERIVATIVE = 2,
    FIURACCJU_IMPLICIT_LEVEL = 4,
    FIURACCJU_COOPERATIVE = 8
};

/* One function's section of a report (01, 7.2). The pointer leads into the report, which has to live as long. */
struct fiuraccju_section {
    /* The expression where the function's result stops being uniform, or FIURACCJU_NONE. */
    unsigned origin;
    /* A mask of enum fiuraccju_requirement. */
    unsigned requirements;
    /* 1 where it may kill the invocation, else 0. */
    unsigned may_kill;
    /* How many there are of each. */
    unsigned globals;
    unsigned pairs;
    unsigned mixed;
    unsigned expressions;
    /* Its use bytes, and behind them its records. */
    const uint8_t *uses;
};

/* One end of a pair: a global, or an argument of the function. In a section's `pairs` both ends are globals. */
struct fiuraccju_end {
    unsigned is_argument;
    unsigned number;
};

struct fiuraccju_pair {
    struct fiuraccju_end image;
    struct fiuraccju_end sampler;
};

/* What is known of an expression (01, 3.1). */
struct fiuraccju_expression {
    /* Where it stops being uniform: an expression, or FIURACCJU_NONE. */
    unsigned origin;
    unsigned requirements;
    /* How often it is referred to. */
    uint32_t references;
    /* The global that it leads to, or FIURACCJU_NONE. */
    unsigned assignable;
};

static inline unsigned fiuraccju_u16(const uint8_t *p)
{
    return (unsigned)p[0] << 8 | (unsigned)p[1];
}

static inline uint32_t fiuraccju_u32(const uint8_t *p)
{
    return (uint32_t)fiuraccju_u16(p) << 16 | (uint32_t)fiuraccju_u16(p + 2);
}

/* How many functions a report of `length` bytes has; 0 where these bytes are no report of version 1. */
static inline unsigned fiuraccju_functions(const uint8_t *report, size_t length)
{
    if (report == NULL || length < 9 || fiuraccju_u32(report) != length - 4 || report[4] != 1) {
        return 0;
    }
    return fiuraccju_u16(report + 7);
}

/* Finds a function's section. 1 where it is there and within the report, else 0 with *section as it was. */
static inline int fiuraccju_section_of(const uint8_t *report, size_t length, unsigned function, struct fiuraccju_section *section)
{
    unsigned left, globals;
    const uint8_t *at;
    size_t rest;
    if (function >= fiuraccju_functions(report, length)) {
        return 0;
    }
    globals = fiuraccju_u16(report + 5);
    at = report + 9;
    rest = length - 9;
    for (left = function;; left--) {
        struct fiuraccju_section found;
        size_t size;
        if (rest < 10) {
            return 0;
        }
        found.origin = fiuraccju_u16(at);
        found.requirements = at[2];
        found.may_kill = at[3];
        found.expressions = fiuraccju_u16(at + 4);
        found.pairs = fiuraccju_u16(at + 6);
        found.mixed = fiuraccju_u16(at + 8);
        found.globals = globals;
        found.uses = at + 10;
        size = 10 + (size_t)globals + (size_t)found.pairs * 4 + (size_t)found.mixed * 6 + (size_t)found.expressions * 9;
        if (rest < size) {
            return 0;
        }
        if (left == 0) {
            *section = found;
            return 1;
        }
        at += size;
        rest -= size;
    }
}

/* How a global is used by the function or by what it calls: a mask of enum fiuraccju_use; 0 for a global that there isn't. */
static inline unsigned fiuraccju_use_of(const struct fiuraccju_section *section, unsigned global)
{
    return global < section->globals ? section->uses[global] : 0;
}

/* The pair at an index, an image and a sampler that are sampled together. 1 where there is one, else 0 with *pair as it was. */
static inline int fiuraccju_pair_at(const struct fiuraccju_section *section, unsigned index, struct fiuraccju_pair *pair)
{
    const uint8_t *at;
    if (index >= section->pairs) {
        return 0;
    }
    at = section->uses + section->globals + (size_t)index * 4;
    pair->image.is_argument = 0;
    pair->image.number = fiuraccju_u16(at);
    pair->sampler.is_argument = 0;
    pair->sampler.number = fiuraccju_u16(at + 2);
    return 1;
}

/* The mixed pair at an index: an end, or both, is still an argument of the function. 1 where there is one, else 0 with *pair as it was. */
static inline int fiuraccju_mixed_at(const struct fiuraccju_section *section, unsigned index, struct fiuraccju_pair *pair)
{
    const uint8_t *at;
    if (index >= section->mixed) {
        return 0;
    }
    at = section->uses + section->globals + (size_t)section->pairs * 4 + (size_t)index * 6;
    pair->image.is_argument = at[0];
    pair->image.number = fiuraccju_u16(at + 2);
    pair->sampler.is_argument = at[1];
    pair->sampler.number = fiuraccju_u16(at + 4);
    return 1;
}

/* What is known of an expression. 1 where there is one of this number, else 0 with *expression as it was. */
static inline int fiuraccju_expression_at(const struct fiuraccju_section *section, unsigned number, struct fiuraccju_expression *expression)
{
    const uint8_t *at;
    if (number >= section->expressions) {
        return 0;
    }
    at = section->uses + section->globals + (size_t)section->pairs * 4 + (size_t)section->mixed * 6 + (size_t)number * 9;
    expression->origin = fiuraccju_u16(at);
    expression->requirements = at[2];
    expression->references = fiuraccju_u32(at + 3);
    expression->assignable = fiuraccju_u16(at + 7);
    return 1;
}

#ifdef __cplusplus
}
#endif

#endif
