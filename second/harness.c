/* Makes the calls that the second program's mode `cases` writes to standard input, through the C
 * entries, and compares every result and all of the lent memory. cases.rs describes the stream.
 *
 * Each call is made twice. First with exact-size blocks from malloc, where AddressSanitizer sees
 * an overrun in code it has compiled, and with guard bytes around the lent room. Then with input
 * and room each against a page that may not be touched, at its end or at its start, where any
 * code that steps over the edge is stopped by the machine. The last line is
 * `N passed, M failed`. */

#define _GNU_SOURCE
#include "shambrukit.h"

#include <inttypes.h>
#include <stdio.h>
#include <stdlib.h>
#include <string.h>
#include <sys/mman.h>
#include <time.h>
#include <unistd.h>

enum { JUDGE, DEMAND, FEWEST, REPETITION, SKIPS, TASKS, UNPACK, PACK, OF_LIST };
enum { CALLS = OF_LIST + TASKS + 1, GUARD = 64, SHOWN = 5 };

static const char *const names[CALLS] = {
    "judge",       "demand",      "fewest",          "repetition", "skips",
    "tasks",       "unpack",      "pack",            "judge_list", "demand_list",
    "fewest_list", "repetition_list", "skips_list", "tasks_list",
};

struct question {
    uint64_t graph, actor, asked, room;
    int none;
};

struct outcome {
    uint64_t answer, place, value, load, frame, length;
};

/* What is lent for reading: the sheet or the list, in native byte order. */
struct input {
    uint8_t *bytes;
    size_t size, count;
    int none;
};

static _Noreturn void give_up(const char *why) {
    fprintf(stderr, "harness: %s\n", why);
    exit(2);
}

static void *block(size_t size) {
    void *made = malloc(size);
    if (made == NULL)
        give_up("out of memory");
    return made;
}

static void read_bytes(void *to, size_t size) {
    if (fread(to, 1, size, stdin) != size)
        give_up("the stream is cut");
}

static uint64_t read_number(size_t width) {
    uint8_t bytes[8];
    uint64_t value = 0;
    read_bytes(bytes, width);
    for (size_t i = 0; i < width; i++)
        value = value << 8 | bytes[i];
    return value;
}

static void store(uint8_t *to, size_t width, uint64_t value) {
    uint32_t narrow = (uint32_t)value;
    if (width == 8)
        memcpy(to, &value, 8);
    else if (width == 4)
        memcpy(to, &narrow, 4);
    else
        *to = (uint8_t)value;
}

static void read_input(struct input *input, size_t width) {
    free(input->bytes);
    input->none = read_number(1) != 0;
    input->count = read_number(4);
    input->size = input->count * width;
    input->bytes = block(input->size);
    if (width == 1)
        read_bytes(input->bytes, input->size);
    else
        for (size_t i = 0; i < input->count; i++)
            store(input->bytes + i * width, width, read_number(width));
}

/* Differs from place to place and from call to call, so that no result can pass for it. */
static uint8_t pattern(size_t at, uint64_t salt) {
    return (uint8_t)((at * 167 + 89) ^ (at >> 8) ^ salt * 59);
}

static struct outcome of_verdict(struct shambrukit_verdict v) {
    return (struct outcome){v.answer, v.place, 0, v.load, v.frame, v.length};
}

static struct outcome of_result(struct shambrukit_result r) {
    return (struct outcome){r.answer, r.place, r.value, 0, 0, 0};
}

static struct outcome make_call(int call, const void *in, size_t count, const struct question *q,
                                void *out) {
    switch (call) {
    case JUDGE:
        return of_verdict(shambrukit_judge(in, count));
    case DEMAND:
        return of_result(shambrukit_demand(in, count, q->asked));
    case FEWEST:
        return of_result(shambrukit_fewest(in, count, q->graph, q->actor, q->asked));
    case REPETITION:
        return of_result(shambrukit_repetition(in, count, q->graph, out, q->room));
    case SKIPS:
        return of_result(shambrukit_skips(in, count, q->graph, out, q->room));
    case TASKS:
        return of_result(shambrukit_tasks(in, count, q->graph, out, q->room));
    case UNPACK:
        return of_result(shambrukit_unpack(in, count, out, q->room));
    case PACK:
        return of_result(shambrukit_pack(in, count, out, q->room));
    case OF_LIST + JUDGE:
        return of_verdict(shambrukit_judge_list(in, count));
    case OF_LIST + DEMAND:
        return of_result(shambrukit_demand_list(in, count, q->asked));
    case OF_LIST + FEWEST:
        return of_result(shambrukit_fewest_list(in, count, q->graph, q->actor, q->asked));
    case OF_LIST + REPETITION:
        return of_result(shambrukit_repetition_list(in, count, q->graph, out, q->room));
    case OF_LIST + SKIPS:
        return of_result(shambrukit_skips_list(in, count, q->graph, out, q->room));
    default:
        return of_result(shambrukit_tasks_list(in, count, q->graph, out, q->room));
    }
}

/* Pages between two that may not be touched. */
struct fenced {
    uint8_t *start;
    size_t size;
};

static struct fenced fence(size_t least) {
    size_t page = (size_t)sysconf(_SC_PAGESIZE);
    size_t size = (least + page - 1) / page * page;
    uint8_t *all = mmap(NULL, size + 2 * page, PROT_NONE, MAP_PRIVATE | MAP_ANONYMOUS, -1, 0);
    if (all == MAP_FAILED || mprotect(all + page, size, PROT_READ | PROT_WRITE) != 0)
        give_up("no fenced pages");
    return (struct fenced){all + page, size};
}

static uint8_t *against(struct fenced *pages, size_t size, int at_end) {
    if (size > pages->size)
        *pages = fence(size);
    return at_end ? pages->start + pages->size - size : pages->start;
}

static int same(const struct outcome *one, const struct outcome *other) {
    return memcmp(one, other, sizeof *one) == 0;
}

static void print_outcome(const char *who, const struct outcome *o) {
    printf("  %s: answer %" PRIu64 " place %" PRIu64 " value %" PRIu64 " load %" PRIu64
           " frame %" PRIu64 " length %" PRIu64 "\n",
           who, o->answer, o->place, o->value, o->load, o->frame, o->length);
}

static void show(uint64_t number, int call, const struct input *input, const struct question *q,
                 const struct outcome *got, const struct outcome *want, const char *what) {
    printf("call %" PRIu64 ", shambrukit_%s: %s\n", number, names[call], what);
    printf("  asked: graph %" PRIu64 " actor %" PRIu64 " K or length %" PRIu64 " room %" PRIu64
           "%s\n",
           q->graph, q->actor, q->asked, q->room, q->none ? " (NULL)" : "");
    print_outcome("got", got);
    print_outcome("want", want);
    printf("  input (%zu bytes in memory order%s):", input->size, input->none ? ", NULL" : "");
    for (size_t i = 0; i < input->size && i < 400; i++)
        printf("%s%02x", i % 4 == 0 ? " " : "", input->bytes[i]);
    printf("%s\n", input->size > 400 ? " ..." : "");
}

/* NULL if the call did as it should, else what went wrong. `room` begins `before` bytes into
 * `area`, which is all of the memory to compare. */
static const char *try_call(int call, const struct input *input, uint8_t *in,
                            const struct question *q, uint8_t *area, size_t before, size_t size,
                            const uint8_t *expected, const struct outcome *want,
                            struct outcome *got) {
    memcpy(in, input->bytes, input->size);
    *got = make_call(call, input->none ? NULL : in, input->count, q, q->none ? NULL : area + before);
    if (!same(got, want))
        return "result differs";
    if (memcmp(area, expected, size) != 0)
        return "lent memory differs";
    if (memcmp(in, input->bytes, input->size) != 0)
        return "the input was changed";
    return NULL;
}

int main(void) {
    struct input sheet = {block(0), 0, 0, 1}, list = {block(0), 0, 0, 1};
    struct fenced in_pages = fence(1 << 18), out_pages = fence(1 << 16);
    uint64_t passed = 0, failed = 0, number = 0;
    time_t begun = time(NULL), said = begun;

    for (;;) {
        int record = (int)read_number(1);
        if (record == 'S') {
            read_input(&sheet, 1);
            continue;
        }
        if (record == 'L') {
            read_input(&list, 4);
            continue;
        }
        if (record == 'E')
            break;
        if (record != 'C')
            give_up("not a record");

        int call = (int)read_number(1);
        if (call >= CALLS)
            give_up("no such call");
        struct question q = {read_number(8), 0, 0, 0, 0};
        q.actor = read_number(8);
        q.asked = read_number(8);
        q.room = read_number(8);
        q.none = read_number(1) != 0;
        struct outcome want = {read_number(8), 0, 0, 0, 0, 0}, got;
        want.place = read_number(8);
        want.value = read_number(8);
        want.load = read_number(8);
        want.frame = read_number(8);
        want.length = read_number(8);
        size_t written = read_number(4);

        const struct input *input = call >= PACK ? &list : &sheet;
        size_t width = call == UNPACK ? 4 : call == PACK ? 1 : 8;
        size_t room = q.room * width;
        size_t size = room + 2 * GUARD;
        if (written > q.room)
            give_up("more written than there is room");
        uint8_t *expected = block(size), *area = block(size), *in = block(input->size);
        for (size_t i = 0; i < size; i++)
            area[i] = expected[i] = pattern(i, number);
        for (size_t i = 0; i < written; i++)
            store(expected + GUARD + i * width, width, read_number(8));

        const char *what =
            try_call(call, input, in, &q, area, GUARD, size, expected, &want, &got);
        free(area);
        free(in);
        if (what == NULL) {
            int at_end = number % 3 != 0;
            uint8_t *room_at = against(&out_pages, room, at_end);
            for (size_t i = 0; i < room; i++)
                room_at[i] = pattern(GUARD + i, number);
            what = try_call(call, input, against(&in_pages, input->size, at_end), &q, room_at, 0,
                            room, expected + GUARD, &want, &got);
        }
        free(expected);
        if (what == NULL) {
            passed++;
        } else {
            if (failed++ < SHOWN)
                show(number, call, input, &q, &got, &want, what);
        }
        number++;

        if (number % 1024 == 0 && time(NULL) >= said + 5) {
            said = time(NULL);
            fprintf(stderr, "harness: %" PRIu64 " calls, %" PRIu64 " per second\n", number,
                    number / (uint64_t)(said - begun));
        }
    }
    if (read_number(8) != number)
        give_up("the stream lacks calls");
    free(sheet.bytes);
    free(list.bytes);
    printf("%" PRIu64 " passed, %" PRIu64 " failed\n", passed, failed);
    return failed == 0 ? 0 : 1;
}
