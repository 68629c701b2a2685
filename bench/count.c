/* Counts how often named functions of the library are entered, sheet by sheet. Linked with the program `vectors`, compiled so that
 * every function calls the first function below when it is entered. COUNTED holds where each named function begins and ends, as
 * hexadecimal `BEGIN-END` words, joined by `+` where a generic function stands in several places; entering the first of them begins a
 * sheet. At the end a line a sheet goes to standard error: how often each of the others was entered. */
#include <inttypes.h>
#include <stdio.h>
#include <stdlib.h>

enum { NAMED = 32, GUARDS = 4096 };

/* The places, and which of the named functions stands there. */
static uintptr_t begins[NAMED], ends[NAMED];
static size_t of[NAMED], places;
static uint64_t counts[NAMED];
static size_t named, sheets;
/* Which function a guard stands for: 0 is not known yet, 1 is none of those named, the others follow. */
static uint8_t known[GUARDS];

static void print(void)
{
    for (size_t i = 1; i < named; i++) {
        fprintf(stderr, "%" PRIu64 "%c", counts[i], i + 1 < named ? ' ' : '\n');
        counts[i] = 0;
    }
}

void __sanitizer_cov_trace_pc_guard(uint32_t *guard)
{
    uint8_t *which = &known[*guard];
    if (*which == 0) {
        uintptr_t at = (uintptr_t)__builtin_return_address(0);
        *which = 1;
        for (size_t i = 0; i < places; i++)
            if (begins[i] <= at && at < ends[i])
                *which = (uint8_t)(2 + of[i]);
    }
    if (*which == 1)
        return;
    if (*which == 2 && sheets++ > 0)
        print();
    counts[*which - 2]++;
}

void __sanitizer_cov_trace_pc_guard_init(uint32_t *start, uint32_t *stop)
{
    const char *at = getenv("COUNTED");
    int used;
    while (at && places < NAMED && sscanf(at, "%" SCNxPTR "-%" SCNxPTR "%n", &begins[places], &ends[places], &used) == 2) {
        at += used;
        of[places++] = named;
        if (*at == '+')
            at++;
        else
            named++;
    }
    if (stop - start >= GUARDS)
        abort();
    for (uint32_t n = 1; start < stop; start++)
        *start = n++;
}

__attribute__((destructor)) static void last(void)
{
    if (sheets > 0)
        print();
}
