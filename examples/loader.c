/* A loader that judges a sheet before it sends it: loader FILE. It prints the answer in words and exits with 0 if the sheet was
 * sent, 1 if it was not, 2 if the file cannot be read. */
#include <inttypes.h>
#include <stdio.h>

#include "shambrukit.h"

static const char *in_words(uint64_t answer)
{
    switch (answer) {
    case 0: return "accepted";
    case 1: return "the length field is not the sheet's length";
    case 2: return "not a sheet of version 1";
    case 3: return "not 1 to 8 graphs";
    case 4: return "the sheet ends inside a graph or goes on after the last";
    case 5: return "too few or too many actors or channels";
    case 6: return "a field is out of range";
    case 7: return "an actor is not between input and output";
    case 8: return "the rates do not balance";
    case 9: return "input or output fires more than once in an iteration";
    case 10: return "deadlock";
    case 11: return "an actor can fire before anything arrives";
    case 12: return "the periods' common frame is too long";
    case 20: return "overload";
    case 21: return "late";
    default: return "no answer of a verdict";
    }
}

/* Where a real loader would hand the sheet to the collector. */
static void send_sheet(size_t bytes)
{
    printf("sent %zu bytes\n", bytes);
}

int main(int argc, char **argv)
{
    static uint8_t sheet[65536];
    FILE *file = argc == 2 ? fopen(argv[1], "rb") : NULL;
    if (!file) {
        fprintf(stderr, "usage: loader FILE\n");
        return 2;
    }
    size_t bytes = fread(sheet, 1, sizeof sheet, file);
    fclose(file);

    struct shambrukit_verdict v = shambrukit_judge(sheet, bytes);
    printf("%s", in_words(v.answer));
    if (4 <= v.answer && v.answer <= 11)
        printf(", graph %" PRIu64, v.place);
    if (v.answer == 21)
        printf(" at length %" PRIu64, v.length);
    if (v.frame != 0)
        printf(", load %" PRIu64 " of %" PRIu64, v.load, v.frame);
    printf("\n");
    if (v.answer != 0)
        return 1;
    send_sheet(bytes);
    return 0;
}
