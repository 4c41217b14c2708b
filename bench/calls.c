/* Times C's reading and printing of decimal numbers, as fixed_bench times the library's.
 *
 *     calls_c read TIMES           strtod for each line of standard input
 *     calls_c write TIMES PLACES   snprintf("%.*f") for each line's number
 *     calls_c shortest TIMES       snprintf("%.17g") for each line's number
 *
 * The lines are read once; the calls are made TIMES times over; the sum of what they answered is printed. */
#include <stdio.h>
#include <stdlib.h>
#include <string.h>

enum { MOST = 1 << 16, LONGEST = 4096 };

static char *lines[MOST];
static double numbers[MOST];

int main(int count, char **words)
{
    static char line[LONGEST];
    char text[512];
    size_t all = 0;
    double sum = 0;
    if (count < 3) {
        fputs("usage: calls_c read|write|shortest TIMES [PLACES]\n", stderr);
        return 2;
    }
    long times = strtol(words[2], NULL, 10);
    int places = count > 3 ? (int)strtol(words[3], NULL, 10) : 0;
    while (all < MOST && fgets(line, sizeof line, stdin)) {
        line[strcspn(line, "\n")] = 0;
        lines[all] = strdup(line);
        if (!lines[all])
            return 1;
        numbers[all++] = strtod(line, NULL);
    }
    for (long pass = 0; pass < times; pass++)
        for (size_t at = 0; at < all; at++)
            switch (words[1][0]) {
            case 'r':
                sum += strtod(lines[at], NULL);
                break;
            case 'w':
                sum += snprintf(text, sizeof text, "%.*f", places, numbers[at]);
                break;
            default:
                sum += snprintf(text, sizeof text, "%.17g", numbers[at]);
            }
    printf("%g\n", sum);
    return 0;
}
