/* Times the library for C, as bench/calls.c times C's own reading and printing.
 *
 *     bench_library read TIMES FORMAT     fixed_read_text for each line of standard input, a decimal numeral
 *     bench_library literal TIMES FORMAT  fixed_read_literal for each
 *     bench_library scan TIMES FORMAT     fixed_scan_text for each, whatever the format
 *     bench_library write TIMES FORMAT    fixed_print_bits for each line's bits
 *
 * FORMAT is a word such as I16F16. The lines are read once; the calls are made TIMES times over; the sum of what they answered is
 * printed. */
#include <stdio.h>
#include <stdlib.h>
#include <string.h>

#include "fixed.h"

enum { MOST = 1 << 16, LONGEST = 4096 };

static char *lines[MOST];
static size_t lengths[MOST];
static int64_t numbers[MOST];

static int64_t bits_of(const char *line)
{
    return line[0] == '-' ? strtoll(line, NULL, 10) : (int64_t)strtoull(line, NULL, 10);
}

int main(int count, char **words)
{
    static char line[LONGEST];
    size_t all = 0;
    uint64_t sum = 0;
    unsigned whole, frac;
    if (count < 4 || sscanf(words[3] + 1, "%uF%u", &whole, &frac) != 2) {
        fputs("usage: bench_library read|literal|scan|write TIMES FORMAT\n", stderr);
        return 2;
    }
    long times = strtol(words[2], NULL, 10);
    fixed_format format = {words[3][0] == 'I', whole + frac, frac};
    while (all < MOST && fgets(line, sizeof line, stdin)) {
        lengths[all] = strcspn(line, "\n");
        line[lengths[all]] = 0;
        numbers[all] = bits_of(line);
        lines[all] = strdup(line);
        if (!lines[all++])
            return 1;
    }
    for (long pass = 0; pass < times; pass++)
        for (size_t at = 0; at < all; at++) {
            if (words[1][0] == 'r') {
                fixed_number number = {0, 0};
                sum += fixed_read_text(lines[at], lengths[at], 10, format, FIXED_WRAPPING, FIXED_NEAREST, &number);
                sum += (uint64_t)number.bits;
            } else if (words[1][0] == 'l') {
                fixed_number number = {0, 0};
                sum += fixed_read_literal(lines[at], lengths[at], format, FIXED_WRAPPING, &number);
                sum += (uint64_t)number.bits;
            } else if (words[1][0] == 's') {
                size_t taken = 0;
                sum += fixed_scan_text(lines[at], lengths[at], 10, &taken) + taken;
            } else {
                char text[FIXED_TEXT_SIZE];
                size_t len = 0;
                sum += fixed_print_bits(numbers[at], format, text, sizeof text, &len) + len;
            }
        }
    printf("%llu\n", (unsigned long long)sum);
    return 0;
}
