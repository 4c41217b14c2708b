/* Calls the library with random arguments, good and bad, over blocks of exactly the size that a call is given, so that a
 * sanitizer sees any byte that is read or written beyond them; from one thread and from four. */
#define _GNU_SOURCE
#include <pthread.h>
#include <stdio.h>
#include <stdlib.h>
#include <string.h>

#include "fixed.h"

#define CHECK(holds)                                          \
  do {                                                        \
    if (!(holds)) {                                           \
      fprintf(stderr, "line %d: %s\n", __LINE__, #holds);     \
      abort();                                                \
    }                                                         \
  } while (0)

static void *block(size_t size) {
  void *made = malloc(size ? size : 1);
  CHECK(made);
  return made;
}

static fixed_format some_format(unsigned *seed) {
  static const uint32_t widths[] = {8, 16, 32, 64, 63, 24, 1, 0};
  fixed_format format = {(uint32_t)rand_r(seed) & 1u, widths[rand_r(seed) % 8], (uint32_t)rand_r(seed) % 70};
  if (format.frac > 64 && rand_r(seed) % 8) format.frac = format.width;
  return format;
}

/* Prints bits into a block of some size, and reads them back where the text fits. */
static uint64_t print_and_read(int64_t bits, fixed_format format, unsigned *seed) {
  size_t size = (size_t)rand_r(seed) % 60, len = 0;
  char *out = block(size);
  uint32_t code = fixed_print_bits(bits, format, out, size, &len);
  CHECK(code == FIXED_OK || code == FIXED_NO_ROOM);
  CHECK(len > 0 && len <= 48 && (code == FIXED_OK) == (len < size));
  if (code == FIXED_OK) {
    fixed_number again;
    CHECK(out[len] == 0);
    CHECK(fixed_read_text(out, len, 10, format, FIXED_CHECKED, FIXED_NEAREST, &again) == FIXED_OK);
    CHECK(again.bits == bits && again.overflowed == 0);
  }
  free(out);
  return len;
}

/* Rounds and converts a number, and finds its format by its word. */
static uint64_t round_and_convert(int64_t bits, fixed_format format, unsigned *seed) {
  fixed_number whole = {99, 99}, moved = {99, 99};
  fixed_format target = some_format(seed), again = {9, 9, 9};
  uint64_t sum = fixed_round_bits(bits, format, (uint32_t)rand_r(seed) % 6, (uint32_t)rand_r(seed) % 4, &whole);
  sum = sum * 31 + fixed_convert_bits_mode(bits, format, target, (uint32_t)rand_r(seed) % 4, (uint32_t)rand_r(seed) % 5, &moved);
  size_t size = (size_t)rand_r(seed) % 90, len = 0;
  char *out = block(size);
  uint32_t code = fixed_print_places(bits, format, (uint32_t)rand_r(seed) % 70, out, size, &len);
  CHECK(code == FIXED_BAD_PLACES || (code == FIXED_OK) == (len < size));
  if (fixed_word_of_format(format, out, size, &len) == FIXED_OK)
    CHECK(fixed_format_of_word(out, len, &again) == FIXED_OK && again.width == format.width && again.frac == format.frac);
  free(out);
  return sum * 31 + (uint64_t)whole.bits + (uint64_t)moved.bits + len;
}

/* Prints bits in a style, good or bad, into a block of some size. */
static uint64_t print_in_style(int64_t bits, fixed_format format, unsigned *seed) {
  static const uint32_t fills[] = {0, ' ', '*', 0xe9, 0x20ac, 0x1f600, 0xd800, 0x110000};
  static const uint32_t precisions[] = {FIXED_NO_PRECISION, 0, 3, 70, 65536};
  fixed_style style = {(uint32_t)rand_r(seed) % 8, precisions[rand_r(seed) % 5], (uint32_t)rand_r(seed) % 50, fills[rand_r(seed) % 8],
                       (uint32_t)rand_r(seed) % 4, (uint32_t)rand_r(seed) % 2, (uint32_t)rand_r(seed) % 2, (uint32_t)rand_r(seed) % 2};
  size_t size = (size_t)rand_r(seed) % 300, len = 999;
  char *out = block(size);
  uint32_t code = fixed_print_styled(bits, format, &style, out, size, &len);
  CHECK(code == FIXED_OK || code == FIXED_NO_ROOM || len == 999);
  if (code == FIXED_OK || code == FIXED_NO_ROOM) CHECK(len >= style.width && (code == FIXED_OK) == (len < size));
  if (code == FIXED_OK) CHECK(out[len] == 0);
  free(out);
  return code * 31 + len;
}

/* The numeral at the beginning of a text is one, and with a byte more it is not. */
static uint64_t scan(const char *text, size_t count, uint32_t radix) {
  const fixed_format wide = {1, 64, 0};
  size_t taken = 999;
  fixed_number number;
  uint32_t code = fixed_scan_text(text, count, radix, &taken);
  if (code != FIXED_OK) {
    CHECK(taken == 999);
    CHECK(code == fixed_read_text(text, count, radix, wide, FIXED_WRAPPING, FIXED_NEAREST, &number));
    return code;
  }
  CHECK(taken > 0 && taken <= count);
  CHECK(fixed_read_text(text, taken, radix, wide, FIXED_WRAPPING, FIXED_NEAREST, &number) == FIXED_OK);
  for (size_t more = taken + 1; more <= count; more++)
    CHECK(fixed_read_text(text, more, radix, wide, FIXED_WRAPPING, FIXED_NEAREST, &number) != FIXED_OK);
  return taken;
}

static uint64_t use_number(int64_t bits, fixed_format format, unsigned *seed) {
  fixed_number moved = {0, 0};
  fixed_format target = some_format(seed);
  uint64_t sum = print_and_read(bits, format, seed);
  sum = sum * 31 + fixed_convert_bits(bits, format, target, (uint32_t)rand_r(seed) % 4, &moved);
  sum = sum * 31 + (uint64_t)moved.bits + moved.overflowed;
  int32_t order = 7;
  CHECK(fixed_compare_bits(bits, format, bits, format, &order) == FIXED_OK && order == 0);
  sum = sum * 31 + print_in_style(bits, format, seed);
  return sum * 31 + round_and_convert(bits, format, seed);
}

static uint64_t some_calls(unsigned seed, int times) {
  static const char alphabet[] = "0123456789.-+eEpP@_aFf 0123456789";
  static const uint32_t radices[] = {2, 8, 10, 16, 10, 7};
  uint64_t sum = 0;
  for (int k = 0; k < times; k++) {
    size_t count = (size_t)rand_r(&seed) % 40;
    char *text = block(count);
    for (size_t i = 0; i < count; i++) text[i] = alphabet[(size_t)rand_r(&seed) % (sizeof alphabet - 1)];
    fixed_format format = some_format(&seed);
    uint32_t radix = radices[rand_r(&seed) % 6], policy = (uint32_t)rand_r(&seed) % 4, mode = (uint32_t)rand_r(&seed) % 5;
    fixed_number *number = block(sizeof *number);
    *number = (fixed_number){99, 99};
    uint32_t code = fixed_read_text(text, count, radix, format, policy, mode, number);
    if (code == FIXED_OK) {
      sum = sum * 31 + use_number(number->bits, format, &seed);
    } else {
      CHECK(number->bits == 99 && number->overflowed == 99);
    }
    sum = sum * 31 + scan(text, count, radix);
    fixed_number through = {99, 99};
    sum = sum * 31 + fixed_respell_text(text, count, radix, format, some_format(&seed), policy, mode, &through);
    sum = sum * 31 + fixed_read_literal(text, count, format, policy, &through);
    fixed_enclosure ends = {99, 99};
    if (fixed_enclose_text(text, count, radix, format, &ends) == FIXED_OK) sum += (uint64_t)ends.lo ^ (uint64_t)ends.hi;

    size_t size = (size_t)rand_r(&seed) % 200, len = 0;
    char *out = block(size);
    uint32_t is_fault = 9;
    char *line = block(count + 24);
    memcpy(line, "10 U8F0 I16F16 wrapping ", 24);
    memcpy(line + 24, text, count);
    code = fixed_answer_line(line, count + 24, out, size, &len, &is_fault);
    CHECK(code == FIXED_OK || code == FIXED_NO_ROOM);
    CHECK(len <= 192 && (code == FIXED_OK) == (len < size));
    code = fixed_message((uint32_t)rand_r(&seed) % 28, out, size, &len);
    CHECK(code == FIXED_OK || code == FIXED_NO_ROOM);
    CHECK(len < FIXED_MESSAGE_SIZE);
    sum = sum * 31 + len + is_fault;
    free(line);
    free(out);
    free(number);
    free(text);
  }
  return sum;
}

/* Calls without bytes: a null pointer is an empty text, and a buffer of size 0 asks for a length alone. */
static void nothing_at_all(void) {
  const fixed_format byte = {1, 8, 4};
  fixed_format named = {9, 9, 9};
  fixed_number number = {99, 99};
  fixed_enclosure ends = {99, 99};
  size_t len = 0;
  uint32_t is_fault = 9;
  CHECK(fixed_read_text(NULL, 0, 10, byte, FIXED_CHECKED, FIXED_NEAREST, &number) == FIXED_NO_DIGITS);
  CHECK(fixed_respell_text(NULL, 0, 10, byte, byte, FIXED_CHECKED, FIXED_NEAREST, &number) == FIXED_NO_DIGITS);
  CHECK(fixed_enclose_text(NULL, 0, 10, byte, &ends) == FIXED_NO_DIGITS);
  CHECK(fixed_read_literal(NULL, 0, byte, FIXED_CHECKED, &number) == FIXED_NO_DIGITS);
  CHECK(fixed_scan_text(NULL, 0, 10, &len) == FIXED_NO_DIGITS && len == 0);
  CHECK(fixed_scan_text("1.5e-x", 6, 10, &len) == FIXED_OK && len == 3);
  CHECK(fixed_format_of_word(NULL, 0, &named) == FIXED_BAD_WORD);
  CHECK(number.bits == 99 && ends.lo == 99 && named.width == 9);
  CHECK(fixed_answer_line(NULL, 0, NULL, 0, &len, &is_fault) == FIXED_NO_ROOM && len == 20 && is_fault == 1);
  CHECK(fixed_print_bits(25, byte, NULL, 0, &len) == FIXED_NO_ROOM && len == 4);
  CHECK(fixed_print_places(25, byte, 2, NULL, 0, &len) == FIXED_NO_ROOM && len == 4);
  CHECK(fixed_print_styled(25, byte, &(fixed_style){FIXED_LOWER_EXPONENT, 2, 0, ' ', FIXED_RIGHT, 0, 0, 0}, NULL, 0, &len) ==
            FIXED_NO_ROOM && len == 6);
  CHECK(fixed_word_of_format(byte, NULL, 0, &len) == FIXED_NO_ROOM && len == 4);
  CHECK(fixed_message(FIXED_BAD_WORD, NULL, 0, &len) == FIXED_NO_ROOM && len == 15);
  CHECK(fixed_abi() == FIXED_ABI && fixed_version() == FIXED_VERSION);
}

/* A style of zeros fills with blanks; the default one is the shortest decimal, to the right. */
static void styles(void) {
  const fixed_format byte = {1, 8, 4};
  fixed_style zeros = {0}, style = FIXED_STYLE_DEFAULT;
  char out[9];
  size_t len = 0;
  CHECK(fixed_print_styled(51, byte, &style, out, sizeof out, &len) == FIXED_OK && strcmp(out, "3.2") == 0);
  zeros.width = style.width = 8;
  CHECK(fixed_print_styled(51, byte, &style, out, sizeof out, &len) == FIXED_OK && strcmp(out, "     3.2") == 0);
  CHECK(fixed_print_styled(51, byte, &zeros, out, sizeof out, &len) == FIXED_OK && strcmp(out, "3       ") == 0);
}

static void *in_a_thread(void *at) {
  uint64_t *given = at;
  *given = some_calls((unsigned)*given, 5000);
  return NULL;
}

int main(int argc, char **argv) {
  uint64_t sums[4] = {7, 7, 7, 8};
  pthread_t threads[4];
  nothing_at_all();
  styles();
  printf("%llu\n", (unsigned long long)some_calls(1, argc > 1 ? atoi(argv[1]) : 100000));
  for (int i = 0; i < 4; i++) CHECK(pthread_create(&threads[i], NULL, in_a_thread, &sums[i]) == 0);
  for (int i = 0; i < 4; i++) CHECK(pthread_join(threads[i], NULL) == 0);
  CHECK(sums[0] == sums[1] && sums[1] == sums[2] && sums[0] != sums[3] && sums[0] == some_calls(7, 5000));
  puts("the threads agree");
  return 0;
}
