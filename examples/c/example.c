/* Reads a number, converts it, compares the two, and answers a line. */
#include <inttypes.h>
#include <stdio.h>
#include <string.h>

#include "fixed.h"

int main(int argc, char **argv) {
  const char *text = argc > 1 ? argv[1] : "3.14159";
  const fixed_format i16f16 = {1, 32, 16}, u8f0 = {0, 8, 0};
  size_t len;

  fixed_number number;
  uint32_t code = fixed_read_text(text, strlen(text), 10, i16f16, FIXED_CHECKED, FIXED_NEAREST, &number);
  if (code != FIXED_OK) {
    char message[FIXED_MESSAGE_SIZE];
    fixed_message(code, message, sizeof message, &len);
    fprintf(stderr, "%s: %s\n", text, message);
    return 1;
  }
  char back[FIXED_TEXT_SIZE];
  if (fixed_print_bits(number.bits, i16f16, back, sizeof back, &len) != FIXED_OK) return 1;
  printf("%s is %" PRId64 " of 65536 and prints as %s\n", text, number.bits, back);

  fixed_number byte;
  if (fixed_convert_bits(number.bits, i16f16, u8f0, FIXED_SATURATING, &byte) != FIXED_OK) return 1;
  printf("in a byte it is %" PRId64 "%s\n", byte.bits, byte.overflowed ? ", which overflowed" : "");

  int32_t order;
  if (fixed_compare_bits(number.bits, i16f16, byte.bits, u8f0, &order) != FIXED_OK) return 1;
  printf("the two compare as %" PRId32 "\n", order);

  fixed_enclosure ends;
  if (fixed_enclose_text(text, strlen(text), 10, i16f16, &ends) != FIXED_OK) return 1;
  printf("it lies between %" PRId64 " and %" PRId64 " of 65536\n", ends.lo, ends.hi);

  const char *line = "10 U4F4 U8F0 checked 2.99";
  char answer[FIXED_ANSWER_SIZE];
  uint32_t is_fault;
  if (fixed_answer_line(line, strlen(line), answer, sizeof answer, &len, &is_fault) != FIXED_OK) return 1;
  printf("%s -> %s\n", line, answer);
  return (int)is_fault;
}
