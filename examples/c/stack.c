/* Measures how much stack the calls take, by what they change of a painted stack, and fails where it is FIXED_STACK_SIZE or more. */
#define _GNU_SOURCE
#include <pthread.h>
#include <stdio.h>
#include <stdlib.h>
#include <string.h>

#include "fixed.h"

enum { STACK = 1 << 18, PAINT = 0xA5 };

static unsigned char *painted;

/* Calls everything with texts that take the longest ways. */
static void *calls(void *nothing) {
  static const char *const numerals[] = {"-1234567890.123456789012345678901234567890123456789e-7", "+ff.8p-2", "0.5", "1e-400", "x"};
  static const uint32_t radices[] = {2, 8, 10, 16};
  static char styled[512];
  char text[FIXED_ANSWER_SIZE], line[256];
  size_t len;
  uint32_t is_fault;
  fixed_number number;
  fixed_enclosure ends;
  fixed_format format, wide = {1, 64, 32}, narrow = {0, 8, 8};
  fixed_style style = {FIXED_LOWER_EXPONENT, 40, 120, 0x20ac, FIXED_CENTER, 1, 1, 0};
  int32_t order;
  volatile unsigned char here = 0;
  memset(painted, PAINT, (size_t)(&here - painted) - 2048);
  for (size_t i = 0; i < sizeof numerals / sizeof *numerals; i++)
    for (size_t r = 0; r < 4; r++) {
      size_t count = strlen(numerals[i]);
      fixed_read_text(numerals[i], count, radices[r], wide, FIXED_WRAPPING, FIXED_NEAREST, &number);
      fixed_respell_text(numerals[i], count, radices[r], wide, narrow, FIXED_WRAPPING, FIXED_CEIL, &number);
      fixed_enclose_text(numerals[i], count, radices[r], wide, &ends);
      fixed_read_literal(numerals[i], count, wide, FIXED_WRAPPING, &number);
      fixed_scan_text(numerals[i], count, radices[r], &len);
      strcpy(line, "16 I32F32 U0F64 wrapping/ceil ");
      fixed_answer_line(strcat(line, numerals[i]), strlen(line), text, sizeof text, &len, &is_fault);
    }
  for (int64_t bits = -9; bits < 9; bits++) {
    fixed_print_bits(bits * 0x123456789abcdef, wide, text, sizeof text, &len);
    fixed_print_places(bits * 0x123456789abcdef, wide, 64, text, sizeof text, &len);
    for (style.notation = FIXED_DECIMAL; style.notation <= FIXED_UPPER_HEX; style.notation++)
      fixed_print_styled(bits * 0x123456789abcdef, wide, &style, styled, sizeof styled, &len);
    fixed_round_bits(bits, wide, FIXED_ROUND_TIES_EVEN, FIXED_WRAPPING, &number);
    fixed_convert_bits_mode(bits, wide, narrow, FIXED_WRAPPING, FIXED_NEAREST, &number);
    fixed_compare_bits(bits, wide, bits, wide, &order);
  }
  fixed_word_of_format(wide, text, sizeof text, &len);
  fixed_format_of_word(text, len, &format);
  fixed_message(10, text, sizeof text, &len);
  unsigned char *lowest = painted;
  while (*lowest == PAINT) lowest++;
  size_t used = (size_t)(&here - lowest);
  printf("%zu bytes of stack\n", used);
  if (used >= FIXED_STACK_SIZE) exit(1);
  return nothing;
}

int main(void) {
  pthread_attr_t attributes;
  pthread_t thread;
  if (posix_memalign((void **)&painted, 4096, STACK) || pthread_attr_init(&attributes)) return 1;
  if (pthread_attr_setstack(&attributes, painted, STACK) || pthread_create(&thread, &attributes, calls, NULL)) return 1;
  return pthread_join(thread, NULL);
}
