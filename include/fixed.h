/* fixed.h: fixed-point numbers as text, from libfixed.a or libfixed.so.
 *
 * A number of a format is its bits, a whole number, over two to the power of the format's fraction length. The code of
 * the library is proved; this file and its callers are not. A caller keeps these rules, which nothing checks:
 *  - no pointer is null, except that of a text of length 0 or of a buffer of size 0;
 *  - text[0..len) is readable; out[0..size) and what the other pointers name are writable; what a call writes does not
 *    overlap its other arguments;
 *  - these declarations are those of the linked library: fixed_abi() is FIXED_ABI.
 * Every other argument is tested: whatever it is, the call returns, and its code says what was wrong. No call takes
 * memory, keeps state, or depends on a locale, so any thread or signal handler may make it. Every amd64 processor runs
 * the library, and a call takes less than FIXED_STACK_SIZE bytes of stack.
 *
 * Each call but fixed_abi and fixed_version returns a code, FIXED_OK or what was wrong first. It tests its arguments
 * first, in the order of the codes from 11 on; then the text (1 to 9) or whether a float is finite (27); then whether
 * the number fits (10); and last the room for what it writes (17). With any other code than FIXED_OK and FIXED_NO_ROOM
 * it writes nothing.
 *
 * A numeral is an optional sign, digits of the radix with at most one point among them, and an optional exponent. It
 * has at least one digit. An exponent is a separator, an optional sign and at least one decimal digit, in the range of
 * 32 bits. `e`, `E` and `@` scale by powers of the radix (in radix 16 only `@`, since `e` is a digit), and `p` and `P`
 * by powers of two (not in radix 10). Letters are digits in either case. The whole text is the numeral: it has no
 * blanks, newline, underscores, comma or prefix such as `0x`, and is not `inf` or `nan`. "1", ".5", "5.", "-1.25e-3"
 * and, in radix 16, "+f.8p-2" are numerals; "", ".", "e5" and " 1" are not. */
#ifndef FIXED_H
#define FIXED_H

#include <stddef.h>
#include <stdint.h>

/* The layout of what is declared here. It stays as it is while calls and codes are added at the end. */
#define FIXED_ABI 1

/* The version of the library that this file came with. */
#define FIXED_VERSION_MAJOR 1
#define FIXED_VERSION_MINOR 1
#define FIXED_VERSION_PATCH 0
#define FIXED_VERSION_STRING "1.1.0"
#define FIXED_VERSION (FIXED_VERSION_MAJOR * 10000 + FIXED_VERSION_MINOR * 100 + FIXED_VERSION_PATCH)

#ifdef __cplusplus
extern "C" {
#endif

/* A format: signed if is_signed is not 0; width bits, from 1 to 64; and a fraction length from 0 to 64, whatever the
 * width: the value of bits is bits / 2^frac. */
typedef struct {
  uint32_t is_signed, width, frac;
} fixed_format;

/* The bits of a number, and whether it or a number on the way to it was out of range (1) or not (0). Bits of an
 * unsigned format of 64 bits are the same 64 bits: cast them to uint64_t. */
typedef struct {
  int64_t bits;
  uint32_t overflowed;
} fixed_number;

/* The bits of the greatest number not above a value and of the least not below it: the same if the value is a number of
 * the format. */
typedef struct {
  int64_t lo, hi;
} fixed_enclosure;

/* What to do with a number out of range: refuse it, take the nearer end of the range, drop its high bits, or take the
 * nearer end of the range without its lowest number, which then counts as out of range itself. */
enum fixed_policy { FIXED_CHECKED = 0, FIXED_SATURATING = 1, FIXED_WRAPPING = 2, FIXED_SYMMETRIC = 3 };

/* How a number between two numbers of a format is rounded: to the nearest with ties to even, down, up, towards zero; to
 * the nearest with ties away from zero, towards zero, up, down; away from zero. */
enum fixed_mode {
  FIXED_NEAREST = 0,
  FIXED_FLOOR = 1,
  FIXED_CEIL = 2,
  FIXED_ZERO = 3,
  FIXED_TIES_AWAY = 4,
  FIXED_TIES_ZERO = 5,
  FIXED_TIES_UP = 6,
  FIXED_TIES_DOWN = 7,
  FIXED_AWAY = 8
};

/* Which whole number a number is rounded to: the least not below it, the greatest not above it, the nearest with ties
 * away from zero, the nearest with ties to even, the nearest that is not farther from zero. */
enum fixed_rounding { FIXED_ROUND_CEIL = 0, FIXED_ROUND_FLOOR = 1, FIXED_ROUND_TIES_AWAY = 2, FIXED_ROUND_TIES_EVEN = 3,
                      FIXED_ROUND_ZERO = 4 };

/* How fixed_print_styled writes digits: in decimal, in decimal with an exponent after `e` or `E`, or in radix 2, 8 or
 * 16 with letters of either case; and where the text stands in a wider field. */
enum fixed_notation { FIXED_DECIMAL = 0, FIXED_LOWER_EXPONENT = 1, FIXED_UPPER_EXPONENT = 2, FIXED_BINARY = 3,
                      FIXED_OCTAL = 4, FIXED_LOWER_HEX = 5, FIXED_UPPER_HEX = 6 };
enum fixed_align { FIXED_LEFT = 0, FIXED_CENTER = 1, FIXED_RIGHT = 2 };

/* The type of an argument that is one of these constants. In C it is their enum, so that -Wenum-conversion (on in
 * clang, and by -Wextra in gcc) warns of exchanged arguments. In C++, and in C if FIXED_PLAIN_ARGUMENTS is defined
 * before this file is included, it is uint32_t. The call is the same, since these enums have 4 bytes; with
 * -fshort-enums they have fewer, and C needs FIXED_PLAIN_ARGUMENTS. A number that is none of the constants is refused
 * in either case. */
#if defined(__cplusplus) || defined(FIXED_PLAIN_ARGUMENTS)
#define FIXED_ENUM(name) uint32_t
#else
#define FIXED_ENUM(name) enum name
typedef char fixed_enums_have_4_bytes[sizeof(enum fixed_policy) == 4 && sizeof(enum fixed_mode) == 4 &&
                                      sizeof(enum fixed_rounding) == 4 ? 1 : -1];
#endif

/* A precision of as many places as a number needs: the shortest decimal, or in radix 2, 8 and 16 the exact value. */
#define FIXED_NO_PRECISION 0xFFFFFFFFu

/* A style: a notation; a precision of 0 to 65535 digits after the point, rounded to the nearest with ties to even, or
 * FIXED_NO_PRECISION; the least number of characters, 0 to 65535; the character that fills the field up to it, a
 * Unicode scalar value, which is written in UTF-8, or 0 for a blank; an alignment; and three flags, set if they are not
 * 0: a `+` before a number that is not negative, a prefix `0b`, `0o` or `0x`, and zeros after sign and prefix in place
 * of fill and alignment. */
typedef struct {
  uint32_t notation, precision, width, fill, align, plus, prefix, zero_pad;
} fixed_style;

/* The style of fixed_print_bits, to the right in a field of blanks if a width is set, as in
 * `fixed_style style = FIXED_STYLE_DEFAULT;`. A style of zeros is another: its precision is 0, its alignment left. */
#define FIXED_STYLE_DEFAULT { FIXED_DECIMAL, FIXED_NO_PRECISION, 0, ' ', FIXED_RIGHT, 0, 0, 0 }

enum fixed_code {
  FIXED_OK = 0,
  /* Why a text is not a numeral of its radix. */
  FIXED_INVALID_DIGIT = 1,
  FIXED_MISPLACED_SIGN = 2,
  FIXED_MISPLACED_UNDERSCORE = 3, /* only in literals */
  FIXED_TOO_MANY_POINTS = 4,
  FIXED_TOO_MANY_EXPONENTS = 5,
  FIXED_EXPONENT_INVALID_DIGIT = 6,
  FIXED_EXPONENT_OVERFLOW = 7,
  FIXED_NO_DIGITS = 8,
  FIXED_EXPONENT_NO_DIGITS = 9,
  /* With FIXED_CHECKED: the number is out of range, in one of two formats if there are two. fixed_enclose_text: one end
   * does not exist. */
  FIXED_OVERFLOW = 10,
  /* Which argument was invalid. */
  FIXED_BAD_RADIX = 11,
  FIXED_BAD_FORMAT = 12, /* the only format, the source, or that of a */
  FIXED_BAD_TARGET = 13, /* the target, or the format of b */
  FIXED_BAD_POLICY = 14,
  FIXED_BAD_MODE = 15,
  FIXED_BAD_BITS = 16, /* the only bits, or a, are not of their format */
  /* The text and a zero byte do not fit into size bytes: nothing of it was written, but *len is its length. */
  FIXED_NO_ROOM = 17,
  FIXED_BAD_OTHER_BITS = 18, /* b is not of its format */
  FIXED_BAD_PLACES = 19, /* more than 64, in a decimal format more than 18, in a style a precision of more than 65535 */
  FIXED_BAD_ROUNDING = 20,
  FIXED_BAD_WORD = 21, /* the word does not name a format */
  FIXED_BAD_ROWS = 22, /* the sizes are not those of the rows */
  FIXED_BAD_NOTATION = 23,
  FIXED_BAD_WIDTH = 24, /* more than 65535 */
  FIXED_BAD_FILL = 25,  /* not a Unicode scalar value */
  FIXED_BAD_ALIGN = 26,
  FIXED_NOT_FINITE = 27 /* the double or float is an infinity or a NaN */
};

/* Sizes that are always enough, the zero byte included; and more stack than any call takes. For the length only, out
 * may be null with a size of 0, as with snprintf: the code is then FIXED_NO_ROOM. */
enum { FIXED_TEXT_SIZE = 49, FIXED_PLACES_SIZE = 87, FIXED_ANSWER_SIZE = 193, FIXED_MESSAGE_SIZE = 48,
       FIXED_WORD_SIZE = 9, FIXED_STACK_SIZE = 8192 };

/* Reads text[0..len), a numeral in a radix of 2, 8, 10 or 16, into a format. */
uint32_t fixed_read_text(const char *text, size_t len, uint32_t radix, fixed_format format,
                         FIXED_ENUM(fixed_policy) policy, FIXED_ENUM(fixed_mode) mode, fixed_number *out);

/* Writes the shortest decimal that reads back as the bits, and a zero byte; *len is its length, at most 48. */
uint32_t fixed_print_bits(int64_t bits, fixed_format format, char *out, size_t size, size_t *len);

/* Converts bits of one format to another, rounded down. */
uint32_t fixed_convert_bits(int64_t bits, fixed_format source, fixed_format target, FIXED_ENUM(fixed_policy) policy,
                            fixed_number *out);

/* Reads text[0..len) into the source format, and converts the number to the target format, rounded down. */
uint32_t fixed_respell_text(const char *text, size_t len, uint32_t radix, fixed_format source, fixed_format target,
                            FIXED_ENUM(fixed_policy) policy, FIXED_ENUM(fixed_mode) mode, fixed_number *out);

/* Sets *order to -1, 0 or 1 if the value of a is less than that of b, equal to it, or greater. */
uint32_t fixed_compare_bits(int64_t a, fixed_format a_format, int64_t b, fixed_format b_format, int32_t *order);

/* Finds the two numbers of a format around the value of text[0..len). FIXED_OVERFLOW if one of them does not exist. */
uint32_t fixed_enclose_text(const char *text, size_t len, uint32_t radix, fixed_format format, fixed_enclosure *out);

/* Writes the answer of fixed_tool to a line, without a newline, and a zero byte; *len is its length, at most 192.
 * *is_fault is 1 if the answer is a fault, else 0; the code is FIXED_OK in both cases. */
uint32_t fixed_answer_line(const char *line, size_t line_len, char *out, size_t size, size_t *len, uint32_t *is_fault);

/* Writes the message of a code, and a zero byte; *len is its length. Of another number it is "unknown code". */
uint32_t fixed_message(uint32_t code, char *out, size_t size, size_t *len);

/* Writes bits to this many decimal places, 0 to 64, rounded to the nearest with ties to even, and a zero byte; *len is
 * the text's length, at most 86. */
uint32_t fixed_print_places(int64_t bits, fixed_format format, uint32_t places, char *out, size_t size, size_t *len);

/* The same, rounded in a mode. */
uint32_t fixed_print_places_mode(int64_t bits, fixed_format format, uint32_t places, FIXED_ENUM(fixed_mode) mode,
                                 char *out, size_t size, size_t *len);

/* Rounds bits to a whole number of the same format. */
uint32_t fixed_round_bits(int64_t bits, fixed_format format, FIXED_ENUM(fixed_rounding) rounding,
                          FIXED_ENUM(fixed_policy) policy, fixed_number *out);

/* Converts bits of one format to another, rounded in a mode. */
uint32_t fixed_convert_bits_mode(int64_t bits, fixed_format source, fixed_format target,
                                 FIXED_ENUM(fixed_policy) policy, FIXED_ENUM(fixed_mode) mode, fixed_number *out);

/* Reads text[0..len), a literal, into a format, rounded to the nearest with ties to even. A literal is an optional `-`
 * if the format is signed; 0b, 0o or 0x for radix 2, 8 or 16 in place of 10; and a numeral without a sign. Underscores
 * may follow the prefix, or a digit of the same part: "-0x1f.8", "1_000.25". */
uint32_t fixed_read_literal(const char *text, size_t len, fixed_format format, FIXED_ENUM(fixed_policy) policy,
                            fixed_number *out);

/* Finds the format that word[0..len) names, such as I16F16, u0f24, I-9F25 (16 bits, in steps of 2^-25), Q15 or UQ8.8
 * (by ARM's counting), or as in another tool: ap_fixed<16,1>, sfixed(0 downto -15), fi(_,1,16,15),
 * numerictype(1,16,15), sfix16_En15, and those without a sign. Writes the word of a format, such as I16F16, with a zero
 * byte: *len is its length, at most 8. */
uint32_t fixed_format_of_word(const char *word, size_t len, fixed_format *out);
uint32_t fixed_word_of_format(fixed_format format, char *out, size_t size, size_t *len);

/* The single calls for rows. Row i is rows[i * size..(i + 1) * size), and its text goes up to its first zero byte, or
 * is all of it. codes[i] is what fixed_read_text or fixed_convert_bits_mode returns for row i, and out[i] what it
 * leaves in a number of zeros. fixed_print_rows writes the text of fixed_print_bits into each row and fills it up with
 * zero bytes; a row whose code is not FIXED_OK stays as it was. *refused counts the codes that are not FIXED_OK. The
 * calls return FIXED_OK, or FIXED_BAD_ROWS with nothing written if len is not size * code_count, or count or bits_count
 * is not code_count. */
uint32_t fixed_read_rows(const char *rows, size_t len, size_t size, uint32_t radix, fixed_format format,
                         FIXED_ENUM(fixed_policy) policy, FIXED_ENUM(fixed_mode) mode, fixed_number *out, size_t count,
                         uint32_t *codes, size_t code_count, size_t *refused);
uint32_t fixed_print_rows(const int64_t *bits, size_t count, fixed_format format, char *rows, size_t len, size_t size,
                          uint32_t *codes, size_t code_count, size_t *refused);
uint32_t fixed_convert_rows(const int64_t *bits, size_t bits_count, fixed_format source, fixed_format target,
                            FIXED_ENUM(fixed_policy) policy, FIXED_ENUM(fixed_mode) mode, fixed_number *out,
                            size_t count, uint32_t *codes, size_t code_count, size_t *refused);

/* The same for fixed_print_places_mode and fixed_compare_bits: row i of fixed_print_places_rows has the text of bits[i]
 * to this many places in the mode, and orders[i] is what fixed_compare_bits leaves in 0. a_count, b_count and
 * order_count must be code_count. */
uint32_t fixed_print_places_rows(const int64_t *bits, size_t count, fixed_format format, uint32_t places,
                                 FIXED_ENUM(fixed_mode) mode, char *rows, size_t len, size_t size,
                                 uint32_t *codes, size_t code_count, size_t *refused);
uint32_t fixed_compare_rows(const int64_t *a, size_t a_count, fixed_format a_format, const int64_t *b, size_t b_count,
                            fixed_format b_format, int32_t *orders, size_t order_count, uint32_t *codes,
                            size_t code_count, size_t *refused);

/* Decimal formats, for money: places is 0 to 18, more are FIXED_BAD_PLACES, and the bits count units of ten to the
 * power of -places, cents for 2, in 64 bits with a sign. text[0..len) is a numeral in radix 10. The decimal is rounded
 * as it is written, in any mode: FIXED_TIES_AWAY is commercial rounding. The text of bits has exactly so many places,
 * and *len is its length, at most 21. The calls over rows are the single calls for each row, as fixed_read_rows and
 * fixed_print_rows are. */
uint32_t fixed_read_decimal(const char *text, size_t len, uint32_t places, FIXED_ENUM(fixed_policy) policy,
                            FIXED_ENUM(fixed_mode) mode, fixed_number *out);
uint32_t fixed_print_decimal(int64_t bits, uint32_t places, char *out, size_t size, size_t *len);
uint32_t fixed_read_decimal_rows(const char *rows, size_t len, size_t size, uint32_t places,
                                 FIXED_ENUM(fixed_policy) policy, FIXED_ENUM(fixed_mode) mode, fixed_number *out,
                                 size_t out_count, uint32_t *codes, size_t code_count, size_t *refused);
uint32_t fixed_print_decimal_rows(const int64_t *bits, size_t count, uint32_t places, char *rows, size_t len,
                                  size_t size, uint32_t *codes, size_t code_count, size_t *refused);

/* Floats. double and float are binary64 and binary32 of IEEE 754, in the byte order of the machine's whole numbers, as
 * on every amd64 processor: the library reads and writes arrays of them as their bits. A float is read by its exact
 * value, rounded in a mode as a numeral of that value is; a zero with a sign is 0. Infinities and NaNs are
 * FIXED_NOT_FINITE, whatever the policy. The double of bits is the nearest to their value, ties to even: exactly that
 * value if the format has at most 53 bits; that of 0 has no sign. Pass a single float to fixed_read_double. The calls
 * over rows are the single calls for each value, as above; if codes[i] is not FIXED_OK, out[i] is a number of zeros, or
 * 0.0. count, out_count and code_count must be the same. */
uint32_t fixed_read_double(double value, fixed_format format, FIXED_ENUM(fixed_policy) policy,
                           FIXED_ENUM(fixed_mode) mode, fixed_number *out);
uint32_t fixed_read_doubles(const double *values, size_t count, fixed_format format, FIXED_ENUM(fixed_policy) policy,
                            FIXED_ENUM(fixed_mode) mode, fixed_number *out, size_t out_count, uint32_t *codes,
                            size_t code_count, size_t *refused);
uint32_t fixed_read_floats(const float *values, size_t count, fixed_format format, FIXED_ENUM(fixed_policy) policy,
                           FIXED_ENUM(fixed_mode) mode, fixed_number *out, size_t out_count, uint32_t *codes,
                           size_t code_count, size_t *refused);
uint32_t fixed_double_of_bits(int64_t bits, fixed_format format, double *out);
uint32_t fixed_doubles_of_bits(const int64_t *bits, size_t count, fixed_format format, double *out, size_t out_count,
                               uint32_t *codes, size_t code_count, size_t *refused);

/* Writes bits in a style, and a zero byte; *len is the text's length in bytes. */
uint32_t fixed_print_styled(int64_t bits, fixed_format format, const fixed_style *style, char *out, size_t size,
                            size_t *len);

/* Sets *count to the length of the longest prefix of text[0..len) that is a numeral: 3 for "1.5 m", "1.5e" and "1.5.2".
 * If no prefix is a numeral, the code says why the text is not one. */
uint32_t fixed_scan_text(const char *text, size_t len, uint32_t radix, size_t *count);

/* FIXED_ABI and FIXED_VERSION of the linked library. */
uint32_t fixed_abi(void);
uint32_t fixed_version(void);

#ifdef __cplusplus
}
#endif
#endif
