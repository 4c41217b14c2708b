/* Fixed-point numbers in SQL: an extension of SQLite over fixed.h. A column of INTEGER holds the bits of numbers.
 *
 *   cc -O2 -shared -fPIC fixed_sqlite.c -lfixed -o fixed_sqlite.so        then, in sqlite3: .load ./fixed_sqlite
 *
 *   fixed_text(bits, format)                       the shortest decimal that reads back
 *   fixed_text(bits, format, places)               rounded to this many places, 0 to 64, ties to even
 *   fixed_bits(numeral, format [, policy [, mode]])
 *   fixed_convert(bits, source, target [, policy [, mode]])
 *   fixed_round(bits, format [, rounding [, policy]])   to a whole number, as bits of the same format
 *   fixed_compare(a, a_format, b, b_format)        -1, 0 or 1, by value
 *
 * A format is a word such as 'I16F16' or 'Q15'; a policy is 'checked' (the default), 'saturating', 'wrapping' or
 * 'symmetric'; a mode is 'nearest' (the default, also of fixed_convert), 'floor', 'ceil', 'zero', 'ties-away',
 * 'ties-zero', 'ties-up', 'ties-down' or 'away'; a rounding is 'ceil', 'floor', 'ties-away', 'ties-even' (the default) or 'zero'. If an argument
 * is NULL, the answer is NULL; what cannot be done is an error. A numeral is a text or a whole number: a REAL has lost
 * its digits already. The bits of an unsigned format of 64 bits are the same 64 bits, as in C.
 *
 * The calls of libfixed are proved; this file is tested. */
#include <string.h>

#include <sqlite3ext.h>
SQLITE_EXTENSION_INIT1

#include "fixed.h"

static const char *const policies[] = {"checked", "saturating", "wrapping", "symmetric", NULL};
static const char *const modes[] = {"nearest",   "floor",   "ceil",      "zero", "ties-away",
                                    "ties-zero", "ties-up", "ties-down", "away", NULL};
static const char *const roundings[] = {"ceil", "floor", "ties-away", "ties-even", "zero", NULL};

/* An error: the function, why, and the argument. */
static void refuse_as(sqlite3_context *context, const char *why, sqlite3_value *argument) {
  const char *text = (const char *)sqlite3_value_text(argument);
  char *all = sqlite3_mprintf("%s: %s: %.40s", (const char *)sqlite3_user_data(context), why, text ? text : "");
  if (all) sqlite3_result_error(context, all, -1);
  else sqlite3_result_error_nomem(context);
  sqlite3_free(all);
}

/* The error of a code, with the library's message. */
static void refuse(sqlite3_context *context, uint32_t code, sqlite3_value *argument) {
  char message[FIXED_MESSAGE_SIZE];
  size_t len;
  fixed_message(code, message, sizeof message, &len);
  refuse_as(context, message, argument);
}

/* Whether an argument is NULL; the answer is then NULL too. */
static int has_null(int count, sqlite3_value **given) {
  for (int i = 0; i < count; i++)
    if (sqlite3_value_type(given[i]) == SQLITE_NULL) return 1;
  return 0;
}

/* The format that an argument names, and otherwise an error. */
static int is_format(sqlite3_context *context, sqlite3_value *argument, fixed_format *out) {
  const char *word = (const char *)sqlite3_value_text(argument);
  uint32_t code = fixed_format_of_word(word, (size_t)sqlite3_value_bytes(argument), out);
  if (code != FIXED_OK) refuse(context, code, argument);
  return code == FIXED_OK;
}

/* The index of an argument among words: `otherwise` if it was left out, and an error with this code if it is not there. */
static int is_word(sqlite3_context *context, const char *const *words, uint32_t code, int otherwise,
                   sqlite3_value *argument, int *out) {
  *out = otherwise;
  if (!argument) return 1;
  const char *text = (const char *)sqlite3_value_text(argument);
  for (*out = 0; words[*out]; ++*out)
    if (text && strcmp(text, words[*out]) == 0) return 1;
  refuse(context, code, argument);
  return 0;
}

static void give(sqlite3_context *context, uint32_t code, const fixed_number *number, sqlite3_value *argument) {
  if (code == FIXED_OK) sqlite3_result_int64(context, number->bits);
  else refuse(context, code, argument);
}

/* Whether an argument is a whole number, and otherwise an error: SQLite would take the text '3x' for 3. */
static int is_whole(sqlite3_context *context, sqlite3_value *argument, sqlite3_int64 *out) {
  *out = sqlite3_value_int64(argument);
  if (sqlite3_value_numeric_type(argument) == SQLITE_INTEGER) return 1;
  refuse_as(context, "not a whole number of 64 bits", argument);
  return 0;
}

static void text(sqlite3_context *context, int count, sqlite3_value **given) {
  fixed_format format;
  sqlite3_int64 bits, places = 0;
  char out[FIXED_PLACES_SIZE];
  size_t len = 0;
  if (has_null(count, given) || !is_format(context, given[1], &format) || !is_whole(context, given[0], &bits)) return;
  if (count == 3) {
    if (!is_whole(context, given[2], &places)) return;
    if (places < 0 || places > 64) places = 65;
  }
  uint32_t code = count == 3 ? fixed_print_places(bits, format, (uint32_t)places, out, sizeof out, &len)
                             : fixed_print_bits(bits, format, out, sizeof out, &len);
  if (code == FIXED_OK) sqlite3_result_text(context, out, (int)len, SQLITE_TRANSIENT);
  else refuse(context, code, given[code == FIXED_BAD_PLACES ? 2 : 0]);
}

static void bits(sqlite3_context *context, int count, sqlite3_value **given) {
  fixed_format format;
  fixed_number number;
  int policy, mode;
  if (has_null(count, given) || !is_format(context, given[1], &format)) return;
  if (!is_word(context, policies, FIXED_BAD_POLICY, FIXED_CHECKED, count > 2 ? given[2] : NULL, &policy)) return;
  if (!is_word(context, modes, FIXED_BAD_MODE, FIXED_NEAREST, count > 3 ? given[3] : NULL, &mode)) return;
  if (sqlite3_value_type(given[0]) == SQLITE_FLOAT) {
    refuse_as(context, "a REAL is not a numeral, quote the number", given[0]);
    return;
  }
  const char *numeral = (const char *)sqlite3_value_text(given[0]);
  size_t len = (size_t)sqlite3_value_bytes(given[0]);
  uint32_t code = fixed_read_text(numeral, len, 10, format, (enum fixed_policy)policy, (enum fixed_mode)mode, &number);
  give(context, code, &number, given[0]);
}

static void convert(sqlite3_context *context, int count, sqlite3_value **given) {
  fixed_format source, target;
  fixed_number number;
  sqlite3_int64 bits;
  int policy, mode;
  if (has_null(count, given) || !is_format(context, given[1], &source) || !is_format(context, given[2], &target)) return;
  if (!is_word(context, policies, FIXED_BAD_POLICY, FIXED_CHECKED, count > 3 ? given[3] : NULL, &policy)) return;
  if (!is_word(context, modes, FIXED_BAD_MODE, FIXED_NEAREST, count > 4 ? given[4] : NULL, &mode)) return;
  if (!is_whole(context, given[0], &bits)) return;
  uint32_t code = fixed_convert_bits_mode(bits, source, target, (enum fixed_policy)policy, (enum fixed_mode)mode, &number);
  give(context, code, &number, given[0]);
}

static void whole(sqlite3_context *context, int count, sqlite3_value **given) {
  fixed_format format;
  fixed_number number;
  sqlite3_int64 bits;
  int rounding, policy;
  if (has_null(count, given) || !is_format(context, given[1], &format)) return;
  if (!is_word(context, roundings, FIXED_BAD_ROUNDING, FIXED_ROUND_TIES_EVEN, count > 2 ? given[2] : NULL, &rounding)) return;
  if (!is_word(context, policies, FIXED_BAD_POLICY, FIXED_CHECKED, count > 3 ? given[3] : NULL, &policy)) return;
  if (!is_whole(context, given[0], &bits)) return;
  uint32_t code = fixed_round_bits(bits, format, (enum fixed_rounding)rounding, (enum fixed_policy)policy, &number);
  give(context, code, &number, given[0]);
}

static void compare(sqlite3_context *context, int count, sqlite3_value **given) {
  fixed_format a_format, b_format;
  sqlite3_int64 a, b;
  int32_t order = 0;
  if (has_null(count, given) || !is_format(context, given[1], &a_format) || !is_format(context, given[3], &b_format)) return;
  if (!is_whole(context, given[0], &a) || !is_whole(context, given[2], &b)) return;
  uint32_t code = fixed_compare_bits(a, a_format, b, b_format, &order);
  if (code == FIXED_OK) sqlite3_result_int(context, order);
  else refuse(context, code, given[code == FIXED_BAD_BITS ? 0 : 2]);
}

int sqlite3_fixedsqlite_init(sqlite3 *db, char **message, const sqlite3_api_routines *api);

/* The entry that SQLite looks for in a file of this name. */
int sqlite3_fixedsqlite_init(sqlite3 *db, char **message, const sqlite3_api_routines *api) {
  static const struct {
    const char *name;
    int least, most;
    void (*call)(sqlite3_context *, int, sqlite3_value **);
  } functions[] = {{"fixed_text", 2, 3, text},       {"fixed_bits", 2, 4, bits},  {"fixed_convert", 3, 5, convert},
                   {"fixed_round", 2, 4, whole},     {"fixed_compare", 4, 4, compare}};
  (void)message;
  SQLITE_EXTENSION_INIT2(api);
  for (size_t i = 0; i < sizeof functions / sizeof *functions; i++)
    for (int count = functions[i].least; count <= functions[i].most; count++) {
      int status = sqlite3_create_function_v2(db, functions[i].name, count, SQLITE_UTF8 | SQLITE_DETERMINISTIC | SQLITE_INNOCUOUS,
                                              (void *)functions[i].name, functions[i].call, NULL, NULL, NULL);
      if (status != SQLITE_OK) return status;
    }
  return SQLITE_OK;
}
