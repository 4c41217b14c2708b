// fixed.hpp: fixed-point numbers as text in C++17 and later, over fixed.h and libfixed.
//
// The calls of libfixed are proved; this header, which hands texts and bits over to them, is tested.
//
//   using namespace lomdeqash::literals;
//   constexpr auto q15 = "Q15"_format;                        // a wrong word does not compile
//   std::int16_t tap;
//   auto [end, ec, overflowed] = lomdeqash::from_chars(first, last, tap, q15);
//   std::string text = lomdeqash::to_string(tap, q15);        // the shortest that reads back
//
// from_chars and to_chars have the shape of the standard's: they return a pointer and an error code, throw nothing and
// allocate nothing. Only the forms of to_string do: they return a std::string, and throw a std::system_error for what
// they cannot print. An error code is 0 (`errc{}`) or the cause, as in fixed.h; as a
// std::error_code it has the library's message, and equals std::errc::result_out_of_range for an overflow,
// std::errc::value_too_large for a buffer that is too small, and std::errc::invalid_argument otherwise.
//
// Radix, policy, mode and rounding are types of their own, so an exchanged argument does not compile.
#ifndef FIXED_HPP
#define FIXED_HPP

#include <cstddef>
#include <cstdint>
#include <cstdlib>
#include <cstring>
#include <initializer_list>
#include <iterator>
#include <limits>
#include <optional>
#include <string>
#include <string_view>
#include <system_error>
#include <type_traits>
#include <utility>
#if __has_include(<version>)
#include <version>
#endif
#if defined(__cpp_lib_span)
#include <span>
#endif

#include "fixed.h"

namespace lomdeqash {

enum class radix : std::uint32_t { binary = 2, octal = 8, decimal = 10, hexadecimal = 16 };

// What to do with a number out of range: refuse it, take the nearer end of the range, or drop its high bits.
enum class policy : std::uint32_t {
  checked = FIXED_CHECKED,
  saturating = FIXED_SATURATING,
  wrapping = FIXED_WRAPPING,
  symmetric = FIXED_SYMMETRIC
};

// How a value between two numbers of a format is rounded. nearest: ties to even; ties_zero, zero: towards zero; ties_up,
// ties_down: towards the greater and the lesser; away: away from zero.
enum class mode : std::uint32_t {
  nearest = FIXED_NEAREST,
  floor = FIXED_FLOOR,
  ceil = FIXED_CEIL,
  zero = FIXED_ZERO,
  ties_away = FIXED_TIES_AWAY,
  ties_zero = FIXED_TIES_ZERO,
  ties_up = FIXED_TIES_UP,
  ties_down = FIXED_TIES_DOWN,
  away = FIXED_AWAY
};

// Which whole number a number is rounded to.
enum class rounding : std::uint32_t {
  ceil = FIXED_ROUND_CEIL,
  floor = FIXED_ROUND_FLOOR,
  ties_away = FIXED_ROUND_TIES_AWAY,
  ties_even = FIXED_ROUND_TIES_EVEN,
  zero = FIXED_ROUND_ZERO
};

enum class notation : std::uint32_t {
  decimal = FIXED_DECIMAL,
  lower_exponent = FIXED_LOWER_EXPONENT,
  upper_exponent = FIXED_UPPER_EXPONENT,
  binary = FIXED_BINARY,
  octal = FIXED_OCTAL,
  lower_hex = FIXED_LOWER_HEX,
  upper_hex = FIXED_UPPER_HEX
};

enum class align : std::uint32_t { left = FIXED_LEFT, center = FIXED_CENTER, right = FIXED_RIGHT };

// A count of decimal places, 0 to 64: `places{2}`.
enum class places : std::uint32_t {};

// The codes of fixed.h; errc{} is success.
enum class errc : std::uint32_t {
  invalid_digit = FIXED_INVALID_DIGIT,
  misplaced_sign = FIXED_MISPLACED_SIGN,
  misplaced_underscore = FIXED_MISPLACED_UNDERSCORE,
  too_many_points = FIXED_TOO_MANY_POINTS,
  too_many_exponents = FIXED_TOO_MANY_EXPONENTS,
  exponent_invalid_digit = FIXED_EXPONENT_INVALID_DIGIT,
  exponent_overflow = FIXED_EXPONENT_OVERFLOW,
  no_digits = FIXED_NO_DIGITS,
  exponent_no_digits = FIXED_EXPONENT_NO_DIGITS,
  overflow = FIXED_OVERFLOW,
  bad_radix = FIXED_BAD_RADIX,
  bad_format = FIXED_BAD_FORMAT,
  bad_target = FIXED_BAD_TARGET,
  bad_policy = FIXED_BAD_POLICY,
  bad_mode = FIXED_BAD_MODE,
  bad_bits = FIXED_BAD_BITS,
  no_room = FIXED_NO_ROOM,
  bad_other_bits = FIXED_BAD_OTHER_BITS,
  bad_places = FIXED_BAD_PLACES,
  bad_rounding = FIXED_BAD_ROUNDING,
  bad_word = FIXED_BAD_WORD,
  bad_rows = FIXED_BAD_ROWS,
  bad_notation = FIXED_BAD_NOTATION,
  bad_width = FIXED_BAD_WIDTH,
  bad_fill = FIXED_BAD_FILL,
  bad_align = FIXED_BAD_ALIGN,
  not_finite = FIXED_NOT_FINITE
};

}  // namespace lomdeqash

template <>
struct std::is_error_code_enum<lomdeqash::errc> : std::true_type {};

namespace lomdeqash {

namespace detail {

class category_of_fixed final : public std::error_category {
 public:
  const char* name() const noexcept override { return "fixed"; }

  std::string message(int code) const override {
    char out[FIXED_MESSAGE_SIZE];
    std::size_t len = 0;
    fixed_message(static_cast<std::uint32_t>(code), out, sizeof out, &len);
    return std::string(out, len);
  }

  std::error_condition default_error_condition(int code) const noexcept override {
    const auto cause = static_cast<errc>(code);
    if (cause == errc{}) return {};
    if (cause == errc::overflow) return std::errc::result_out_of_range;
    return cause == errc::no_room ? std::errc::value_too_large : std::errc::invalid_argument;
  }
};

template <class Bits>
using if_bits = std::enable_if_t<std::is_integral_v<Bits> && !std::is_same_v<std::remove_cv_t<Bits>, bool>, int>;

[[noreturn]] inline void the_word_does_not_name_a_format() { std::abort(); }

}  // namespace detail

// The category of errc, whose name is "fixed".
inline const std::error_category& category() noexcept {
  static const detail::category_of_fixed it;
  return it;
}

inline std::error_code make_error_code(errc code) noexcept { return {static_cast<int>(code), category()}; }

// A format: signed or not, 1 to 64 bits wide, and a fraction length of 0 to 64: a value is bits / 2^frac.
class format {
 public:
  // Returns nothing unless the width is from 1 to 64 and frac at most 64.
  static constexpr std::optional<format> make(bool is_signed, std::uint32_t width, std::uint32_t frac) noexcept {
    if (width < 1 || width > 64 || frac > 64) return std::nullopt;
    return format(is_signed, width, frac);
  }

  // The format that a name says, such as "I16F16", "u0f24", "I-9F25", "Q15" or "UQ8.8", or as other tools say it:
  // "ap_fixed<16,1>", "sfixed(0 downto -15)", "fi(_,1,16,15)", "numerictype(1,16,15)" or "sfix16_En15". This works in
  // constants; format_named asks the library, which may know more names.
  static constexpr std::optional<format> parse(std::string_view name) noexcept {
    const auto found = by_counts(name);
    return found ? found : in_a_tool(name);
  }

  constexpr bool is_signed() const noexcept { return it_.is_signed != 0; }
  constexpr std::uint32_t width() const noexcept { return it_.width; }
  constexpr std::uint32_t frac() const noexcept { return it_.frac; }

  // Whether integers of type Bits hold the bits of every number of the format.
  template <class Bits, detail::if_bits<Bits> = 0>
  constexpr bool fits() const noexcept {
    const auto digits = static_cast<std::uint32_t>(std::numeric_limits<Bits>::digits);
    return is_signed() ? std::is_signed_v<Bits> && it_.width <= digits + 1 : it_.width <= digits;
  }

  // As the calls of fixed.h take it.
  constexpr operator fixed_format() const noexcept { return it_; }

  friend constexpr bool operator==(format a, format b) noexcept {
    return a.is_signed() == b.is_signed() && a.width() == b.width() && a.frac() == b.frac();
  }
  friend constexpr bool operator!=(format a, format b) noexcept { return !(a == b); }

 private:
  friend class number;

  constexpr format(bool is_signed, std::uint32_t width, std::uint32_t frac) noexcept
      : it_{is_signed ? 1u : 0u, width, frac} {}

  static constexpr bool has(std::string_view name, std::size_t at, char letter) noexcept {
    return at < name.size() && (name[at] == letter || (letter >= 'A' && name[at] == letter + ('a' - 'A')));
  }

  static constexpr bool is_digit(std::string_view name, std::size_t at) noexcept {
    return at < name.size() && name[at] >= '0' && name[at] <= '9';
  }

  // Reads a count of one or two digits, without a zero before others, and moves past it.
  static constexpr bool count_at(std::string_view name, std::size_t& at, std::uint32_t& count) noexcept {
    if (!is_digit(name, at)) return false;
    count = static_cast<std::uint32_t>(name[at++] - '0');
    if (!is_digit(name, at)) return true;
    const bool is_zero = count == 0;
    count = count * 10 + static_cast<std::uint32_t>(name[at++] - '0');
    return !is_zero;
  }

  // The format that a name by counts of bits says, or ARM's.
  static constexpr std::optional<format> by_counts(std::string_view name) noexcept {
    const bool is_signed = !has(name, 0, 'U');
    std::size_t at = is_signed ? 0 : 1;
    const bool is_q = has(name, at, 'Q');
    if (is_q) ++at;
    else if (!is_signed || has(name, 0, 'I')) at = 1;
    else return std::nullopt;
    const bool is_below = !is_q && has(name, at, '-');
    if (is_below) ++at;
    std::uint32_t whole = 1, frac = 0;
    if (!count_at(name, at, frac)) return std::nullopt;
    if (at < name.size() || !is_q || !is_signed) {
      whole = frac;
      if (!has(name, at, is_q ? '.' : 'F') || !count_at(name, ++at, frac)) return std::nullopt;
    }
    if (at != name.size() || (is_q && is_signed && whole == 0)) return std::nullopt;
    if (is_below) return whole == 0 || whole > frac ? std::nullopt : make(is_signed, frac - whole, frac);
    return make(is_signed, whole + frac, frac);
  }

  // What the two numbers of a name in another tool are: the width and the whole bits, of which the sign bit is one; the
  // powers of two of the highest and of the lowest bit; the width and the fraction length.
  enum class numbers { width_and_whole, high_and_low, width_and_frac };

  static constexpr std::optional<format> in_a_tool(std::string_view name) noexcept {
    for (const bool is_signed : {true, false}) {
      const std::string_view hls = is_signed ? "ap_fixed<" : "ap_ufixed<", vhdl = is_signed ? "sfixed(" : "ufixed(";
      const std::string_view simulink = is_signed ? "sfix" : "ufix", sign = is_signed ? "1" : "0";
      for (const std::string_view comma : {",", ", "}) {
        if (const auto it = in_form(name, is_signed, {hls}, comma, ">", numbers::width_and_whole)) return it;
        if (const auto it = in_form(name, is_signed, {"fi(_", comma, sign, comma}, comma, ")")) return it;
        if (const auto it = in_form(name, is_signed, {"numerictype(", sign, comma}, comma, ")")) return it;
      }
      if (const auto it = in_form(name, is_signed, {vhdl}, " downto ", ")", numbers::high_and_low)) return it;
      if (const auto it = in_form(name, is_signed, {simulink}, "_En", "")) return it;
      std::size_t at = 0;
      std::uint32_t width = 0;
      if (passes(name, at, simulink) && count_at(name, at, width) && at == name.size()) return make(is_signed, width, 0);
    }
    return std::nullopt;
  }

  // The format of a name of these texts, a number, a mark, a number and a tail.
  static constexpr std::optional<format> in_form(std::string_view name, bool is_signed,
                                                 std::initializer_list<std::string_view> starts, std::string_view mark,
                                                 std::string_view tail,
                                                 numbers kind = numbers::width_and_frac) noexcept {
    std::size_t at = 0;
    for (const std::string_view start : starts)
      if (!passes(name, at, start)) return std::nullopt;
    int first = 0, second = 0;
    if (!number_at(name, at, first) || !passes(name, at, mark) || !number_at(name, at, second)) return std::nullopt;
    if (!passes(name, at, tail) || at != name.size()) return std::nullopt;
    const int width = kind == numbers::high_and_low ? first + 1 - second : first;
    const int frac = kind == numbers::width_and_frac    ? second
                     : kind == numbers::width_and_whole ? first - second
                                                        : -second;
    if (width < 0 || frac < 0) return std::nullopt;
    return make(is_signed, static_cast<std::uint32_t>(width), static_cast<std::uint32_t>(frac));
  }

  // Moves past a text, if it stands at `at`.
  static constexpr bool passes(std::string_view name, std::size_t& at, std::string_view part) noexcept {
    if (name.substr(at, part.size()) != part) return false;
    at += part.size();
    return true;
  }

  // Reads a number of one or two digits, with or without a minus, and moves past it.
  static constexpr bool number_at(std::string_view name, std::size_t& at, int& number) noexcept {
    const bool is_below = has(name, at, '-');
    if (is_below) ++at;
    std::uint32_t count = 0;
    if (!count_at(name, at, count) || (is_below && count == 0)) return false;
    number = is_below ? -static_cast<int>(count) : static_cast<int>(count);
    return true;
  }

  fixed_format it_;
};

inline namespace literals {

// "I16F16"_format. A wrong word does not compile, before C++20 only in a constant (`constexpr auto`): elsewhere the
// program then aborts.
#if defined(__cpp_consteval)
consteval
#else
constexpr
#endif
format operator""_format(const char* name, std::size_t len) noexcept {
  const auto found = format::parse(std::string_view(name, len));
  if (!found) detail::the_word_does_not_name_a_format();
  return *found;
}

}  // namespace literals

// Asks the library for the format that a name says. Returns nothing if it names none.
inline std::optional<format> format_named(std::string_view name) noexcept {
  fixed_format out = {0, 0, 0};
  if (fixed_format_of_word(name.data(), name.size(), &out) != FIXED_OK) return std::nullopt;
  return format::make(out.is_signed != 0, out.width, out.frac);
}

class number;

// Returns -1, 0 or 1 if the value of a is less than that of b, equal to it, or greater.
int compare(const number& a, const number& b) noexcept;

// A number: bits, and the format that gives them a value. Numbers are equal and in order by value, whatever their
// formats.
class number {
 public:
  // Zero.
  constexpr explicit number(format in) noexcept : bits_(0), format_(in) {}

  // Returns nothing if the format does not have these bits.
  template <class Bits, detail::if_bits<Bits> = 0>
  static constexpr std::optional<number> make(Bits bits, format in) noexcept {
    const std::uint64_t ones = ~std::uint64_t{0} >> (64 - in.width());
    const bool is_negative = std::is_signed_v<Bits> && bits < Bits{0};
    const std::uint64_t most = in.is_signed() ? ones >> 1 : ones;
    const auto given = static_cast<std::uint64_t>(bits);
    if (is_negative ? !in.is_signed() || ~given > most : given > most) return std::nullopt;
    return number(static_cast<std::int64_t>(given), in);
  }

  // The number that a call over rows has left for a row.
  static constexpr number of_row(const fixed_number& row, format in) noexcept { return number(row.bits, in); }

  // The bits as in C: those of an unsigned format of 64 bits are the same 64 bits.
  constexpr std::int64_t bits() const noexcept { return bits_; }
  constexpr format get_format() const noexcept { return format_; }

  friend bool operator==(const number& a, const number& b) noexcept { return compare(a, b) == 0; }
  friend bool operator!=(const number& a, const number& b) noexcept { return compare(a, b) != 0; }
  friend bool operator<(const number& a, const number& b) noexcept { return compare(a, b) < 0; }
  friend bool operator>(const number& a, const number& b) noexcept { return compare(a, b) > 0; }
  friend bool operator<=(const number& a, const number& b) noexcept { return compare(a, b) <= 0; }
  friend bool operator>=(const number& a, const number& b) noexcept { return compare(a, b) >= 0; }

 private:
  constexpr number(std::int64_t bits, format in) noexcept : bits_(bits), format_(in) {}

  std::int64_t bits_;
  format format_;
};

inline int compare(const number& a, const number& b) noexcept {
  std::int32_t order = 0;
  fixed_compare_bits(a.bits(), a.get_format(), b.bits(), b.get_format(), &order);
  return order;
}

// A number, whether it or one on the way to it was out of range, and the error code. The number is zero if there is an
// error.
struct outcome {
  number value;
  bool overflowed;
  errc ec;

  constexpr explicit operator bool() const noexcept { return ec == errc{}; }
};

// The two numbers of a format around a value.
struct enclosure {
  number low, high;
  errc ec;

  constexpr explicit operator bool() const noexcept { return ec == errc{}; }
};

// Where reading ended, the error code, and whether the number was out of range.
struct from_chars_result {
  const char* ptr;
  errc ec;
  bool overflowed;

  constexpr explicit operator bool() const noexcept { return ec == errc{}; }
};

// Where writing ended, and the error code.
struct to_chars_result {
  char* ptr;
  errc ec;

  constexpr explicit operator bool() const noexcept { return ec == errc{}; }
};

// How a number is shown. The precision is 0 to 65535 digits after the point, rounded to the nearest with ties to even,
// or FIXED_NO_PRECISION for as many as the number needs.
struct style {
  lomdeqash::notation notation = lomdeqash::notation::decimal;
  std::uint32_t precision = FIXED_NO_PRECISION;
  std::uint32_t width = 0;
  char32_t fill = U' ';
  lomdeqash::align align = lomdeqash::align::right;
  bool plus = false;
  bool prefix = false;
  bool zero_pad = false;
};

namespace detail {

template <class Enum>
constexpr std::uint32_t raw(Enum it) noexcept {
  return static_cast<std::uint32_t>(it);
}

inline outcome outcome_of(std::uint32_t code, const fixed_number& out, format in) noexcept {
  return {code == FIXED_OK ? number::of_row(out, in) : number(in), code == FIXED_OK && out.overflowed != 0,
          static_cast<errc>(code)};
}

// Copies the text of a call, which needs at most Size bytes with its zero byte, to [first, last).
template <std::size_t Size, class Call>
to_chars_result copied(char* first, char* last, Call call) noexcept {
  char out[Size];
  std::size_t len = 0;
  const auto code = static_cast<errc>(call(out, Size, &len));
  if (code != errc{}) return {last, code};
  if (len > static_cast<std::size_t>(last - first)) return {last, errc::no_room};
  std::memcpy(first, out, len);
  return {first + len, errc{}};
}

}  // namespace detail

// Reads the whole of a text, a numeral, into a format.
inline outcome read(std::string_view text, format in, radix base = radix::decimal, policy range = policy::checked,
                    mode round = mode::nearest) noexcept {
  fixed_number out = {0, 0};
  const auto code = fixed_read_text(text.data(), text.size(), detail::raw(base), in, detail::raw(range),
                                    detail::raw(round), &out);
  return detail::outcome_of(code, out, in);
}

// Reads the whole of a text into a format, and rounds the number down to another.
inline outcome read_into(std::string_view text, format source, format target, radix base = radix::decimal,
                         policy range = policy::checked, mode round = mode::nearest) noexcept {
  fixed_number out = {0, 0};
  const auto code = fixed_respell_text(text.data(), text.size(), detail::raw(base), source, target, detail::raw(range),
                                       detail::raw(round), &out);
  return detail::outcome_of(code, out, target);
}

// Reads a literal such as "-0x1f.8" or "1_000.25", rounded to the nearest with ties to even.
inline outcome read_literal(std::string_view text, format in, policy range = policy::checked) noexcept {
  fixed_number out = {0, 0};
  return detail::outcome_of(fixed_read_literal(text.data(), text.size(), in, detail::raw(range), &out), out, in);
}

// The greatest number not above the value of a text, and the least not below it.
inline enclosure enclose(std::string_view text, format in, radix base = radix::decimal) noexcept {
  fixed_enclosure out = {0, 0};
  const auto code = fixed_enclose_text(text.data(), text.size(), detail::raw(base), in, &out);
  return {number::of_row({out.lo, 0}, in), number::of_row({out.hi, 0}, in), static_cast<errc>(code)};
}

// A number in another format, rounded in a mode.
inline outcome convert(const number& it, format target, policy range, mode round) noexcept {
  fixed_number out = {0, 0};
  const auto code = fixed_convert_bits_mode(it.bits(), it.get_format(), target, detail::raw(range), detail::raw(round),
                                            &out);
  return detail::outcome_of(code, out, target);
}

// A number rounded to a whole number of the same format.
inline outcome round(const number& it, rounding way, policy range = policy::checked) noexcept {
  fixed_number out = {0, 0};
  const auto code = fixed_round_bits(it.bits(), it.get_format(), detail::raw(way), detail::raw(range), &out);
  return detail::outcome_of(code, out, it.get_format());
}

// Finds the end of the longest prefix that is a numeral, or returns first if there is none.
inline from_chars_result scan(const char* first, const char* last, radix base = radix::decimal) noexcept {
  std::size_t count = 0;
  const auto code = fixed_scan_text(first, static_cast<std::size_t>(last - first), detail::raw(base), &count);
  return {first + count, static_cast<errc>(code), false};
}

// Reads the longest prefix that is a numeral into the format of `value`, and returns its end, also after an overflow.
// Without a numeral it returns first. `value` stays as it was in both cases.
inline from_chars_result from_chars(const char* first, const char* last, number& value, radix base = radix::decimal,
                                    policy range = policy::checked, mode round = mode::nearest) noexcept {
  const auto found = scan(first, last, base);
  if (!found) return found;
  const std::string_view numeral(first, static_cast<std::size_t>(found.ptr - first));
  const auto it = read(numeral, value.get_format(), base, range, round);
  if (it) value = it.value;
  return {it || it.ec == errc::overflow ? found.ptr : first, it.ec, it.overflowed};
}

// The same for bits. `bad_format`: integers of type Bits do not hold the bits of the format.
template <class Bits, detail::if_bits<Bits> = 0>
from_chars_result from_chars(const char* first, const char* last, Bits& bits, format in, radix base = radix::decimal,
                             policy range = policy::checked, mode round = mode::nearest) noexcept {
  if (!in.fits<Bits>()) return {first, errc::bad_format, false};
  number value(in);
  const auto result = from_chars(first, last, value, base, range, round);
  if (result) bits = static_cast<Bits>(value.bits());
  return result;
}

// Writes the shortest decimal that reads back, without a zero byte. 48 bytes are always enough.
inline to_chars_result to_chars(char* first, char* last, const number& it) noexcept {
  return detail::copied<FIXED_TEXT_SIZE>(first, last, [&](char* out, std::size_t size, std::size_t* len) {
    return fixed_print_bits(it.bits(), it.get_format(), out, size, len);
  });
}

// Writes the decimal of this many places, rounded to the nearest with ties to even. 86 bytes are always enough.
inline to_chars_result to_chars(char* first, char* last, const number& it, places count) noexcept {
  return detail::copied<FIXED_PLACES_SIZE>(first, last, [&](char* out, std::size_t size, std::size_t* len) {
    return fixed_print_places(it.bits(), it.get_format(), detail::raw(count), out, size, len);
  });
}

// The same, rounded in a mode.
inline to_chars_result to_chars(char* first, char* last, const number& it, places count, mode way) noexcept {
  return detail::copied<FIXED_PLACES_SIZE>(first, last, [&](char* out, std::size_t size, std::size_t* len) {
    return fixed_print_places_mode(it.bits(), it.get_format(), detail::raw(count), detail::raw(way), out, size, len);
  });
}

// Writes a number in a style. Unlike the others this needs room for one byte more than the text, and sets it to zero.
inline to_chars_result to_chars(char* first, char* last, const number& it, const style& how) noexcept {
  const fixed_style raw = {detail::raw(how.notation), how.precision, how.width, static_cast<std::uint32_t>(how.fill),
                           detail::raw(how.align), how.plus, how.prefix, how.zero_pad};
  std::size_t len = 0;
  const auto size = static_cast<std::size_t>(last - first);
  const auto code = fixed_print_styled(it.bits(), it.get_format(), &raw, first, size, &len);
  return code == FIXED_OK ? to_chars_result{first + len, errc{}} : to_chars_result{last, static_cast<errc>(code)};
}

// The same for bits: the shortest decimal, or with `places`, `places` and a mode, or a style. `bad_bits`: the format
// does not have them.
template <class Bits, class... How, detail::if_bits<Bits> = 0>
to_chars_result to_chars(char* first, char* last, Bits bits, format in, const How&... how) noexcept {
  const auto it = number::make(bits, in);
  return it ? to_chars(first, last, *it, how...) : to_chars_result{last, errc::bad_bits};
}

// Writes the name of a format, such as I16F16. 8 bytes are always enough.
inline to_chars_result to_chars(char* first, char* last, format it) noexcept {
  return detail::copied<FIXED_WORD_SIZE>(first, last, [&](char* out, std::size_t size, std::size_t* len) {
    return fixed_word_of_format(it, out, size, len);
  });
}

// Answers a line as fixed_tool does. 192 bytes are always enough.
inline to_chars_result answer_line(char* first, char* last, std::string_view line, bool& is_fault) noexcept {
  std::uint32_t fault = 0;
  const auto answer = [&](char* out, std::size_t size, std::size_t* len) {
    return fixed_answer_line(line.data(), line.size(), out, size, len, &fault);
  };
  const auto result = detail::copied<FIXED_ANSWER_SIZE>(first, last, answer);
  is_fault = fault != 0;
  return result;
}

#if defined(__cpp_exceptions)

// The same as strings. They throw std::system_error where to_chars returns an error.
inline std::string to_string(format it) {
  char out[FIXED_WORD_SIZE];
  return std::string(out, to_chars(out, out + sizeof out, it).ptr);
}

inline std::string to_string(const number& it) {
  char out[FIXED_TEXT_SIZE];
  return std::string(out, to_chars(out, out + sizeof out, it).ptr);
}

inline std::string to_string(const number& it, places count, mode way = mode::nearest) {
  char out[FIXED_PLACES_SIZE];
  const auto result = to_chars(out, out + sizeof out, it, count, way);
  if (!result) throw std::system_error(result.ec);
  return std::string(out, result.ptr);
}

inline std::string to_string(const number& it, const style& how) {
  for (std::string out(128, '\0');; out.resize(out.size() * 16)) {
    const auto result = to_chars(out.data(), out.data() + out.size(), it, how);
    if (result) return out.substr(0, static_cast<std::size_t>(result.ptr - out.data()));
    if (result.ec != errc::no_room) throw std::system_error(result.ec);
  }
}

template <class Bits, class... How, detail::if_bits<Bits> = 0>
std::string to_string(Bits bits, format in, const How&... how) {
  const auto it = number::make(bits, in);
  if (!it) throw std::system_error(errc::bad_bits);
  return to_string(*it, how...);
}

#endif

#if defined(__cpp_lib_span)
using std::span;
#else
// A pointer and a size, as std::span has them in C++20.
template <class T>
class span {
 public:
  constexpr span(T* data, std::size_t size) noexcept : data_(data), size_(size) {}
  template <class Range, class = decltype(static_cast<T*>(std::data(std::declval<Range&>())))>
  constexpr span(Range&& range) noexcept : data_(std::data(range)), size_(std::size(range)) {}
  constexpr T* data() const noexcept { return data_; }
  constexpr std::size_t size() const noexcept { return size_; }

 private:
  T* data_;
  std::size_t size_;
};
#endif

// How many rows were refused, and the error code, which is `bad_rows` if the sizes are not those of the rows.
struct rows_result {
  std::size_t refused;
  errc ec;

  constexpr explicit operator bool() const noexcept { return ec == errc{}; }
};

// Reads rows of `size` bytes, each up to its first zero byte. `codes[i]` is the error code of row i, as errc{codes[i]}.
inline rows_result read_rows(span<const char> rows, std::size_t size, format in, span<fixed_number> out,
                             span<std::uint32_t> codes, radix base = radix::decimal, policy range = policy::checked,
                             mode round = mode::nearest) noexcept {
  std::size_t refused = 0;
  const auto code = fixed_read_rows(rows.data(), rows.size(), size, detail::raw(base), in, detail::raw(range),
                                    detail::raw(round), out.data(), out.size(), codes.data(), codes.size(), &refused);
  return {refused, static_cast<errc>(code)};
}

// Prints bits into rows of `size` bytes, with zero bytes up to the end of each. A row that is refused stays as it was.
inline rows_result print_rows(span<const std::int64_t> bits, format in, span<char> rows, std::size_t size,
                              span<std::uint32_t> codes) noexcept {
  std::size_t refused = 0;
  const auto code = fixed_print_rows(bits.data(), bits.size(), in, rows.data(), rows.size(), size, codes.data(),
                                     codes.size(), &refused);
  return {refused, static_cast<errc>(code)};
}

// Converts bits to another format, rounded in a mode.
inline rows_result convert_rows(span<const std::int64_t> bits, format source, format target, policy range, mode round,
                                span<fixed_number> out, span<std::uint32_t> codes) noexcept {
  std::size_t refused = 0;
  const auto code = fixed_convert_rows(bits.data(), bits.size(), source, target, detail::raw(range), detail::raw(round),
                                       out.data(), out.size(), codes.data(), codes.size(), &refused);
  return {refused, static_cast<errc>(code)};
}

}  // namespace lomdeqash

#endif
