// What fixed.hpp promises beside the answers of the calls, which wrappers.py compares: where from_chars and to_chars end,
// buffers of the exact size, error codes, constants, order, and spans.
#include <array>
#include <cstdio>
#include <cstdlib>
#include <cstring>
#include <string>
#include <vector>

#include "fixed.hpp"

namespace {

using namespace lomdeqash;

#define CHECK(...)                                                  \
  do {                                                              \
    if (!(__VA_ARGS__)) {                                           \
      std::fprintf(stderr, "line %d: %s\n", __LINE__, #__VA_ARGS__); \
      std::abort();                                                 \
    }                                                               \
  } while (0)

constexpr auto q15 = "Q15"_format;
constexpr auto u64f0 = "U64F0"_format;
static_assert(q15 == "i1f15"_format && q15 != "U1F15"_format);
static_assert(q15.is_signed() && q15.width() == 16 && q15.frac() == 15);
static_assert("UQ8.8"_format == "U8F8"_format && "I0F64"_format.width() == 64);
static_assert(!format::parse("U8F08") && !format::parse("Q0.8") && !format::parse("UQ8") && !format::parse("") && !format::parse("I8F8 "));
static_assert(!format::make(true, 0, 0) && !format::make(true, 65, 0) && !format::make(false, 8, 65) && format::make(false, 8, 9));
static_assert(q15.fits<std::int16_t>() && q15.fits<std::int64_t>() && !q15.fits<std::uint16_t>() && !q15.fits<std::int8_t>());
static_assert("U15F0"_format.fits<std::int16_t>() && !"U16F0"_format.fits<std::int16_t>() && u64f0.fits<std::uint64_t>());
static_assert(!number::make(32768, q15) && number::make(-32768, q15)->bits() == -32768);
static_assert(number::make(~std::uint64_t{0}, u64f0)->bits() == -1 && !number::make(-1, u64f0));
static_assert(!number::make(std::uint64_t{1} << 63, "I64F0"_format) && number::make(INT64_MIN, "I64F0"_format));

void reading_ends_after_the_numeral() {
  const std::string text = "0.5 m";
  const char* const first = text.data();
  const char* const last = first + text.size();
  std::int16_t bits = 7;
  const auto [ptr, ec, overflowed] = from_chars(first, last, bits, q15);
  CHECK(ptr == first + 3 && ec == errc{} && !overflowed && bits == 16384);
  const auto rest = from_chars(ptr, last, bits, q15);
  CHECK(rest.ptr == ptr && rest.ec == errc::invalid_digit && !rest && bits == 16384);
  const std::string high = "1.5e0x";
  const auto out = from_chars(high.data(), high.data() + high.size(), bits, q15);
  CHECK(out.ptr == high.data() + 5 && out.ec == errc::overflow && bits == 16384);
  const auto end = from_chars(high.data(), high.data() + high.size(), bits, q15, radix::decimal, policy::saturating);
  CHECK(end && end.overflowed && bits == 32767);
  const auto none = from_chars(first, first, bits, q15);
  CHECK(none.ptr == first && none.ec == errc::no_digits);
  CHECK(from_chars(nullptr, nullptr, bits, q15).ec == errc::no_digits);
  std::int8_t small = 3;
  CHECK(from_chars(first, last, small, q15).ec == errc::bad_format && small == 3);
  std::uint64_t wide = 0;
  const std::string most = "18446744073709551615";
  CHECK(from_chars(most.data(), most.data() + most.size(), wide, u64f0) && wide == ~std::uint64_t{0});
  number value("I4F4"_format);
  CHECK(from_chars(first, last, value) && value.bits() == 8 && value == *number::make(16384, q15));
}

void a_text_may_fill_its_buffer() {
  std::array<char, 7> out{};
  auto it = to_chars(out.data(), out.data() + 6, 10922, q15);
  CHECK(it && it.ptr == out.data() + 6 && std::memcmp(out.data(), "0.3333\0", 7) == 0);
  it = to_chars(out.data(), out.data() + 5, 10922, q15);
  CHECK(it.ec == errc::no_room && it.ptr == out.data() + 5);
  CHECK(to_chars(out.data(), out.data() + 4, 10922, q15, places{2}).ptr == out.data() + 4);
  CHECK(to_chars(out.data(), out.data() + 7, 40000, q15).ec == errc::bad_bits);
  CHECK(to_chars(out.data(), out.data() + 7, 1, q15, places{65}).ec == errc::bad_places);
  CHECK(to_chars(nullptr, nullptr, q15).ec == errc::no_room);
}

void strings_own_their_texts() {
  CHECK(to_string(q15) == "I1F15" && to_string(10922, q15) == "0.3333" && to_string(10922, q15, places{4}) == "0.3333");
  CHECK(to_string(~std::uint64_t{0}, u64f0) == "18446744073709551615");
  style how;
  how.notation = notation::lower_hex;
  how.prefix = how.plus = true;
  how.width = 12;
  how.fill = U'\u00e9';
  CHECK(to_string(-16384, q15, how) == "\u00e9\u00e9\u00e9\u00e9\u00e9\u00e9-0x0.8");
  how.width = 65535;
  CHECK(to_string(1, q15, how).size() == 65535 + 65535 - std::string("+0x0.0002").size());
  try {
    to_string(1, q15, places{65});
    CHECK(false);
  } catch (const std::system_error& error) {
    CHECK(error.code() == errc::bad_places && std::string(error.what()).find("too many places") != std::string::npos);
  }
}

void codes_are_error_codes() {
  const std::error_code code = read("1.5.2", q15).ec;
  CHECK(code == errc::too_many_points && code.message() == "more than one point found in string");
  CHECK(std::string(code.category().name()) == "fixed" && code == std::errc::invalid_argument && code);
  CHECK(make_error_code(read("1", q15).ec) == std::errc::result_out_of_range);
  CHECK(make_error_code(errc::no_room) == std::errc::value_too_large);
  CHECK(!make_error_code(read("0.5", q15).ec) && make_error_code(errc{}).message() == "done");
}

void numbers_are_in_the_order_of_their_values() {
  const number half = read("0.5", q15).value, most = read("0.75", "U0F8"_format).value;
  CHECK(half < most && most > half && half != most && half <= most && !(half >= most) && lomdeqash::compare(half, half) == 0);
  CHECK(convert(most, q15, policy::checked, mode::floor).value == most);
  const auto [low, high, ec] = enclose("0.1", q15);
  CHECK(ec == errc{} && low.bits() == 3276 && high.bits() == 3277 && !enclose("2", q15));
  CHECK(round(read("2.5", "I4F4"_format).value, rounding::ties_even).value == read("2", "I4F4"_format).value);
}

void rows_are_spans() {
  const char rows[] = {'0', '.', '5', 0, '-', '1', 0, 0, '0', ',', '5', 0};
  std::array<fixed_number, 3> out{};
  std::vector<std::uint32_t> codes(3);
  const auto read_in = read_rows(rows, 4, q15, out, codes);
  CHECK(read_in && read_in.refused == 1 && errc{codes[2]} == errc::invalid_digit && codes[0] == 0);
  CHECK(number::of_row(out[0], q15) == number::make(16384, q15) && out[1].bits == -32768);
  CHECK(read_rows(rows, 5, q15, out, codes).ec == errc::bad_rows);
  const std::vector<std::int64_t> bits = {16384, 40000, 3277};
  std::array<char, 12> texts{};
  CHECK(print_rows(bits, q15, texts, 4, codes).refused == 1 && std::memcmp(texts.data(), "0.5\0\0\0\0\0000.1\0", 12) == 0);
  CHECK(errc{codes[1]} == errc::bad_bits);
  CHECK(convert_rows(span<const std::int64_t>(bits.data(), 1), q15, "U0F8"_format, policy::checked, mode::floor,
                     span<fixed_number>(out.data(), 1), span<std::uint32_t>(codes.data(), 1)) && out[0].bits == 128);
}

}  // namespace

int main() {
  reading_ends_after_the_numeral();
  a_text_may_fill_its_buffer();
  strings_own_their_texts();
  codes_are_error_codes();
  numbers_are_in_the_order_of_their_values();
  rows_are_spans();
}
