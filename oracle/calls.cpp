// Makes a call a line through fixed.hpp, for wrappers.py: each reply is a code and what the call returned.
#include <cstdio>
#include <cstdlib>
#include <iostream>
#include <sstream>
#include <string>
#include <vector>

#include "fixed.hpp"

namespace {

using namespace lomdeqash;

// A call is refused before it is made, since its argument is no value of its type.
struct refused {
  errc code;
};

class words {
 public:
  explicit words(const std::string& line) : in_(line) {}

  std::string word() {
    std::string it;
    in_ >> it;
    return it;
  }

  std::int64_t integer() { return std::strtoll(word().c_str(), nullptr, 10); }
  std::size_t size() { return static_cast<std::size_t>(integer()); }
  std::uint32_t raw() { return static_cast<std::uint32_t>(integer()); }

  std::string text() {
    const std::string digits = word();
    std::string out;
    for (std::size_t at = 1; at < digits.size(); at += 2)
      out.push_back(static_cast<char>(std::strtoul(digits.substr(at, 2).c_str(), nullptr, 16)));
    return out;
  }

  std::vector<std::int64_t> all_bits() {
    std::vector<std::int64_t> out(size());
    for (auto& it : out) it = integer();
    return out;
  }

  format in(errc code) {
    const bool is_signed = integer() != 0;
    const std::uint32_t width = raw(), frac = raw();
    const auto made = format::make(is_signed, width, frac);
    if (!made) throw refused{code};
    return *made;
  }

  // Radix, policy and mode are tested by a call that refuses nothing else: their codes come before those of what the types
  // of this file refuse.
  radix base() {
    const radix it{raw()};
    if (!read("0", "I8F0"_format, it)) throw refused{errc::bad_radix};
    return it;
  }

  policy range() {
    const policy it{raw()};
    if (!read("0", "I8F0"_format, radix::decimal, it)) throw refused{errc::bad_policy};
    return it;
  }

  mode way() {
    const mode it{raw()};
    if (!read("0", "I8F0"_format, radix::decimal, policy::checked, it)) throw refused{errc::bad_mode};
    return it;
  }

 private:
  std::istringstream in_;
};

std::string hex(std::string_view text) {
  std::string out = "x";
  char digits[3];
  for (const char each : text) {
    std::snprintf(digits, sizeof digits, "%02x", static_cast<unsigned>(static_cast<unsigned char>(each)));
    out += digits;
  }
  return out;
}

number made(std::int64_t bits, format in, errc code) {
  const auto it = in.is_signed() ? number::make(bits, in) : number::make(static_cast<std::uint64_t>(bits), in);
  if (!it) throw refused{code};
  return *it;
}

void need(errc code) {
  if (code != errc{}) throw refused{code};
}

std::string left(const outcome& it) {
  need(it.ec);
  return std::to_string(it.value.bits()) + " " + (it.overflowed ? "1" : "0");
}

// What a call writes into a buffer of just this size; where there is no exception the owning form says the same.
template <class Write, class Own>
std::string written(std::size_t size, Write write, Own own) {
  std::vector<char> out(size + 1, 'z');
  const to_chars_result it = write(out.data(), out.data() + size);
  if (out[size] != 'z') std::abort();
  need(it.ec);
  const std::string text(out.data(), it.ptr);
  if (own() != text) std::abort();
  return hex(text);
}

// Reading a prefix gives what reading the whole gives, where the prefix is the whole.
void same_from_chars(const std::string& text, const outcome& whole, radix base, policy range, mode way) {
  number value(whole.value.get_format());
  const char* first = text.data();
  const auto it = from_chars(first, first + text.size(), value, base, range, way);
  if (whole && (!it || it.ptr != first + text.size() || value.bits() != whole.value.bits() || it.overflowed != whole.overflowed))
    std::abort();
  if (!it && value.bits() != 0) std::abort();
}

std::string format_of(const std::string& word) {
  const auto found = format_named(word);
  if (found != format::parse(word)) std::abort();
  if (!found) throw refused{errc::bad_word};
  return std::to_string(found->is_signed() ? 1 : 0) + " " + std::to_string(found->width()) + " " + std::to_string(found->frac());
}

std::string answered(const std::string& line, std::size_t size) {
  bool is_fault = false;
  std::vector<char> out(size);
  const auto it = answer_line(out.data(), out.data() + size, line, is_fault);
  need(it.ec);
  return hex(std::string_view(out.data(), static_cast<std::size_t>(it.ptr - out.data()))) + (is_fault ? " 1" : " 0");
}

std::string on_text(const std::string& name, words& given) {
  const std::string text = given.text();
  if (name == "format_of_word") return format_of(text);
  if (name == "answer_line") return answered(text, given.size());
  if (name == "read_literal") {
    const format in = given.in(errc::bad_format);
    return left(read_literal(text, in, given.range()));
  }
  const radix base = given.base();
  if (name == "scan_text") {
    const auto it = scan(text.data(), text.data() + text.size(), base);
    need(it.ec);
    return std::to_string(it.ptr - text.data());
  }
  const format in = given.in(errc::bad_format);
  if (name == "enclose_text") {
    const auto it = enclose(text, in, base);
    need(it.ec);
    return std::to_string(it.low.bits()) + " " + std::to_string(it.high.bits());
  }
  if (name == "respell_text") {
    const format target = given.in(errc::bad_target);
    const policy range = given.range();
    return left(read_into(text, in, target, base, range, given.way()));
  }
  const policy range = given.range();
  const mode way = given.way();
  const outcome whole = read(text, in, base, range, way);
  same_from_chars(text, whole, base, range, way);
  return left(whole);
}

style styled(words& given) {
  style it;
  it.notation = notation{given.raw()};
  it.precision = given.raw();
  it.width = given.raw();
  it.fill = static_cast<char32_t>(given.raw());
  it.align = align{given.raw()};
  it.plus = given.raw() != 0;
  it.prefix = given.raw() != 0;
  it.zero_pad = given.raw() != 0;
  return it;
}

std::string on_bits(const std::string& name, words& given) {
  const std::int64_t bits = given.integer();
  const format in = given.in(errc::bad_format);
  if (name == "compare_bits") {
    const std::int64_t other = given.integer();
    const format other_in = given.in(errc::bad_target);
    const number a = made(bits, in, errc::bad_bits);
    return std::to_string(compare(a, made(other, other_in, errc::bad_other_bits)));
  }
  if (name == "round_bits") {
    const auto way = rounding{given.raw()};
    const policy range = given.range();
    return left(round(made(bits, in, errc::bad_bits), way, range));
  }
  if (name == "convert_bits" || name == "convert_bits_mode") {
    const format target = given.in(errc::bad_target);
    const policy range = given.range();
    const mode way = name == "convert_bits" ? mode::floor : given.way();
    return left(convert(made(bits, in, errc::bad_bits), target, range, way));
  }
  if (name == "print_places_mode") {
    const places count{given.raw()};
    const mode way = given.way();
    const number it = made(bits, in, errc::bad_bits);
    return written(given.size(), [&](char* first, char* last) { return to_chars(first, last, it, count, way); },
                   [&] { return to_string(it, count, way); });
  }
  const number it = made(bits, in, errc::bad_bits);
  if (name == "print_bits")
    return written(given.size(), [&](char* first, char* last) { return to_chars(first, last, it); }, [&] { return to_string(it); });
  if (name == "print_places") {
    const places count{given.raw()};
    return written(given.size(), [&](char* first, char* last) { return to_chars(first, last, it, count); },
                   [&] { return to_string(it, count); });
  }
  const style how = styled(given);
  return written(given.size(), [&](char* first, char* last) { return to_chars(first, last, it, how); },
                 [&] { return to_string(it, how); });
}

std::string left(const rows_result& it, const std::vector<fixed_number>& out, const std::vector<std::uint32_t>& codes) {
  need(it.ec);
  std::string reply = std::to_string(it.refused);
  for (const std::uint32_t code : codes) reply += " " + std::to_string(code);
  for (const fixed_number& each : out) reply += " " + std::to_string(each.bits) + " " + std::to_string(each.overflowed);
  return reply;
}

std::string on_rows(const std::string& name, words& given) {
  std::vector<fixed_number> out;
  std::vector<std::uint32_t> codes;
  if (name == "read_rows") {
    const std::string rows = given.text();
    const std::size_t size = given.size();
    const radix base = given.base();
    const format in = given.in(errc::bad_format);
    const policy range = given.range();
    const mode way = given.way();
    out.resize(given.size());
    codes.resize(given.size());
    return left(read_rows(rows, size, in, out, codes, base, range, way), out, codes);
  }
  const std::vector<std::int64_t> bits = given.all_bits();
  const format in = given.in(errc::bad_format);
  if (name == "convert_rows") {
    const format target = given.in(errc::bad_target);
    const policy range = given.range();
    const mode way = given.way();
    out.resize(given.size());
    codes.resize(given.size());
    return left(convert_rows(bits, in, target, range, way, out, codes), out, codes);
  }
  std::vector<char> rows(given.size(), '\xaa');
  const std::size_t size = given.size();
  codes.resize(given.size());
  const auto it = print_rows(bits, in, rows, size, codes);
  need(it.ec);
  const std::string tail = left({0, errc{}}, {}, codes);
  return std::to_string(it.refused) + " " + hex(std::string_view(rows.data(), rows.size())) + tail.substr(1);
}

std::string reply(const std::string& name, words& given) {
  if (name == "message") return hex(category().message(static_cast<int>(given.raw())));
  if (name == "word_of_format") {
    const format it = given.in(errc::bad_format);
    return written(given.size(), [&](char* first, char* last) { return to_chars(first, last, it); }, [&] { return to_string(it); });
  }
  if (name.find("_rows") != std::string::npos) return on_rows(name, given);
  if (name.find("_text") != std::string::npos || name == "read_literal" || name == "format_of_word" || name == "answer_line")
    return on_text(name, given);
  return on_bits(name, given);
}

}  // namespace

int main() {
  for (std::string line; std::getline(std::cin, line);) {
    words given(line);
    const std::string name = given.word();
    try {
      const std::string found = reply(name, given);
      std::cout << "0 " << found << std::endl;
    } catch (const refused& it) {
      std::cout << static_cast<std::uint32_t>(it.code) << std::endl;
    }
  }
}
