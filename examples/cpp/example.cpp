// Reads the taps of a filter, such as "0.25, -0.5, .1", into Q15, and prints them as an initializer with what each is.
#include <cstdint>
#include <iostream>
#include <string>
#include <string_view>
#include <system_error>
#include <vector>

#include "fixed.hpp"

namespace {

using namespace lomdeqash::literals;

constexpr auto q15 = "Q15"_format;

// Numerals with commas and blanks between them. What is not in range becomes the nearer end.
std::vector<std::int16_t> taps_of(std::string_view text) {
  std::vector<std::int16_t> taps;
  const char* at = text.data();
  const char* const end = at + text.size();
  while (true) {
    while (at != end && (*at == ' ' || *at == ',')) ++at;
    if (at == end) return taps;
    std::int16_t tap{};
    const auto [next, error, overflowed] =
        lomdeqash::from_chars(at, end, tap, q15, lomdeqash::radix::decimal, lomdeqash::policy::saturating);
    if (error != lomdeqash::errc{}) throw std::system_error(error, std::string(at, end));
    if (overflowed) std::cerr << std::string(at, next) << " is not in range\n";
    taps.push_back(tap);
    at = next;
  }
}

}  // namespace

int main(int argc, char** argv) {
  try {
    for (const std::int16_t tap : taps_of(argc > 1 ? argv[1] : "0.25, -0.5, .1, 3e-3"))
      std::cout << tap << ",  // " << lomdeqash::to_string(tap, q15) << '\n';
  } catch (const std::system_error& error) {
    std::cout << error.what() << '\n';
    return 1;
  }
}
