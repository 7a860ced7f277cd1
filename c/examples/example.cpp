// Reads a geometry in C++: its bounds, its parts with their words, and why its first half is rejected.
#include "wkb.hpp"

#include <array>
#include <iostream>

static void print(const wkb::part &part, int depth) {
  std::cout << std::string(static_cast<std::size_t>(2 * depth), ' ') << "kind " << part.kind();
  for (double word : part.has_coordinates() ? part.words() : std::vector<double>()) std::cout << ' ' << word;
  std::cout << '\n';
  for (wkb::part member : part) print(member, depth + 1);
}

int main() {
  // A collection of the point (1, 2) and of a polygon with the corners (0, 0), (0, 4) and (3, 0).
  static constexpr std::array<std::uint8_t, 107> data{
      1, 7, 0, 0, 0, 2, 0, 0, 0,                                                              //
      1, 1, 0, 0, 0, 0, 0, 0, 0, 0, 0, 0xf0, 0x3f, 0, 0, 0, 0, 0, 0, 0, 0x40,                 //
      1, 3, 0, 0, 0, 1, 0, 0, 0, 4, 0, 0, 0,                                                  //
      0, 0, 0, 0, 0, 0, 0, 0, 0, 0, 0, 0, 0, 0, 0, 0,                                         //
      0, 0, 0, 0, 0, 0, 0, 0, 0, 0, 0, 0, 0, 0, 0x10, 0x40,                                   //
      0, 0, 0, 0, 0, 0, 8, 0x40, 0, 0, 0, 0, 0, 0, 0, 0,                                      //
      0, 0, 0, 0, 0, 0, 0, 0, 0, 0, 0, 0, 0, 0, 0, 0};
  const wkb::bytes input = std::as_bytes(std::span(data));
  const wkb_box box = wkb::bounds(input);
  std::cout << "x from " << box.x.least << " to " << box.x.greatest << ", y from " << box.y.least << " to "
            << box.y.greatest << '\n';
  wkb::reader reader;
  print(reader.read(input), 0);
  const auto big = wkb::write(input, {WKB_ORDER_BIG, WKB_FORM_ISO, 0});
  std::cout << big.size() << " bytes, " << (wkb::same(input, big) ? "the same" : "another") << " value\n";
  try {
    reader.read(input.first(50));
  } catch (const wkb::refused &refusal) {
    std::cout << refusal.what() << '\n';
  }
}
