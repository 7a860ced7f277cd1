// What the tests of wkb.hpp share.
#ifndef TEST_HPP_H
#define TEST_HPP_H

#include "wkb_facts.hpp"

#include <cmath>
#include <cstdio>
#include <cstdlib>
#include <cstring>
#include <string>
#include <string_view>
#include <vector>

using input = std::vector<std::byte>;
constexpr wkb_options BIG{WKB_ORDER_BIG, WKB_FORM_ISO, 0};

// Prints what is wrong, and ends.
inline void expect(bool holds, std::string_view what) {
  if (holds) return;
  std::printf("wrong: %.*s\n", static_cast<int>(what.size()), what.data());
  std::exit(1);
}

// The bytes that a text spells in hex.
inline input spelled(const std::string &text) {
  input bytes;
  for (std::size_t i = 0; i + 1 < text.size(); i += 2)
    bytes.push_back(static_cast<std::byte>(std::stoul(text.substr(i, 2), nullptr, 16)));
  return bytes;
}

template <typename Record>
bool is_same(const Record &a, const Record &b) {
  return std::memcmp(&a, &b, sizeof a) == 0;
}

template <typename A, typename B>
bool are_same(const A &a, const B &b) {
  return std::ranges::equal(std::as_bytes(std::span(a)), std::as_bytes(std::span(b)));
}

inline const std::string ONE_AND_TWO = "000000000000f03f0000000000000040", POINT_TEXT = "0101000000" + ONE_AND_TWO;
inline const input POINT = spelled("0101000020e6100000" + ONE_AND_TWO);
// A big endian multi polygon: one polygon without rings, one with a ring of one coordinate and an empty ring.
inline const input POLYGONS = spelled(
    "000000000600000002"
    "000000000300000000"
    "000000000300000002" "00000001" "3ff00000000000004000000000000000" "00000000");

// Rows as a column.
template <typename Offset = std::int32_t>
struct filled {
  input data{};
  std::vector<Offset> offsets{0};

  filled(const auto &...rows) { (add(spelled(rows)), ...); }
  void add(const input &it) {
    data.insert(data.end(), it.begin(), it.end());
    offsets.push_back(static_cast<Offset>(data.size()));
  }
  wkb_column column(const void *bits = nullptr, std::size_t begin = 0) const {
    return wkb::column(data, offsets, bits, begin);
  }
};

#endif
