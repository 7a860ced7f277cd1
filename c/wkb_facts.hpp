// SPDX-License-Identifier: MIT OR Apache-2.0
// Summarizes a column: its kinds and dimensions, its SRIDs, and the bounds of all rows together. It is made over
// wkb.hpp, from the entry and the bounds of each row. Nothing in it is proved.
#ifndef WKB_FACTS_HPP
#define WKB_FACTS_HPP

#include "wkb.hpp"

#if __cplusplus > 201703L
#include <array>
#include <cmath>
#include <limits>

namespace wkb {

// The facts of a column. Rows are counted by their status: an accepted row is one whose status is WKB_STATUS_OK, and
// the rest of the facts is about these rows alone.
struct column_facts {
  std::size_t rows = 0, accepted = 0, null_rows = 0, refused = 0;
  // The number of rows of a kind and a dimension, by their numbers: of_kind[WKB_KIND_POINT][WKB_DIM_XYZ].
  std::array<std::array<std::size_t, 4>, 8> of_kind{};
  // The number of rows without an SRID, and the SRIDs of the others, each once and in order. The SRIDs of members
  // don't count.
  std::size_t without_srid = 0;
  std::vector<std::uint32_t> srids{};
  // The bounds of all rows together. An ordinate that no row has has the range of a geometry without coordinates.
  wkb_box box{};
};

namespace detail {

// Returns whether a number is below another, with -0 below +0.
inline bool is_below(double a, double b) noexcept {
  return a < b || (a == b && std::signbit(a) && !std::signbit(b));
}

inline void widen(wkb_range &whole, const wkb_range &by) noexcept {
  if (is_below(by.least, whole.least)) whole.least = by.least;
  if (is_below(whole.greatest, by.greatest)) whole.greatest = by.greatest;
  whole.count += by.count;
}

}  // namespace detail

// Returns the facts of the rows, by the entry and the bounds of each: both of one column.
[[nodiscard]] inline column_facts facts_of(const row_found &found, const row_bounds &bounds) {
  constexpr wkb_range NONE{std::numeric_limits<double>::infinity(), -std::numeric_limits<double>::infinity(), 0};
  column_facts facts;
  facts.rows = found.statuses.size();
  facts.box = {NONE, NONE, NONE, NONE};
  for (std::size_t row = 0; row < facts.rows; row++) {
    const std::uint8_t status = found.statuses[row];
    facts.null_rows += status == WKB_STATUS_NULL_ROW;
    facts.refused += wkb_status_is_refusal(status) != 0;
    if (status != WKB_STATUS_OK) continue;
    facts.accepted++;
    const wkb_found &it = found.found[row];
    facts.of_kind[it.kind][it.dimension]++;
    if (it.has_srid == 0) facts.without_srid++;
    else if (facts.srids.empty() || facts.srids.back() != it.srid) facts.srids.push_back(it.srid);
  }
  // Rows beside each other mostly have one SRID. The others are sorted once, however many there are.
  std::sort(facts.srids.begin(), facts.srids.end());
  facts.srids.erase(std::unique(facts.srids.begin(), facts.srids.end()), facts.srids.end());
  for (const wkb_box &box : bounds.boxes) {
    detail::widen(facts.box.x, box.x), detail::widen(facts.box.y, box.y);
    detail::widen(facts.box.z, box.z), detail::widen(facts.box.m, box.m);
  }
  return facts;
}

// Returns the facts of the rows of a column. It allocates 162 bytes a row meanwhile, and up to 12 more if each has
// its own SRID.
[[nodiscard]] inline column_facts facts_of_rows(const wkb_column &column) {
  return facts_of(found_of_rows(column), bounds_of_rows(column));
}

}  // namespace wkb

#endif  // C++20
#endif
