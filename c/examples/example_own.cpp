// Encodes coordinates of one's own: a point, two line strings, which are collected into one geometry, and a polygon
// with a hole.
#include "wkb.hpp"

#include <array>
#include <cstdio>

static constexpr wkb_options options{WKB_ORDER_LITTLE, WKB_FORM_ISO, 0};

// Prints the encodings of rows, as hex.
static void print_rows(const wkb::levels &levels, wkb_kind kind) {
  const auto rows = wkb::rows_from_coordinates(levels, kind, WKB_DIM_XY, options);
  std::size_t at = 0;
  for (std::size_t row = 0; row < rows.ends.size(); row++) {
    const wkb_status status = rows.statuses[row];
    std::printf("%s: ", status == WKB_STATUS_OK ? wkb_kind_text(kind) : wkb_status_text(status));
    for (; at < rows.ends[row]; at++) std::printf("%02x", static_cast<unsigned>(rows.data[at]));
    std::printf("\n");
  }
}

// Prints the multi geometry of rows, as hex. Their ends, behind a 0, are the offsets of a column.
static void print_collected(const wkb::levels &levels, wkb_kind kind) {
  const auto rows = wkb::rows_from_coordinates(levels, kind, WKB_DIM_XY, options);
  std::vector<std::int64_t> offsets{0};
  offsets.insert(offsets.end(), rows.ends.begin(), rows.ends.end());
  const wkb_column column = wkb::column(rows.data, offsets);
  std::printf("%s: ", wkb_kind_text(kind + 3));
  for (const std::byte it : wkb::collect(column, kind + 3, WKB_DIM_XY, options))
    std::printf("%02x", static_cast<unsigned>(it));
  std::printf("\n");
}

int main() {
  // A level whose ends are left out has one item for each of the next: one coordinate is one ring, one single, one row.
  const std::array one_two{1.0, 2.0};
  print_rows({.words = one_two}, WKB_KIND_POINT);

  // Two line strings: the first ends after two coordinates, the second after four.
  const std::array two_lines{0.0, 0.0, 1.0, 1.0, 5.0, 5.0, 6.0, 6.0};
  const std::array<std::uint64_t, 2> line_ends{2, 4};
  print_rows({.words = two_lines, .ring_ends = line_ends}, WKB_KIND_LINE_STRING);
  print_collected({.words = two_lines, .ring_ends = line_ends}, WKB_KIND_LINE_STRING);

  // A polygon of two rings: an exterior of five coordinates, and an interior of four.
  const std::array both_rings{0., 0., 9., 0., 9., 9., 0., 9., 0., 0., 1., 1., 2., 2., 1., 2., 1., 1.};
  const std::array<std::uint64_t, 2> ring_ends{5, 9};
  const std::array<std::uint64_t, 1> single_ends{2};
  print_rows({.words = both_rings, .ring_ends = ring_ends, .single_ends = single_ends}, WKB_KIND_POLYGON);
}
