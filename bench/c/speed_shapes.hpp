// What bench/c/speed times: random geometries of a shape, one by one and as a column. They are the same in each run.
#ifndef SPEED_SHAPES_HPP
#define SPEED_SHAPES_HPP

#include "wkb.hpp"

#include <algorithm>
#include <cstdlib>
#include <cstring>
#include <limits>
#include <random>

namespace speed {

constexpr std::size_t ROWS = 1000;
constexpr wkb_options BIG = {WKB_ORDER_BIG, WKB_FORM_ISO, 0};
constexpr wkb_options LITTLE = {WKB_ORDER_LITTLE, WKB_FORM_ISO, 0};
using row = std::vector<std::byte>;

inline std::mt19937_64 random_numbers(7);

// The encoding of a geometry that is one, by a call that throws nothing: an earlier library needs no texts of faults.
inline row written(const row &input, const wkb_options &options) {
  row out;
  if (!wkb::try_write(input, options, out)) std::abort();
  return out;
}

inline void put(row &out, std::uint32_t number) {
  for (int k = 0; k < 4; k++) out.push_back(static_cast<std::byte>(number >> 8 * k));
}

inline void put_words(row &out, std::uint32_t count) {
  for (std::uint32_t i = 0; i < count; i++) {
    const double number = static_cast<double>(random_numbers() % 360000000) / 1e6 - 180;
    std::byte bytes[8];
    std::memcpy(bytes, &number, sizeof bytes);
    out.insert(out.end(), bytes, bytes + 8);
  }
}

inline row header(wkb_kind kind, wkb_dim dimension = WKB_DIM_XY) {
  row out{std::byte{WKB_ORDER_LITTLE}};
  put(out, 1000 * dimension + kind);
  return out;
}

inline row point(wkb_dim dimension = WKB_DIM_XY) {
  row out = header(WKB_KIND_POINT, dimension);
  put_words(out, static_cast<std::uint32_t>(wkb::width_of(dimension)));
  return out;
}

inline row line(std::uint32_t count, wkb_dim dimension = WKB_DIM_XY) {
  row out = header(WKB_KIND_LINE_STRING, dimension);
  put(out, count);
  put_words(out, static_cast<std::uint32_t>(wkb::width_of(dimension)) * count);
  return out;
}

// A ring ends as it begins, as GEOS asks.
inline row polygon(std::uint32_t rings, std::uint32_t count) {
  row out = header(WKB_KIND_POLYGON);
  put(out, rings);
  for (std::uint32_t i = 0; i < rings; i++) {
    put(out, count);
    put_words(out, 2 * count);
    std::copy_n(out.end() - 16 * static_cast<std::ptrdiff_t>(count), 16, out.end() - 16);
  }
  return out;
}

inline row geometry_of(wkb_kind kind, const std::vector<row> &members) {
  row out = header(kind);
  put(out, static_cast<std::uint32_t>(members.size()));
  for (const row &it : members) out.insert(out.end(), it.begin(), it.end());
  return out;
}

template <typename Make>
row geometry_of(wkb_kind kind, std::size_t count, const Make &make) {
  std::vector<row> members(count);
  std::generate(members.begin(), members.end(), make);
  return geometry_of(kind, members);
}

// Makes a word of a line string a NaN.
inline void put_nan(row &line_string, std::size_t word) {
  const double nan = std::numeric_limits<double>::quiet_NaN();
  std::memcpy(&line_string[9 + 8 * word], &nan, sizeof nan);
}

inline row line_with_nan() {
  row out = line(100);
  put_nan(out, random_numbers() % 200);
  return out;
}

inline row line_without_z_and_m() {
  row out = line(10, WKB_DIM_XYZM);
  for (std::size_t i = 0; i < 10; i++) put_nan(out, 4 * i + 2), put_nan(out, 4 * i + 3);
  return out;
}

struct shape {
  const char *name;
  row (*make)();
  bool has_levels = true;
};

const shape SHAPES[] = {
    {"point", [] { return point(); }},
    {"point with z", [] { return point(WKB_DIM_XYZ); }},
    {"line of 10", [] { return line(10); }},
    {"line of 10 with z", [] { return line(10, WKB_DIM_XYZ); }},
    {"line of 100", [] { return line(100); }},
    {"polygon of 5", [] { return polygon(1, 5); }},
    {"polygon of 20", [] { return polygon(1, 20); }},
    {"polygon of 2 x 12", [] { return polygon(2, 12); }},
    {"multi polygon of 5 x 12", [] { return geometry_of(WKB_KIND_MULTI_POLYGON, 5, [] { return polygon(1, 12); }); }},
    {"multi polygon of 1 x 5", [] { return geometry_of(WKB_KIND_MULTI_POLYGON, {polygon(1, 5)}); }},
    {"multi point of 50", [] { return geometry_of(WKB_KIND_MULTI_POINT, 50, [] { return point(); }); }},
    {"collection of 4",
     [] { return geometry_of(WKB_KIND_GEOMETRY_COLLECTION, {point(), line(10), polygon(1, 5), point()}); }, false},
    {"line of 100, one NaN", line_with_nan},
    {"line of 10, z and m NaN", line_without_z_and_m},
};

inline std::vector<row> rows_of(const shape &of) {
  std::vector<row> rows(ROWS);
  std::generate(rows.begin(), rows.end(), of.make);
  for (const row &input : rows)
    if (!wkb::check(input)) std::exit(1);
  return rows;
}

// All rows of a shape, one by one and as a column, with rooms for what the calls write.
struct whole_column {
  std::vector<row> rows;
  std::vector<std::byte> data;
  std::vector<std::int64_t> offsets{0};
  std::vector<std::uint8_t> statuses;
  std::vector<std::uint64_t> ends;
  std::vector<wkb_box> boxes;
  std::vector<wkb_found> found;
  std::vector<wkb_part> parts;
  std::vector<std::byte> out;
  wkb::row_coordinates levels;
  wkb_kind kind;
  wkb_dim dimension;
  wkb_column raw;

  explicit whole_column(const std::vector<row> &of)
      : rows(of), statuses(of.size()), ends(of.size()), boxes(of.size()), found(of.size()) {
    const wkb_found first = *wkb::check(rows[0]);
    kind = static_cast<wkb_kind>(first.kind);
    dimension = static_cast<wkb_dim>(first.dimension);
    for (const row &it : rows) {
      data.insert(data.end(), it.begin(), it.end());
      offsets.push_back(static_cast<std::int64_t>(data.size()));
    }
    raw = wkb::column(data, offsets);
    parts.resize(wkb_column_parts(&raw, nullptr, 0, ends.data(), statuses.data()));
    out.resize(data.size());
    levels = wkb::coordinates_of_rows(raw, dimension);
  }
};

// The rooms for coordinates that a column has, as C has them.
inline wkb_coordinates rooms_of(wkb::row_coordinates &to) {
  return {to.words.data(), to.words.size(), to.ring_ends.data(), to.ring_ends.size(),
          to.single_ends.data(), to.single_ends.size(), to.row_ends.data(), 0, 0, 0};
}

}  // namespace speed

#endif
