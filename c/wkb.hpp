// SPDX-License-Identifier: MIT OR Apache-2.0
// A C++20 wrapper of wkb.h: spans, optionals, exceptions, and ranges over the parts of a geometry. Header only. Nothing
// in it is proved. Coordinates are copied only on request. A rejected input is an exception; the try_ calls and check
// return an empty optional or false instead, at about 1 % of the cost.
//
// The input must not change during a call, by another thread or another process either: before the call, copy a
// mapped file that others may write. The output must not overlap the input.
//
// Only vectors and exceptions allocate. If an allocation fails, the call throws std::bad_alloc: a reader's table is
// then empty, and all else is unchanged. Without exceptions (-fno-exceptions) the program aborts there, as with any
// vector, and the calls that throw refused are not declared. These allocate nothing: check, try_bounds, try_same,
// try_write and try_read into spans, column, and each call of a part but words.
#ifndef WKB_HPP
#define WKB_HPP

#if __cplusplus <= 201703L
#error "wkb.hpp needs C++20 (-std=c++20); wkb.h is for C and for any C++"
#else

#include "wkb.h"

#include <algorithm>
#include <concepts>
#include <cstddef>
#include <cstdint>
#include <iterator>
#include <optional>
#include <ranges>
#include <span>
#include <utility>
#include <vector>
#ifdef __cpp_exceptions
#include <stdexcept>
#include <string>
#endif

namespace wkb {

// The bytes of an input. For a vector of another byte type this is std::as_bytes(std::span(vector)).
using bytes = std::span<const std::byte>;

// Tells clang that a result refers to an argument or to the object, so that it warns of results that outlive it.
#ifdef __clang__
#define WKB_LIFETIMEBOUND [[clang::lifetimebound]]
#else
#define WKB_LIFETIMEBOUND
#endif

namespace detail {

// Returns whether a call succeeded. If not, FAULT becomes FOUND with the status, unless it is null.
inline bool accepted(wkb_status status, wkb_fault &found, wkb_fault *fault) noexcept {
  if (status == WKB_STATUS_OK) return true;
  found.status = status;
  if (fault != nullptr) *fault = found;
  return false;
}

// Bytes that end with the call. What refers to them would be left without them, so such a call isn't compiled.
template <typename Input> concept ending = !std::ranges::borrowed_range<Input> && std::convertible_to<Input, bytes>;

}  // namespace detail

// Returns the geometry at the start of the input, or nothing if it is rejected. FAULT then says why, unless it is null.
[[nodiscard]] inline std::optional<wkb_found> check(bytes input, wkb_fault *fault = nullptr) noexcept {
  wkb_found found;
  if (wkb_check(input.data(), input.size(), &found, fault) != WKB_STATUS_OK) return std::nullopt;
  return found;
}

// Returns the bounds of the input's geometry, or nothing if it is rejected. FAULT then says why, unless it is null.
[[nodiscard]] inline std::optional<wkb_box> try_bounds(bytes input, wkb_fault *fault = nullptr) noexcept {
  wkb_box box;
  if (wkb_bounds(input.data(), input.size(), &box, fault) != WKB_STATUS_OK) return std::nullopt;
  return box;
}

// Writes the encoding of the input's geometry under the options to the start of OUT, and returns its length. If the
// input is rejected, the options are invalid or OUT is too small, it returns nothing, OUT is unchanged, and FAULT says
// why, unless it is null. An OUT that is four bytes longer than the input is never too small.
[[nodiscard]] inline std::optional<std::size_t> try_write(bytes input, const wkb_options &options,
                                                          std::span<std::byte> out,
                                                          wkb_fault *fault = nullptr) noexcept {
  std::size_t size = 0;
  wkb_fault found{};
  const wkb_status status = wkb_write(input.data(), input.size(), &options, out.data(), out.size(), &size, &found);
  if (!detail::accepted(status, found, fault)) return std::nullopt;
  return size;
}

// Replaces the contents of OUT by the encoding of the input's geometry under the options, and returns true. If the
// input is rejected or the options are invalid, it returns false, OUT is unchanged, and FAULT says why, unless it is
// null. It doesn't allocate if OUT has capacity for four bytes more than the input.
[[nodiscard]] inline bool try_write(bytes input, const wkb_options &options, std::vector<std::byte> &out,
                                    wkb_fault *fault = nullptr) {
  // No encoding is longer than its geometry and an SRID. Of a long input the geometry may be a small part.
  constexpr std::size_t LONG = 1 << 16, SRID_SIZE = 4;
  const std::size_t before = out.size();
  std::size_t most = input.size();
  if (most > LONG) {
    const auto found = check(input);
    most = found ? found->size : 0;
  }
  out.resize((std::max)(before, most + SRID_SIZE));
  const auto size = try_write(input, options, std::span(out), fault);
  out.resize(size.value_or(before));
  return size.has_value();
}

// Returns whether the geometries of both inputs are equal, or nothing if one is rejected. FAULT then says why, and
// WHICH is 1 for the first input, 2 for the second, unless they are null.
[[nodiscard]] inline std::optional<bool> try_same(bytes a, bytes b, wkb_fault *fault = nullptr,
                                                  std::uint32_t *which = nullptr) noexcept {
  std::uint32_t equal = 0;
  if (wkb_same(a.data(), a.size(), b.data(), b.size(), &equal, fault, which) != WKB_STATUS_OK) return std::nullopt;
  return equal != 0;
}

#ifdef __cpp_exceptions

// Reports a rejected input: the error, and the part with it.
class refused : public std::runtime_error {
 public:
  explicit refused(const wkb_fault &fault) : std::runtime_error(text_of(fault)), fault_(fault) {}

  wkb_status status() const noexcept { return fault_.status; }
  const wkb_fault &fault() const noexcept { return fault_; }

 private:
  static std::string text_of(const wkb_fault &fault) {
    char text[WKB_FAULT_TEXT_ROOM];
    wkb_fault_text(&fault, text, sizeof text);
    return text;
  }

  wkb_fault fault_;
};

// Reports that one of the two inputs of `same` is rejected.
class refused_of_two : public refused {
 public:
  refused_of_two(const wkb_fault &fault, std::uint32_t which) : refused(fault), which_(which) {}

  // 1 for the first input, 2 for the second.
  std::uint32_t which() const noexcept { return which_; }

 private:
  std::uint32_t which_;
};

// Returns the bounds of the input's geometry. Throws refused.
inline wkb_box bounds(bytes input) {
  wkb_fault fault;
  const auto box = try_bounds(input, &fault);
  if (!box) throw refused(fault);
  return *box;
}

// Replaces the contents of OUT by the encoding of the input's geometry under the options, as try_write does. Throws
// refused, and std::invalid_argument for invalid options; OUT is then unchanged.
inline void write(bytes input, const wkb_options &options, std::vector<std::byte> &out) {
  wkb_fault fault;
  if (try_write(input, options, out, &fault)) return;
  if (!wkb_status_is_refusal(fault.status)) throw std::invalid_argument(wkb_status_text(fault.status));
  throw refused(fault);
}

// Returns the encoding of the input's geometry under the options. Throws as the call above.
inline std::vector<std::byte> write(bytes input, const wkb_options &options) {
  std::vector<std::byte> out;
  write(input, options, out);
  return out;
}

// Returns whether the geometries of both inputs are equal. Throws refused_of_two.
inline bool same(bytes a, bytes b) {
  std::uint32_t which = 0;
  wkb_fault fault;
  const auto equal = try_same(a, b, &fault, &which);
  if (!equal) throw refused_of_two(fault, which);
  return *equal;
}

#endif  // __cpp_exceptions

// A geometry, or a ring of a polygon; a range of its own rings or members. It is valid as long as its input and its
// table are there and unchanged: the table of a reader until that reads again.
class part {
 public:
  class iterator;

  wkb_kind kind() const noexcept { return entry_->kind; }
  wkb_dim dimension() const noexcept { return entry_->dimension; }
  wkb_order order() const noexcept { return entry_->order; }
  // Returns the ordinates of a coordinate: 2, 3 or 4.
  unsigned width() const noexcept { return entry_->width; }
  // Returns how many coordinates, rings or members it has.
  std::size_t size() const noexcept { return entry_->count; }
  bool empty() const noexcept { return size() == 0; }
  // Returns its own SRID.
  std::optional<std::uint32_t> srid() const noexcept {
    return entry_->has_srid == 0 ? std::nullopt : std::optional<std::uint32_t>(entry_->srid);
  }
  // Returns its own bytes, which for a geometry are a well-formed input.
  bytes encoding() const noexcept { return {input_ + entry_->begin, input_ + entry_->end}; }
  // Returns its entry in the table.
  const wkb_part &entry() const noexcept { return *entry_; }

  // Returns whether it has coordinates: a point, a line string or a ring. The calls below are for these.
  bool has_coordinates() const noexcept { return kind() <= WKB_KIND_LINE_STRING; }
  // Returns ordinate N of coordinate I, for I below size() and N below width().
  double word(std::size_t i, unsigned n) const noexcept { return wkb_word(input_, entry_, i, n); }
  // Copies the ordinates of as many coordinates as OUT can hold, from FIRST on, and returns how many these are.
  std::size_t copy(std::span<double> out, std::size_t first = 0) const noexcept {
    std::size_t count = first < size() ? (std::min)(size() - first, out.size() / width()) : 0;
    wkb_words(input_, entry_, first, count, out.data());
    return count;
  }
  // Returns all ordinates, one coordinate after another.
  std::vector<double> words() const {
    std::vector<double> out(size() * width());
    copy(out);
    return out;
  }

  iterator begin() const noexcept;
  iterator end() const noexcept;

 private:
  friend class reader;
  friend std::optional<part> try_read(bytes input, std::span<wkb_part> table, wkb_fault *fault) noexcept;
  part() = default;
  part(const std::byte *input, const wkb_part *table, const wkb_part *entry) noexcept
      : input_(input), table_(table), entry_(entry) {}

  const std::byte *input_ = nullptr;
  const wkb_part *table_ = nullptr;
  const wkb_part *entry_ = nullptr;
};

// Iterates over the rings or members of a part.
class part::iterator {
 public:
  using value_type = part;
  using difference_type = std::ptrdiff_t;
  using iterator_concept = std::forward_iterator_tag;
  using iterator_category = std::input_iterator_tag;

  iterator() = default;

  part operator*() const noexcept { return at_; }
  // The next part is at the end of this one's own.
  iterator &operator++() noexcept { return *this = at_.end(); }
  iterator operator++(int) noexcept { return std::exchange(*this, at_.end()); }
  bool operator==(const iterator &other) const noexcept { return at_.entry_ == other.at_.entry_; }

 private:
  friend class part;
  explicit iterator(const part &at) noexcept : at_(at) {}

  part at_{};
};

// The next entry is that of the first ring or member, or the end if there is none.
inline part::iterator part::begin() const noexcept { return iterator({input_, table_, entry_ + 1}); }
inline part::iterator part::end() const noexcept { return iterator({input_, table_, table_ + entry_->next}); }

// Reads the input's geometry into the start of TABLE, which takes as many entries as check finds parts. If the input is
// rejected or TABLE is too small, it returns nothing, TABLE is unchanged, and FAULT says why, unless it is null.
[[nodiscard]] inline std::optional<part> try_read(bytes input, std::span<wkb_part> table,
                                                  wkb_fault *fault = nullptr) noexcept {
  std::size_t count = 0;
  wkb_fault found{};
  const wkb_status status = wkb_parts(input.data(), input.size(), table.data(), table.size(), &count, &found);
  if (!detail::accepted(status, found, fault)) return std::nullopt;
  return part(input.data(), table.data(), table.data());
}
template <detail::ending Input, typename... Others> void try_read(Input &&, Others &&...) = delete;

// Reads one input after another into one table, so that a scan stops allocating once the table has grown.
class reader {
 public:
  // Returns the input's geometry, or nothing if it is rejected. FAULT then says why, unless it is null.
  [[nodiscard]] std::optional<part> try_read(bytes input WKB_LIFETIMEBOUND,
                                             wkb_fault *fault = nullptr) WKB_LIFETIMEBOUND {
    count_ = 0;
    std::size_t count = 0;
    wkb_fault found{};
    auto fill = [&] { return wkb_parts(input.data(), input.size(), table_.data(), table_.size(), &count, &found); };
    wkb_status status = fill();
    if (status == WKB_STATUS_NO_ROOM) {
      table_.resize(count);
      status = fill();
    }
    if (!detail::accepted(status, found, fault)) return std::nullopt;
    count_ = count;
    return part(input.data(), table_.data(), table_.data());
  }
  template <detail::ending Input> void try_read(Input &&, wkb_fault * = nullptr) = delete;

#ifdef __cpp_exceptions
  // Returns the input's geometry. Throws refused.
  part read(bytes input WKB_LIFETIMEBOUND) WKB_LIFETIMEBOUND {
    wkb_fault fault;
    const auto whole = try_read(input, &fault);
    if (!whole) throw refused(fault);
    return *whole;
  }
  template <detail::ending Input> void read(Input &&) = delete;
#endif

  // The table of the input that was read last, in preorder; empty if that was rejected, and in a reader moved from.
  std::span<const wkb_part> table() const noexcept WKB_LIFETIMEBOUND {
    return {table_.data(), (std::min)(count_, table_.size())};
  }

 private:
  std::vector<wkb_part> table_{};
  std::size_t count_ = 0;
};

// A column as Arrow has it, with one offset more than it has rows. VALIDITY is null if no row is null.
template <std::ranges::contiguous_range Offsets, typename It = std::ranges::range_value_t<Offsets>>
  requires std::ranges::borrowed_range<Offsets> && (std::same_as<It, std::int32_t> || std::same_as<It, std::int64_t>)
wkb_column column(bytes data, Offsets &&offsets, const void *validity = nullptr,
                  std::size_t validity_offset = 0) noexcept {
  const std::span<const It> all(offsets);
  return {data.data(), data.size(), all.data(), sizeof(It), validity, validity_offset,
          all.empty() ? 0 : all.size() - 1};
}
template <detail::ending Data, typename... Others> void column(Data &&, Others &&...) = delete;

// The status of each row. No row stops the others, nor makes one of these calls throw.
using statuses = std::vector<std::uint8_t>;

[[nodiscard]] inline statuses check_rows(const wkb_column &column) {
  statuses found(column.rows);
  wkb_column_check(&column, found.data());
  return found;
}

// The result of wkb_column_found: an entry for each row, all zeros if its status isn't WKB_STATUS_OK.
struct row_found {
  wkb::statuses statuses;
  std::vector<wkb_found> found;
};

[[nodiscard]] inline row_found found_of_rows(const wkb_column &column) {
  row_found it{statuses(column.rows), std::vector<wkb_found>(column.rows)};
  wkb_column_found(&column, it.found.data(), it.statuses.data());
  return it;
}

// The bounds of each row; a row without bounds has those of a geometry without coordinates.
struct row_bounds {
  wkb::statuses statuses;
  std::vector<wkb_box> boxes;
};

[[nodiscard]] inline row_bounds bounds_of_rows(const wkb_column &column) {
  row_bounds it{statuses(column.rows), std::vector<wkb_box>(column.rows)};
  wkb_column_bounds(&column, it.boxes.data(), it.statuses.data());
  return it;
}

// The tables of all rows, one after another. That of row i ends at ends[i].
struct row_parts {
  wkb::statuses statuses;
  std::vector<std::uint64_t> ends;
  std::vector<wkb_part> parts;
};

[[nodiscard]] inline row_parts parts_of_rows(const wkb_column &column) {
  row_parts it{statuses(column.rows), std::vector<std::uint64_t>(column.rows), {}};
  it.parts.resize(wkb_column_parts(&column, nullptr, 0, it.ends.data(), it.statuses.data()));
  it.parts.resize(wkb_column_parts(&column, it.parts.data(), it.parts.size(), it.ends.data(), it.statuses.data()));
  return it;
}

// The encodings of all rows, one after another. That of row i ends at ends[i].
struct row_encodings {
  wkb::statuses statuses;
  std::vector<std::uint64_t> ends;
  std::vector<std::byte> data;
};

[[nodiscard]] inline row_encodings write_rows(const wkb_column &column, const wkb_options &options) {
  row_encodings it{statuses(column.rows), std::vector<std::uint64_t>(column.rows), {}};
  it.data.resize(wkb_column_write(&column, &options, nullptr, 0, it.ends.data(), it.statuses.data()));
  it.data.resize(
      wkb_column_write(&column, &options, it.data.data(), it.data.size(), it.ends.data(), it.statuses.data()));
  return it;
}

// Replaces what OUT holds by the encoding under the options of the geometry of a kind and a dimension whose members are
// the rows, and returns true. If a row can't be a member, it returns false, OUT is unchanged, FAULT says why and ROW
// which row it is, unless they are null. So it does if the kind, the dimension or the options are invalid, or there are
// 2^32 rows or more; ROW is then unchanged.
[[nodiscard]] inline bool try_collect(const wkb_column &column, wkb_kind kind, wkb_dim dimension,
                                      const wkb_options &options, std::vector<std::byte> &out,
                                      wkb_fault *fault = nullptr, std::size_t *row = nullptr) {
  std::size_t size = 0;
  wkb_fault found{};
  const auto put = [&](std::byte *to, std::size_t room) {
    return wkb_collect(&column, kind, dimension, &options, to, room, &size, &found, row);
  };
  wkb_status status = put(nullptr, 0);
  if (status == WKB_STATUS_NO_ROOM) {
    out.resize(size);
    status = put(out.data(), size);
  }
  return detail::accepted(status, found, fault);
}

#ifdef __cpp_exceptions

// Reports that a row can't be a member.
class refused_row : public refused {
 public:
  refused_row(const wkb_fault &fault, std::size_t row) : refused(fault), row_(row) {}

  std::size_t row() const noexcept { return row_; }

 private:
  std::size_t row_;
};

// Returns the encoding under the options of the geometry of this kind and dimension whose members are the rows. Throws
// refused_row, and std::invalid_argument for an invalid kind, dimension or option and for 2^32 rows or more.
inline std::vector<std::byte> collect(const wkb_column &column, wkb_kind kind, wkb_dim dimension,
                                      const wkb_options &options) {
  std::vector<std::byte> out;
  std::size_t row = 0;
  wkb_fault fault;
  if (try_collect(column, kind, dimension, options, out, &fault, &row)) return out;
  if (wkb_status_is_failure(fault.status)) throw std::invalid_argument(wkb_status_text(fault.status));
  throw refused_row(fault, row);
}

#endif  // __cpp_exceptions

// The coordinates of all rows, in the levels of wkb_coordinates, which explains how to make GeoArrow's offsets of
// each kind from these ends.
struct row_coordinates {
  wkb::statuses statuses;
  std::vector<std::uint64_t> row_ends, single_ends, ring_ends;
  std::vector<double> words;
};

// Returns the number of ordinates in a dimension.
inline std::size_t width_of(wkb_dim dimension) noexcept {
  return dimension == WKB_DIM_XY ? 2 : dimension == WKB_DIM_XYZM ? 4 : 3;
}

// Returns the coordinates of all rows, with the ordinates of DIMENSION.
[[nodiscard]] inline row_coordinates coordinates_of_rows(const wkb_column &column, wkb_dim dimension) {
  row_coordinates it{statuses(column.rows), std::vector<std::uint64_t>(column.rows), {}, {}, {}};
  wkb_coordinates out{};
  out.row_ends = it.row_ends.data();
  wkb_column_coordinates(&column, dimension, &out, it.statuses.data());
  it.words.resize(width_of(dimension) * out.coordinates);
  it.ring_ends.resize(out.rings), it.single_ends.resize(out.singles);
  out.words = it.words.data(), out.words_room = it.words.size();
  out.ring_ends = it.ring_ends.data(), out.ring_room = it.ring_ends.size();
  out.single_ends = it.single_ends.data(), out.single_room = it.single_ends.size();
  wkb_column_coordinates(&column, dimension, &out, it.statuses.data());
  return it;
}

// Your own coordinates, in the levels of wkb_levels, which explains GeoArrow's offsets of each kind. A level without
// ends has one item for each of the next, as GeoArrow's points have; a level with ends has as many items as ends.
struct levels {
  std::span<const double> words;
  std::optional<std::span<const std::uint64_t>> ring_ends{}, single_ends{}, row_ends{};
  const void *validity = nullptr;
  std::size_t validity_offset = 0;
};

// Returns the encodings of rows of one kind and one dimension. Clear the validity bits of rejected rows and of
// collections, for which wkb_column_from_coordinates() says what it writes otherwise. If the words are no whole number
// of coordinates, each row that isn't null is WKB_STATUS_BAD_LEVELS; a level without ends has an item for the rest of
// them as well.
[[nodiscard]] inline row_encodings rows_from_coordinates(const levels &from, wkb_kind kind, wkb_dim dimension,
                                                         const wkb_options &options) {
  const auto items = [](const auto &ends, std::size_t below) { return ends ? ends->size() : below; };
  const auto data = [](const auto &ends) { return ends ? ends->data() : nullptr; };
  const std::size_t width = width_of(dimension), rest = from.words.size() % width;
  const std::size_t rings = items(from.ring_ends, from.words.size() / width + (rest != 0));
  const std::size_t singles = items(from.single_ends, rings), rows = items(from.row_ends, singles);
  wkb_levels raw{from.words.data(),      from.words.size(), data(from.ring_ends), rings,
                 data(from.single_ends), singles,           data(from.row_ends),  rows,
                 from.validity,          from.validity_offset};
  // Without singles no row fits.
  if (rest != 0) raw.singles = 0, raw.row_ends = nullptr;
  row_encodings it{statuses(rows), std::vector<std::uint64_t>(rows), {}};
  const auto write = [&] {
    return wkb_column_from_coordinates(&raw, kind, dimension, &options, it.data.data(), it.data.size(), it.ends.data(),
                                       it.statuses.data());
  };
  it.data.resize(write());
  write();
  return it;
}

}  // namespace wkb
#undef WKB_LIFETIMEBOUND

template <>
inline constexpr bool std::ranges::enable_borrowed_range<wkb::part> = true;
// A part is copied as cheaply as a span: an adaptor keeps a copy of it, and not a reference to one that may be gone.
template <>
inline constexpr bool std::ranges::enable_view<wkb::part> = true;
// Its size counts coordinates too, so it isn't how far an adaptor may go.
template <>
inline constexpr bool std::ranges::disable_sized_range<wkb::part> = true;

#endif  // C++20
#endif
