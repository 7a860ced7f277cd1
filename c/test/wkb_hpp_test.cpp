// Tries wkb.hpp over the inputs of test/lasting.rows: each call beside wkb.h, which test/lasting.c compares with the
// file's answers, and columns of them, with null rows and bad offsets, whose rows come back from their levels. It is
// compiled without exceptions. It prints nothing, and an error if there is one.
#include "hpp.h"

#include <algorithm>
#include <fstream>
#include <tuple>

namespace {

constexpr wkb_fault UNTOLD{7, 7, 7, 7, 7, 7}, NO_ROOM{0, 0, 0, 0, 0, WKB_STATUS_NO_ROOM};
constexpr std::byte KEPT{7};

// A call returns this value and leaves the fault, or returns nothing and tells the fault.
template <typename Value>
void is_as(const std::optional<Value> &found, wkb_fault &told, const Value &value, const wkb_fault &fault,
           const char *call) {
  expect(found.has_value() == is_same(fault, UNTOLD) && (!found || is_same(*found, value)), call);
  expect(is_same(told, fault), call);
  told = UNTOLD;
}

// Under options, of which some are unknown: into a span, into a vector, and into a span that is too small.
void writes(wkb::bytes in, const wkb_options &options) {
  input wanted(in.size() + 4, KEPT), room = wanted, out(7 * in.size() % 64, KEPT);
  const input before = out;
  std::size_t size = 0;
  wkb_fault fault = UNTOLD, told = UNTOLD;
  const wkb_status status = wkb_write(in.data(), in.size(), &options, wanted.data(), wanted.size(), &size, &fault);
  const bool is_good = status == WKB_STATUS_OK;
  if (status == WKB_STATUS_UNKNOWN_OPTION) fault = {0, 0, 0, 0, 0, status};
  is_as(wkb::try_write(in, options, std::span(room), &told), told, size, fault, "try_write into a span");
  expect(room == wanted, "what try_write writes into a span");
  wanted.resize(size);
  expect(wkb::try_write(in, options, out, &told) == is_good && is_same(told, fault), "try_write");
  expect(out == (is_good ? wanted : before), "what try_write writes");
  if (!is_good) return;
  expect(wkb::try_same(in, out) == true, "the same value");
  is_as(wkb::try_write(in, options, std::span(room).first(size - 1), &told), told, size, NO_ROOM, "less room");
}

void copies(wkb::bytes in, const wkb::part &part) {
  const wkb_part &e = part.entry();
  std::vector<double> words(e.count * e.width), each;
  wkb_words(in.data(), &e, 0, e.count, words.data());
  for (std::size_t i = 0; i < words.size(); i++)
    each.push_back(part.word(i / e.width, static_cast<unsigned>(i % e.width)));
  expect(are_same(part.words(), words) && are_same(each, words), "words");
  for (std::size_t room = 0, first = e.count / 2; room <= 2 * e.width; room++) {
    std::vector<double> out(room, -1), expected = out;
    const std::size_t count = std::min<std::size_t>(e.count - first, room / e.width);
    std::copy_n(words.begin() + static_cast<std::ptrdiff_t>(e.width * first), e.width * count, expected.begin());
    expect(part.copy(out, first) == count && are_same(out, expected), "words that are copied");
    expect(part.copy(out, e.count + 1) == 0, "words after the last");
  }
}

// Goes over a part and its own, from an entry on, by all calls. Returns the entry behind them.
const wkb_part *walked(wkb::bytes in, const wkb::part &part, const wkb_part *entry) {
  const wkb_part &e = *entry++;
  const auto srid = e.has_srid ? std::optional(e.srid) : std::nullopt;
  expect(is_same(part.entry(), e) && part.encoding().data() == in.data() + e.begin, "where a part is");
  expect(std::tuple(part.kind(), part.dimension(), part.order(), part.width(), part.size(), part.empty(), part.srid(),
                    part.has_coordinates(), part.encoding().size()) ==
             std::tuple(e.kind, e.dimension, e.order, e.width, e.count, e.count == 0, srid,
                        e.kind <= WKB_KIND_LINE_STRING, e.end - e.begin),
         "what a part is");
  if (part.has_coordinates()) {
    copies(in, part);
    expect(part.begin() == part.end(), "members of a part that has coordinates");
    return entry;
  }
  expect(std::distance(part.begin(), part.end()) == static_cast<std::ptrdiff_t>(e.count), "how many members");
  for (auto member = part.begin(); member != part.end();) entry = walked(in, *member++, entry);
  return entry;
}

// Into a table that is too small, into one, and by a reader, which has read others before.
void reads(wkb::bytes in, std::size_t parts, const wkb_fault &fault) {
  static wkb::reader kept;
  wkb_fault told = UNTOLD;
  std::vector<wkb_part> wanted(parts), table(parts);
  std::size_t count = 0;
  wkb_parts(in.data(), in.size(), wanted.data(), parts, &count, nullptr);
  const auto is_read = [&](const std::optional<wkb::part> &whole, const wkb_fault &why) {
    expect(whole.has_value() == is_same(why, UNTOLD) && is_same(told, why), "try_read");
    expect(whole ? walked(in, *whole, wanted.data()) == wanted.data() + count : table[0].end == 0, "all parts");
    told = UNTOLD;
  };
  is_read(wkb::try_read(in, std::span(table).first(parts - 1), &told), count > 0 ? NO_ROOM : fault);
  is_read(wkb::try_read(in, table, &told), fault);
  is_read(kept.try_read(in, &told), fault);
  expect(are_same(kept.table(), std::span(wanted).first(count)), "the table of a reader");
}

void is_one(wkb::bytes in) {
  wkb_found found{};
  wkb_box box{};
  wkb_fault fault = UNTOLD, told = UNTOLD;
  std::uint32_t equal = 0, first = 0, second = 0;
  const bool is_good = wkb_check(in.data(), in.size(), &found, &fault) == WKB_STATUS_OK;
  wkb_bounds(in.data(), in.size(), &box, nullptr);
  wkb_same(in.data(), in.size(), POINT.data(), POINT.size(), &equal, nullptr, nullptr);
  is_as(wkb::check(in, &told), told, found, fault, "check");
  is_as(wkb::try_bounds(in, &told), told, box, fault, "try_bounds");
  is_as(wkb::try_same(in, POINT, &told, &first), told, equal == 1, fault, "try_same, the first");
  is_as(wkb::try_same(POINT, in, &told, &second), told, equal == 1, fault, "try_same, the second");
  expect(first == (is_good ? 0 : 1) && second == (is_good ? 0 : 2), "which of two is refused");
  expect(wkb::check(in).has_value() == is_good && wkb::try_bounds(in).has_value() == is_good, "an unwanted fault");
  for (wkb_order order = 0; order < 3; order++)
    for (wkb_form form = 0; form < 5; form++) writes(in, {order, form, 4326});
  reads(in, is_good ? found.parts : in.size() + 1, fault);
}

// Items, ends and statuses of rows are those that a call of wkb.h puts into room for one more.
template <typename Item>
void are_put(const auto &it, const std::vector<Item> &items, const char *what, auto put) {
  std::vector<Item> room(items.size() + 1);
  std::vector<std::uint64_t> ends(it.statuses.size());
  wkb::statuses statuses(ends.size());
  room.resize(put(room.data(), room.size(), ends.data(), statuses.data()));
  expect(are_same(items, room) && it.ends == ends && it.statuses == statuses, what);
}

// Each call for a column beside that of wkb.h.
void are_rows(const wkb_column &column, const wkb_options &options) {
  wkb::row_found found{wkb::statuses(column.rows), std::vector<wkb_found>(column.rows)};
  wkb::row_bounds bounds{found.statuses, std::vector<wkb_box>(column.rows)};
  wkb_column_found(&column, found.found.data(), found.statuses.data());
  wkb_column_bounds(&column, bounds.boxes.data(), bounds.statuses.data());
  const auto own = wkb::found_of_rows(column);
  const auto own_bounds = wkb::bounds_of_rows(column);
  expect(are_same(own.found, found.found) && own.statuses == found.statuses, "what is found of rows");
  expect(are_same(own_bounds.boxes, bounds.boxes) && own_bounds.statuses == bounds.statuses, "bounds of rows");
  expect(wkb::check_rows(column) == found.statuses, "statuses of rows");
  const auto listed = wkb::parts_of_rows(column);
  are_put(listed, listed.parts, "parts of rows", [&](auto... out) { return wkb_column_parts(&column, out...); });
  const auto written = wkb::write_rows(column, options);
  are_put(written, written.data, "rows that are written",
          [&](auto... out) { return wkb_column_write(&column, &options, out...); });
}

void collects(const wkb_column &column, wkb_kind kind, wkb_dim dimension, const wkb_options &options) {
  input wanted(column.size + 13), out(2 * kind * column.rows, KEPT);
  const input before = out;
  std::size_t size = 0, row = 7, bad = 7;
  wkb_fault fault{}, told = UNTOLD;
  fault.status =
      wkb_collect(&column, kind, dimension, &options, wanted.data(), wanted.size(), &size, &fault, &bad);
  wanted.resize(size);
  const bool is_made = wkb::try_collect(column, kind, dimension, options, out, &told, &row);
  expect(is_made == (fault.status == WKB_STATUS_OK) && row == bad && out == (is_made ? wanted : before), "try_collect");
  expect(is_same(told, is_made ? UNTOLD : fault), "the fault of try_collect");
}

// The rows of a kind come back from their levels, whatever NaNs an empty point has.
void comes_back(wkb_column column, wkb_dim dimension, const wkb_options &options) {
  const auto it = wkb::coordinates_of_rows(column, dimension);
  const auto found = wkb::found_of_rows(column);
  expect(it.statuses == found.statuses, "statuses of coordinates");
  for (wkb_kind kind = WKB_KIND_POINT; kind < WKB_KIND_GEOMETRY_COLLECTION; kind++) {
    std::vector<std::uint8_t> bits(column.rows / 8 + 2);
    for (std::size_t row = 0, bit = 3; row < column.rows; row++, bit++)
      if (found.found[row].kind == kind && found.found[row].dimension == dimension)
        bits[bit / 8] = static_cast<std::uint8_t>(bits[bit / 8] | 1u << bit % 8);
    column.validity = bits.data(), column.validity_offset = 3;
    const wkb::levels from{it.words, it.ring_ends, it.single_ends, it.row_ends, bits.data(), 3};
    const auto written = wkb::rows_from_coordinates(from, kind, dimension, options);
    std::vector<std::int64_t> offsets(1);
    offsets.insert(offsets.end(), written.ends.begin(), written.ends.end());
    const wkb_column back = wkb::column(written.data, offsets, bits.data(), 3);
    const auto ours = wkb::write_rows(back, BIG), wanted = wkb::write_rows(column, BIG);
    expect(written.statuses == wanted.statuses && ours.statuses == wanted.statuses, "which rows come back");
    expect(ours.ends == wanted.ends && ours.data == wanted.data, "rows that come back");
    expect(wkb::rows_from_coordinates(from, kind, dimension, {2, 0, 0}).data.empty(), "unknown options");
  }
}

// Under options, of which some are unknown, as are some kinds and dimensions.
void is_column(const wkb_column &column, const wkb_options &options) {
  are_rows(column, options);
  for (std::size_t rows = 0; rows < 200; rows += 1 + rows) {
    wkb_column some = column;
    some.rows = rows;
    for (wkb_kind kind = WKB_KIND_LINE_STRING; kind < 9; kind++)
      for (wkb_dim dimension = WKB_DIM_XY; dimension < 5; dimension++) collects(some, kind, dimension, options);
  }
  if (options.order > WKB_ORDER_LITTLE || options.form > WKB_FORM_EWKB_WITHOUT_SRID) return;
  for (wkb_dim dimension = WKB_DIM_XY; dimension <= WKB_DIM_XYZM; dimension++) comes_back(column, dimension, options);
}

// Some rows are null, and some have bad offsets. The first ones are good, and make a collection.
template <typename Offset>
void as_column(const std::vector<input> &rows) {
  filled<Offset> it;
  for (const input &row : rows) it.add(row);
  it.offsets[100] = -1, it.offsets[1000] = static_cast<Offset>(it.data.size() + 1);
  std::vector<std::uint8_t> validity(rows.size() / 8 + 2, 0xef);
  validity[0] = validity[1] = 0xff;
  const wkb_column column = it.column(validity.data(), 3);
  for (wkb_order order = 0; order < 3; order++)
    for (wkb_form form = 0; form < 5; form++) is_column(column, {order, form, 4326});
}

}  // namespace

int main() {
  std::ifstream file("test/lasting.rows", std::ios::binary);
  std::vector<input> rows;
  for (std::string line; std::getline(file, line);)
    if (!line.starts_with('#')) rows.push_back(spelled(line.substr(0, line.find(' '))));
  expect(rows.size() > 1000, "the rows");
  for (const input &it : rows) is_one(it);
  as_column<std::int32_t>(rows);
  as_column<std::int64_t>(rows);
}
