// Tries what wkb.hpp has and wkb.h has not: exceptions, each refused allocation, readers that are copied and moved,
// room, levels without ends, words that no input has, and facts. After an error an object is as it was or empty, and no
// memory is lost. The examples have what the calls that throw return. It prints nothing, and an error if there is one.
#include "hpp.h"

#include <new>
#include <typeinfo>
#include <utility>

// How many allocations are granted before the rest is rejected, and how many blocks are allocated. Inlined, gcc takes
// malloc and operator delete for a pair that does not match.
static std::size_t granted = SIZE_MAX, blocks = 0;

[[gnu::noinline]] void *operator new(std::size_t size) {
  if (granted == 0) throw std::bad_alloc();
  if (granted != SIZE_MAX) granted--;
  void *block = std::malloc(size == 0 ? 1 : size);
  if (block == nullptr) throw std::bad_alloc();
  blocks++;
  return block;
}

[[gnu::noinline]] void operator delete(void *block) noexcept {
  if (block != nullptr) blocks--;
  std::free(block);
}

void operator delete(void *block, std::size_t) noexcept { operator delete(block); }

namespace {

const auto CUT = wkb::bytes(POINT).first(20);
const std::string SAYS_CUT = "the input ends inside a point, at byte 0 (part 0): it needs 25 bytes and has 20";
const std::string SAYS_UNKNOWN = "unknown byte order, form, kind or dimension";
const std::string SAYS_ENDED = "the input ends inside a header or before a count, at byte 0 (part 0)";

// How many allocations of a call fail, each in turn, until it passes. LEFT looks at what each refusal leaves.
std::size_t refusals(auto call, auto left) {
  for (std::size_t n = 0;; n++) {
    const std::size_t before = blocks;
    granted = n;
    try {
      call();
      granted = SIZE_MAX;
      return n;
    } catch (const std::bad_alloc &) {
      granted = SIZE_MAX;
    }
    expect(blocks == before, "a refusal gives back all memory");
    left();
  }
}

void nothing() {}

// A call throws an exception of this very type and text, or std::bad_alloc where that has no memory. LOOK looks at it.
template <typename Exception, typename Look = decltype([](const Exception &) { return true; })>
void throws(const std::string &text, auto call, auto left, Look look = {}) {
  static_assert(std::is_nothrow_copy_constructible_v<Exception>);
  bool is_thrown = false;
  const auto tries = [&] {
    try {
      call();
    } catch (const Exception &it) {
      is_thrown = typeid(it) == typeid(Exception) && it.what() == text && look(it);
    }
  };
  expect(refusals(tries, left) > 0 && is_thrown, text);
}

void exceptions() {
  using of_two = wkb::refused_of_two;
  auto out = POLYGONS;
  const auto is_left = [&] { out.shrink_to_fit(), expect(out == POLYGONS, "what a refusal leaves"); };
  const auto is_of_point = [](const wkb::refused &it) {
    return it.status() == WKB_STATUS_SHORT_POINT && it.fault().end == 25;
  };
  throws<wkb::refused>(SAYS_CUT, [] { wkb::bounds(CUT); }, nothing, is_of_point);
  throws<wkb::refused>(SAYS_ENDED, [&] { wkb::write({}, BIG, out); }, is_left);
  throws<std::invalid_argument>(SAYS_UNKNOWN, [&] { wkb::write(POINT, {2, WKB_FORM_ISO, 0}, out); }, is_left);
  is_left();
  throws<of_two>(SAYS_ENDED, [] { wkb::same({}, POINT); }, nothing, [](const of_two &it) { return it.which() == 1; });
  throws<of_two>(SAYS_ENDED, [] { wkb::same(POINT, {}); }, nothing, [](const of_two &it) { return it.which() == 2; });
  expect(!wkb::same(POINT, POLYGONS), "another value");
}

// The row that can't be a member.
void rows_that_are_no_members() {
  const filled all(POINT_TEXT, "010200000000000000", "");
  const auto throws_at = [&](std::size_t row, wkb_kind kind, const std::string &text, std::uint8_t validity = 7) {
    throws<wkb::refused_row>(text, [&] { wkb::collect(all.column(&validity), kind, WKB_DIM_XY, BIG); }, nothing,
                             [&](const wkb::refused_row &it) { return it.row() == row; });
  };
  throws_at(1, WKB_KIND_MULTI_POINT,
            "a member has the wrong kind, dimension or SRID for its multi geometry, at byte 0 (part 0)");
  throws_at(2, WKB_KIND_GEOMETRY_COLLECTION, SAYS_ENDED);
  throws_at(1, WKB_KIND_GEOMETRY_COLLECTION, "the row is null", 1);
  throws<std::invalid_argument>(SAYS_UNKNOWN, [&] { wkb::collect(all.column(), WKB_KIND_POINT, WKB_DIM_XY, BIG); },
                                nothing);
}

// A reader is empty after an error, and reads the next input.
void readers() {
  wkb::reader reader;
  std::optional<wkb::part> whole;
  const auto reads_a_point = [&] {
    expect(reader.table().empty(), "the table after a refused allocation");
    expect(reader.read(POINT).words() == std::vector<double>{1, 2} && reader.table().size() == 1, "a point is read");
  };
  reads_a_point();
  const auto reads = [&] { whole = reader.try_read(POLYGONS); };
  expect(refusals(reads, reads_a_point) > 0 && refusals(reads, nothing) == 0, "a table serves the next input");
  throws<wkb::refused>(SAYS_CUT, [&] { reader.read(CUT); }, reads_a_point);
  whole = reader.read(POLYGONS);
  const wkb::reader copy = reader, moved = std::move(reader);
  expect(copy.table().size() == 5 && moved.table().size() == 5, "tables that were copied and moved");
  expect(moved.table().data() == &whole->entry() && copy.table().data() != &whole->entry(), "whose parts they are");
  reads_a_point();
  reader = wkb::reader(copy);
  expect(reader.table().size() == 5, "a table that was assigned");
}

// An output is unchanged until its call passes, and takes no more memory than its geometry does.
void outputs() {
  const auto multi = spelled("000000000400000001" "0000000001" "3ff00000000000004000000000000000");
  input out(3);
  const filled points(POINT_TEXT);
  const auto is_unchanged = [&] { expect(out.size() == 3, "an output after a refusal"); };
  const auto writes = [&] { expect(wkb::try_write(POINT, BIG, out), "is written"); };
  const auto collects = [&] {
    expect(wkb::try_collect(points.column(), WKB_KIND_MULTI_POINT, WKB_DIM_XY, BIG, out), "is collected");
    expect(out == multi, "what is collected");
  };
  expect(refusals(writes, is_unchanged) > 0 && refusals(writes, nothing) == 0, "an output");
  out = input(3);
  expect(refusals(collects, is_unchanged) > 0 && refusals(collects, nothing) == 0, "an output of rows");

  // An input that is longer than its geometry.
  struct { const char *begin; std::size_t size, written, room; } const cases[] = {
    {"0102000000ffff0000", 9 + 16 * 65535 + 5000000, 13 + 16 * 65535, 2000000},
    {"0101000000", 70000, 25, 100},
  };
  for (const auto &it : cases) {
    input in = spelled(it.begin);
    in.resize(it.size);
    out = input(3), out.shrink_to_fit();
    const auto writes_long = [&] { wkb::write(in, {WKB_ORDER_BIG, WKB_FORM_EWKB_WITH_SRID, 1}, out); };
    expect(refusals(writes_long, is_unchanged) > 0 && out.size() == it.written, "what a long input has");
    expect(out.capacity() < it.room, "its room");
    in.resize(100000), in[1] = std::byte{9};
    expect(!wkb::try_write(in, BIG, out) && out.size() == it.written, "what a rejected one leaves");
  }
}

// What wkb.hpp says that allocates nothing; so it throws nothing.
static_assert(noexcept(wkb::check({})) && noexcept(wkb::try_bounds({})) && noexcept(wkb::try_same({}, {})));
static_assert(noexcept(wkb::try_write({}, BIG, std::span<std::byte>())));
static_assert(noexcept(wkb::try_read({}, std::span<wkb_part>())));
static_assert(noexcept(wkb::column({}, std::span<const std::int32_t>())));
static_assert(requires(const wkb::part it, const wkb::refused_of_two two, const wkb::refused_row row) {
  requires noexcept((it.kind(), it.dimension(), it.order(), it.width(), it.size(), it.empty(), it.srid(), it.encoding(),
                     it.entry(), it.has_coordinates(), it.word(0, 0), it.copy({}), it.begin()++, ++it.end()));
  requires noexcept((two.status(), two.fault(), two.which(), row.row()));
});

// Offsets are those that Arrow has, in any container.
template <typename Offsets>
concept are_offsets = requires(Offsets offsets) { wkb::column(wkb::bytes(), offsets); };
static_assert(are_offsets<std::span<std::int32_t, 2>> && are_offsets<const std::vector<std::int64_t>>);
static_assert(!are_offsets<std::span<std::uint32_t>> && !are_offsets<std::span<const std::int16_t>>);

// A part is a view, so that an adaptor keeps a copy of it, also where the part is gone. No adaptor goes by its size.
static_assert(std::ranges::view<wkb::part> && std::ranges::borrowed_range<wkb::part>);
static_assert(std::ranges::forward_range<wkb::part> && !std::ranges::sized_range<wkb::part>);

// Levels without ends, which example_own.cpp has too. Of words that are no whole number of coordinates no row is
// written, whichever levels have ends.
void levels_without_ends() {
  const std::vector<std::uint64_t> one{1}, none{0};
  const std::vector<double> one_two{1, 2};
  const wkb::statuses bad{WKB_STATUS_BAD_LEVELS};
  const std::uint8_t validity = 0xfe;
  const auto write = [](const wkb::levels &levels, wkb_kind kind, wkb_dim dimension) {
    return wkb::rows_from_coordinates(levels, kind, dimension, {WKB_ORDER_LITTLE, WKB_FORM_ISO, 0});
  };
  const auto multi = write({.words = one_two, .row_ends = one}, WKB_KIND_MULTI_POINT, WKB_DIM_XY);
  expect(multi.data == spelled("010400000001000000" + POINT_TEXT), "a multi point");
  for (wkb_dim dimension = WKB_DIM_XY; dimension <= WKB_DIM_XYZM; dimension++) {
    const std::vector<double> words(dimension == WKB_DIM_XY ? 5 : 10);
    wkb::statuses points(words.size() / wkb::width_of(dimension) + 1, WKB_STATUS_BAD_LEVELS);
    points[0] = WKB_STATUS_NULL_ROW;
    expect(write({.words = words, .validity = &validity}, WKB_KIND_POINT, dimension).statuses == points, "points");
    expect(write({.words = words, .ring_ends = one}, WKB_KIND_LINE_STRING, dimension).statuses == bad, "a line");
    expect(write({.words = words, .row_ends = none}, WKB_KIND_MULTI_POINT, dimension).statuses == bad, "no points");
  }
  expect(write({}, WKB_KIND_POINT, WKB_DIM_XY).ends.empty(), "no rows of one's own");
  expect(wkb::check_rows(wkb::column({}, std::span<const std::int32_t>())).empty(), "no rows");
}

// Facts of rows of each sort, of no rows, and of zeros of both signs in any order.
void facts() {
  constexpr double INFINITE = std::numeric_limits<double>::infinity();
  const std::string zero = "0101000000" + std::string(32, '0'), of_zero = "010100002000000000" + zero.substr(10);
  const std::string minus = "0101000000" "0000000000000080" + zero.substr(26);
  const std::string line = "01ea03000001000000" + ONE_AND_TWO + "00000000000008c0";
  const std::string with_srid = "0101000020e6100000" + ONE_AND_TWO, of_two = "010100002002000000" + ONE_AND_TWO;
  filled several(of_zero, with_srid, line, "", of_two, "02", with_srid, POINT_TEXT, POINT_TEXT);
  several.offsets.back() = 1000000;
  const std::uint8_t validity[] = {0x77, 0xff};
  const auto all = wkb::facts_of_rows(several.column(validity));
  expect(all.rows == 9 && all.accepted == 5 && all.null_rows == 2 && all.refused == 1, "how many rows there are");
  expect(all.of_kind[WKB_KIND_POINT][WKB_DIM_XY] == 4 && all.of_kind[WKB_KIND_LINE_STRING][WKB_DIM_XYZ] == 1, "kinds");
  expect(all.without_srid == 1 && all.srids == std::vector<std::uint32_t>{0, 2, 4326}, "SRIDs");
  expect(is_same(all.box, wkb_box{{0, 1, 5}, {0, 2, 5}, {-3, -3, 1}, {INFINITE, -INFINITE, 0}}), "the box");
  for (const auto &none : {wkb::facts_of_rows(filled("", "0201000000").column()), wkb::facts_of_rows({})})
    for (const wkb_range &it : {none.box.x, none.box.y, none.box.z, none.box.m})
      expect(it.count == 0 && it.least == INFINITE && it.greatest == -INFINITE, "the box of no rows");
  for (const auto &it : {filled(zero, minus), filled(minus, zero)}) {
    const wkb_range x = wkb::facts_of_rows(it.column()).box.x;
    expect(x.least == 0 && std::signbit(x.least) && x.greatest == 0 && !std::signbit(x.greatest), "zeros");
  }
}

}  // namespace

int main() {
  exceptions();
  rows_that_are_no_members();
  readers();
  outputs();
  levels_without_ends();
  facts();
}
