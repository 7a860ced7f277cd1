// speed ROUNDS: how many times as long as our bounds of random geometries, of one shape after another, the readers of
// GEOS and OGR take, where they are. All calls of a shape are timed in each round, and the shortest of the rounds
// counts. It prints the table of times of docs/SPEED.md.
// speed --count: calls each once over all geometries of a shape, between two looks at the clock, and prints a line for
// it: the shape, the call and the geometries, with tabs between them. bench/instructions counts what lies between, also
// of plain C, which checks/hosts/fuzz compares with the library.
#include "plain.h"
#include "speed_shapes.hpp"

#include <cstdio>
#include <ctime>
#ifdef WITH_GEOS
#include <geos_c.h>
#endif
#ifdef WITH_OGR
#include <ogr_geometry.h>
#endif

namespace {

using namespace speed;

// Whose calls: the library's, or those of plain C.
enum calls { OURS, PLAIN };

// What all calls compute goes here, so that none is left out by the compiler.
double sum = 0;

std::vector<wkb_part> table(1024);
std::vector<double> words(4096);
std::vector<std::byte> encoding(65536);

std::size_t parts_of(const row &input) {
  std::size_t count = 0;
  wkb_parts(input.data(), input.size(), table.data(), table.size(), &count, nullptr);
  return count;
}

void call_check(const row &input) {
  wkb_found found;
  wkb_check(input.data(), input.size(), &found, nullptr);
  sum += static_cast<double>(found.coordinates);
}

template <calls WHOSE = OURS>
void call_bounds(const row &input) {
  wkb_box box;
  if (WHOSE == OURS) wkb_bounds(input.data(), input.size(), &box, nullptr);
  else plain_bounds(input.data(), input.size(), &box);
  sum += box.x.least;
}

void call_parts(const row &input) { sum += static_cast<double>(parts_of(input)); }

void call_parts_and_words(const row &input) {
  const std::size_t count = parts_of(input);
  for (std::size_t i = 0; i < count; i++) {
    if (table[i].kind > WKB_KIND_LINE_STRING) continue;
    wkb_words(input.data(), &table[i], 0, table[i].count, words.data());
    sum += words[0];
  }
}

template <const wkb_options &OPTIONS, calls WHOSE = OURS>
void call_write(const row &input) {
  std::size_t size = 0;
  if (WHOSE == OURS) wkb_write(input.data(), input.size(), &OPTIONS, encoding.data(), encoding.size(), &size, nullptr);
  else plain_write(input.data(), input.size(), OPTIONS.order, encoding.data(), encoding.size(), &size);
  sum += static_cast<double>(size);
}

void column_check(whole_column &it) { wkb_column_check(&it.raw, it.statuses.data()); }

// A library of before this call has none, and then it isn't timed (bench/instructions).
#pragma weak wkb_column_found
void column_found(whole_column &it) { wkb_column_found(&it.raw, it.found.data(), it.statuses.data()); }

void column_bounds(whole_column &it) { wkb_column_bounds(&it.raw, it.boxes.data(), it.statuses.data()); }

void column_parts(whole_column &it) {
  wkb_column_parts(&it.raw, it.parts.data(), it.parts.size(), it.ends.data(), it.statuses.data());
}

template <const wkb_options &OPTIONS>
void column_write(whole_column &it) {
  wkb_column_write(&it.raw, &OPTIONS, it.out.data(), it.out.size(), it.ends.data(), it.statuses.data());
}

template <calls WHOSE = OURS>
void column_coordinates(whole_column &it) {
  wkb_coordinates out = rooms_of(it.levels);
  if (WHOSE == OURS) wkb_column_coordinates(&it.raw, it.dimension, &out, it.statuses.data());
  else if (plain_column_coordinates(&it.raw, it.dimension, &out) == 0) std::exit(1);
}

void column_from_coordinates(whole_column &it) {
  const wkb::row_coordinates &from = it.levels;
  const wkb_levels levels{from.words.data(), from.words.size(), from.ring_ends.data(), from.ring_ends.size(),
                          from.single_ends.data(), from.single_ends.size(), from.row_ends.data(), from.row_ends.size(),
                          nullptr, 0};
  wkb_column_from_coordinates(&levels, it.kind, it.dimension, &BIG, it.out.data(), it.out.size(), it.ends.data(),
                              it.statuses.data());
}

#ifdef WITH_GEOS
GEOSContextHandle_t geos = GEOS_init_r();
GEOSWKBReader *geos_reader = GEOSWKBReader_create_r(geos);

void geos_read(const row &input) {
  const auto *front = reinterpret_cast<const unsigned char *>(input.data());
  GEOSGeometry *geometry = GEOSWKBReader_read_r(geos, geos_reader, front, input.size());
  if (geometry == nullptr) std::exit(1);
  double least = 0;
  GEOSGeom_getXMin_r(geos, geometry, &least);
  sum += least;
  GEOSGeom_destroy_r(geos, geometry);
}
#endif

#ifdef WITH_OGR
void ogr_read(const row &input) {
  OGRGeometry *geometry = nullptr;
  OGREnvelope envelope;
  if (OGRGeometryFactory::createFromWkb(input.data(), nullptr, &geometry, input.size()) != OGRERR_NONE) std::exit(1);
  geometry->getEnvelope(&envelope);
  sum += envelope.MinX;
  delete geometry;
}
#endif

// A call for a geometry and its like for a column, where there is one, over rows in little or in big endian.
struct call {
  const char *name;
  void (*one)(const row &);
  void (*column)(whole_column &) = nullptr;
  bool is_big = false;
};

const call COUNTED[] = {
    {"check", call_check, column_check},
    {"found", nullptr, wkb_column_found ? column_found : nullptr},
    {"bounds", call_bounds, column_bounds},
    {"bounds in plain C", call_bounds<PLAIN>},
    {"big endian bounds", call_bounds, column_bounds, true},
    {"big endian bounds in plain C", call_bounds<PLAIN>, nullptr, true},
    {"parts", call_parts, column_parts},
    {"parts, words", call_parts_and_words},
    {"write", call_write<BIG>, column_write<BIG>},
    {"write in plain C", call_write<BIG, PLAIN>},
    {"write as it is", call_write<LITTLE>, column_write<LITTLE>},
    {"write as it is in plain C", call_write<LITTLE, PLAIN>},
    {"coordinates", nullptr, column_coordinates},
    {"coordinates in plain C", nullptr, column_coordinates<PLAIN>},
    {"from coordinates", nullptr, column_from_coordinates},
};
const call TIMED[] = {
    {"check, ns", call_check},
    {"bounds, ns", call_bounds},
#ifdef WITH_OGR
    {"OGR", ogr_read},
#endif
#ifdef WITH_GEOS
    {"GEOS", geos_read},
#endif
};

double now() {
  timespec time;
  clock_gettime(CLOCK_PROCESS_CPUTIME_ID, &time);
  return 1e9 * static_cast<double>(time.tv_sec) + static_cast<double>(time.tv_nsec);
}

// The nanoseconds of some passes over all geometries, for one.
template <typename Pass>
double time_of(int passes, const Pass &pass) {
  const double start = now();
  for (int i = 0; i < passes; i++) pass();
  return (now() - start) / (passes * static_cast<double>(ROWS));
}

void call_each(const std::vector<row> &rows, const call &it) {
  for (const row &input : rows) it.one(input);
}

void count(const shape &of, const call &it, whole_column &from) {
  if (it.one) {
    time_of(1, [&] { call_each(from.rows, it); });
    std::printf("%s\t%s\t%zu\n", of.name, it.name, ROWS);
  }
  if (!it.column) return;
  time_of(1, [&] { it.column(from); });
  std::printf("%s\t%s, column\t%zu\n", of.name, it.name, ROWS);
  if (from.statuses != wkb::statuses(ROWS)) std::exit(1);
}

void count_shape(const shape &of, const std::vector<row> &rows) {
  std::vector<row> turned;
  for (const row &it : rows) turned.push_back(written(it, BIG));
  whole_column little(rows), big(turned);
  for (const call &it : COUNTED)
    if (of.has_levels || std::strstr(it.name, "coordinates") == nullptr) count(of, it, it.is_big ? big : little);
}

int width_of(const call &it) { return std::max(7, static_cast<int>(std::strlen(it.name))); }

// A row of the table: our times, and theirs by that of our bounds.
void time_shape(const shape &of, const std::vector<row> &rows, int rounds) {
  double shortest[std::size(TIMED)];
  std::fill(std::begin(shortest), std::end(shortest), 1e9);
  for (int round = 0; round < rounds; round++)
    for (std::size_t i = 0; i < std::size(TIMED); i++)
      shortest[i] = std::min(shortest[i], time_of(20, [&] { call_each(rows, TIMED[i]); }));
  std::printf("| %-24s |", of.name);
  for (std::size_t i = 0; i < std::size(TIMED); i++)
    std::printf(" %*.*f |", width_of(TIMED[i]), i < 2 ? 1 : 2, i < 2 ? shortest[i] : shortest[i] / shortest[1]);
  std::printf("\n");
}

void print_head() {
  std::printf("| their time / ours        |");
  for (const call &it : TIMED) std::printf(" %*s |", width_of(it), it.name);
  std::printf("\n|--------------------------|");
  for (const call &it : TIMED) std::printf("%.*s:|", width_of(it) + 1, "--------------------");
  std::printf("\n");
}

}  // namespace

int main(int argc, char **argv) {
  const bool counts = argc == 2 && std::strcmp(argv[1], "--count") == 0;
  if (!counts) print_head();
  for (const shape &of : SHAPES) {
    const std::vector<row> rows = rows_of(of);
    if (counts)
      count_shape(of, rows);
    else
      time_shape(of, rows, argc == 2 ? std::atoi(argv[1]) : 5);
  }
  return sum == 0.5 ? 1 : 0;
}
