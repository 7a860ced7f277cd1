// Calls of C and C++, and their names: a library that checks/hosts/cost_calls.py loads, and whose calls it times.
#include "wkb_facts.hpp"

namespace {

double sum_of(const wkb::part &part) {
  double sum = 0;
  if (part.has_coordinates()) for (const double word : part.words()) sum += word;
  else for (const wkb::part member : part) sum += sum_of(member);
  return sum;
}

constexpr wkb_options LITTLE{WKB_ORDER_LITTLE, WKB_FORM_ISO, 0}, BIG{WKB_ORDER_BIG, WKB_FORM_ISO, 0};
constexpr wkb_kind ANY = WKB_KIND_GEOMETRY_COLLECTION;
std::vector<std::byte> out;

template <class given>
struct call {
  const char *name;
  void (*run)(given);
};
const call<wkb::bytes> OF_ONE[] = {
    {"check", [](wkb::bytes it) { (void)wkb::check(it); }},
    {"bounds", [](wkb::bytes it) { (void)wkb::try_bounds(it); }},
    {"write", [](wkb::bytes it) { (void)wkb::try_write(it, LITTLE, out); }},
    {"write_big", [](wkb::bytes it) { (void)wkb::try_write(it, BIG, out); }},
    {"same", [](wkb::bytes it) { (void)wkb::try_same(it, it); }},
    {"parts", [](wkb::bytes it) { wkb::reader all; if (auto of = all.try_read(it)) sum_of(*of); }}};

const call<const wkb_column &> OF_ROWS[] = {
    {"check_rows", [](const wkb_column &it) { (void)wkb::check_rows(it); }},
    {"facts_of_rows", [](const wkb_column &it) { (void)wkb::facts_of_rows(it); }},
    {"parts_of_rows", [](const wkb_column &it) { (void)wkb::parts_of_rows(it); }},
    {"write_rows", [](const wkb_column &it) { (void)wkb::write_rows(it, LITTLE); }},
    {"write_rows_big", [](const wkb_column &it) { (void)wkb::write_rows(it, BIG); }},
    {"collect", [](const wkb_column &it) { (void)wkb::try_collect(it, ANY, WKB_DIM_XY, LITTLE, out); }},
    {"coordinates_of_rows", [](const wkb_column &it) { (void)wkb::coordinates_of_rows(it, WKB_DIM_XYZM); }}};

}  // namespace

// The names end with null.
extern "C" {
const char *name_of_one(std::size_t i) { return i < std::size(OF_ONE) ? OF_ONE[i].name : nullptr; }
const char *name_of_rows(std::size_t i) { return i < std::size(OF_ROWS) ? OF_ROWS[i].name : nullptr; }
void run_one(std::size_t i, const std::byte *data, std::size_t size) { OF_ONE[i].run({data, size}); }
void run_rows(std::size_t i, const wkb_column &rows) { OF_ROWS[i].run(rows); }
}
