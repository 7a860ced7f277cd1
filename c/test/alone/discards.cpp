// Drops the result of each call that says by it whether it worked, or what became of each row, and keeps results for
// longer than what they refer to. A compiler has to warn of each line that ends in `dropped`, to reject each that ends
// in `gone`, clang also to warn of each that ends in `outlived`, and none of any other.
#include "wkb_facts.hpp"

void drop(wkb::bytes in, const wkb_options &options, std::vector<std::byte> &out, std::span<wkb_part> table,
          wkb::reader &reader, const wkb_column &rows) {
  wkb::check(in);  // dropped
  wkb::try_bounds(in);  // dropped
  wkb::try_write(in, options, std::span(out));  // dropped
  wkb::try_write(in, options, out);  // dropped
  wkb::try_same(in, in);  // dropped
  wkb::try_read(in, table);  // dropped
  reader.try_read(in);  // dropped
  wkb::try_collect(rows, WKB_KIND_MULTI_POINT, WKB_DIM_XY, options, out);  // dropped
  wkb::check_rows(rows);  // dropped
  wkb::found_of_rows(rows);  // dropped
  wkb::bounds_of_rows(rows);  // dropped
  wkb::parts_of_rows(rows);  // dropped
  wkb::write_rows(rows, options);  // dropped
  wkb::coordinates_of_rows(rows, WKB_DIM_XY);  // dropped
  wkb::rows_from_coordinates({}, WKB_KIND_POINT, WKB_DIM_XY, options);  // dropped
  wkb::facts_of_rows(rows);  // dropped
  wkb::column(in, std::vector<std::int32_t>());  // gone
  wkb::column(std::vector<std::byte>(), std::span<std::int64_t>());  // gone
  auto one = wkb::try_read(std::vector<std::byte>(), table);  // gone
  auto two = reader.try_read(std::vector<std::byte>());  // gone
  reader.read(std::array<std::byte, 5>());  // gone
  wkb::write(in, options, out);
  reader.read(in);
}

wkb::part kept(wkb::bytes in, wkb::reader &reader) {
  wkb::reader own;
  auto part = wkb::reader{}.read(in);  // outlived
  auto tried = wkb::reader{}.try_read(in);  // outlived
  auto table = wkb::reader{}.table();  // outlived
  auto read = reader.read(in);
  if (!tried || table.empty() || part.empty() || read.empty()) return reader.read(in);
  return own.read(in);  // outlived
}
