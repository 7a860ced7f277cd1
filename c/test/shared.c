/* What the tests share of texts, pages and addresses. */
#define _GNU_SOURCE
#include "shared.h"

/* The size of a page, new pages, and what may be done with them. */
#ifdef _WIN32
#include <windows.h>
enum { NOTHING = PAGE_NOACCESS, READING = PAGE_READONLY, WRITING = PAGE_READWRITE };

static size_t page_size(void) {
  SYSTEM_INFO info;
  GetSystemInfo(&info);
  return info.dwPageSize;
}

static void *new_pages(size_t size) { return VirtualAlloc(NULL, size, MEM_RESERVE | MEM_COMMIT, WRITING); }

static bool allows(void *pages, size_t size, int what) {
  DWORD before;
  return VirtualProtect(pages, size, (DWORD)what, &before);
}
#else
#include <sys/mman.h>
#include <unistd.h>
enum { NOTHING = PROT_NONE, READING = PROT_READ, WRITING = PROT_READ | PROT_WRITE };

static size_t page_size(void) { return (size_t)sysconf(_SC_PAGESIZE); }
static void *new_pages(size_t size) { return mmap(NULL, size, WRITING, MAP_PRIVATE | MAP_ANON, -1, 0); }
static bool allows(void *pages, size_t size, int what) { return mprotect(pages, size, what) == 0; }
#endif

uint8_t *end_of_pages(size_t size) {
  const size_t page = page_size(), whole = (size + page - 1) / page * page;
  uint8_t *pages = new_pages(whole + page);
  expect(pages && allows(pages + whole, page, NOTHING), "pages", "");
  return pages + whole;
}

void can_be_written(uint8_t *end, bool can) {
  expect(allows(end - page_size(), page_size(), can ? WRITING : READING), "a page", "");
}

void *at_the_end(int place, const void *from, size_t len) {
  static uint8_t *ends[PLACES];
  expect(len <= PLACE_MOST, "too much for a place", "");
  if (ends[place] == NULL) ends[place] = end_of_pages(PLACE_MOST);
  return memcpy(ends[place] - len, from, len);
}

void expect(bool holds, const char *what, const char *where) {
  if (holds) return;
  printf("wrong: %s (%s)\n", what, where);
  exit(1);
}

/* The words of capital letters. */
static const char *const WORDS['Z' + 1] = {
    ['P'] = "000000000000f03f 0000000000000040", ['W'] = "000000000000f03f", ['X'] = "0000000000000040",
    ['Y'] = "0000000000000840", ['Z'] = "0000000000001040", ['N'] = "000000000000f87f", ['I'] = "000000000000f07f",
    ['J'] = "000000000000f0ff", ['O'] = "0000000000000000", ['M'] = "0000000000000080"};

size_t spelled(const char *text, uint8_t *bytes) {
  size_t len = 0;
  for (; *text != '\0'; text++) {
    if (*text == ' ') continue;
    if (*text >= 'A' && *text <= 'Z' && WORDS[(int)*text]) {
      len += spelled(WORDS[(int)*text], bytes + len);
      continue;
    }
    char digits[3] = {text[0], text[1], '\0'}, *end;
    bytes[len++] = (uint8_t)strtoul(digits, &end, 16);
    expect(end == digits + 2, "no hex", text);
    text++;
  }
  return len;
}

const wkb_options LITTLE_ISO = {WKB_ORDER_LITTLE, WKB_FORM_ISO, 0};
