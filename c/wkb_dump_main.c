/* SPDX-License-Identifier: MIT OR Apache-2.0 */
/* The program wkb_dump: its options and its input. wkb_dump.c makes its output. */
#include <stdbool.h>
#include <stdio.h>
#include <stdlib.h>
#include <string.h>

#include "wkb_dump.h"
#ifdef _WIN32
#include <fcntl.h>
#include <io.h>
#endif

static const char USAGE[] =
    "usage: wkb_dump [-a] [-l] [-i ITEMS] [-n LINES] [-b BYTES] [FILE]\n"
    "\n"
    "Shows the bytes of a geometry in Well-Known Binary line by line, with what they mean, and where and why they are\n"
    "rejected. FILE, or else standard input, is hex with white space, 0x or \\x or without, or the bytes themselves,\n"
    "also behind the header of a GeoPackage's blob. Rings and members are counted from 0.\n"
    "\n"
    "  -a        all: no list and no dump is shortened\n"
    "  -l        each line of the input is a geometry of its own, in hex\n"
    "  -i ITEMS  of a longer list so many coordinates, rings or members are shown: 3; 0 for all\n"
    "  -n LINES  after so many lines only what leads to the rejected part, and the end: 1000; 0 for all\n"
    "  -b BYTES  a longer input isn't read: 1073741824\n"
    "\n"
    "The exit status is 0 if the input, or with -l each line, is one geometry without trailing bytes, 1 for any other\n"
    "input, and 2 if it can't be read, or the output can't be written.\n";

enum { READ_AT_FIRST = 1 << 16 };
static const size_t MOST_BYTES = 1 << 30;

typedef struct program {
  wkb_dump_options options;
  size_t most_bytes;
  bool has_lines;
  const char *file;
} program;

/* Prints on standard error why the input can't be read. */
static int fails(const char *why, const char *what) {
  fprintf(stderr, "wkb_dump: %s%s\n", why, what);
  return WKB_DUMP_STOPPED;
}

static int put(void *to, const char *line, size_t length) { return fwrite(line, 1, length, to) != length; }

/* Reads standard input to its end. Returns NULL, or why it can't. */
static const char *read_input(size_t most, char **bytes, size_t *size) {
  size_t room = 0, got = 1;
  *bytes = NULL, *size = 0;
  for (; got > 0; *size += got) {
    if (*size == room) {
      room = room == 0 ? READ_AT_FIRST : 2 * room;
      char *more = realloc(*bytes, room);
      if (more == NULL) return "allocating memory for the input failed";
      *bytes = more;
    }
    got = fread(*bytes + *size, 1, room - *size, stdin);
    if (*size + got > most) return "the input has more bytes than -b says";
  }
  return ferror(stdin) ? "the input can't be read" : NULL;
}

/* Whether all of it is text, so that it is no geometry, whose first bytes are numbers. */
static bool is_text(const char *bytes, size_t size) {
  for (size_t i = 0; i < size; i++)
    if ((bytes[i] < ' ' || bytes[i] > '~') && (bytes[i] < '\t' || bytes[i] > '\r')) return false;
  return size > 0;
}

/* Prints which character of a text is no hex digit, or that a digit is alone. */
static int fails_as_hex(const char *text, size_t size, size_t wrong) {
  char why[64];
  if (wrong == size || memchr(" \t\n\v\f\r", text[wrong], 6) != NULL)
    return fails("this is not hex: a byte has only one digit", "");
  const char *format = is_text(text + wrong, 1) ? "character %zu is %c" : "character %zu is 0x%02x";
  snprintf(why, sizeof why, format, wrong + 1, (unsigned char)text[wrong]);
  return fails("this is not hex: ", why);
}

/* Shows an input. What is wrong with hex in several lines may be that each is a geometry. */
static int show(const program *it, char *bytes, size_t size) {
  const char *feed = memchr(bytes, '\n', size);
  bool goes_on = feed != NULL && feed + 1 < bytes + size;
  size_t wrong, found = wkb_dump_from_hex(bytes, size, &wrong);
  if (found == WKB_DUMP_NOT_HEX && (it->has_lines || is_text(bytes, size))) return fails_as_hex(bytes, size, wrong);
  bool is_hex = found != WKB_DUMP_NOT_HEX;
  int status = wkb_dump(bytes, is_hex ? found : size, &it->options, put, stdout, NULL);
  if (status == WKB_DUMP_OTHER && is_hex && goes_on)
    fputs("wkb_dump: with -l each line is a geometry of its own\n", stderr);
  return status;
}

/* Shows each line that isn't empty. Returns the largest status. */
static int show_lines(const program *it, char *bytes, size_t size) {
  int worst = WKB_DUMP_ALONE;
  unsigned long long number = 1;
  for (size_t begin = 0, end; begin < size; begin = end + 1, number++) {
    const char *feed = memchr(bytes + begin, '\n', size - begin);
    end = feed ? (size_t)(feed - bytes) : size;
    size_t length = end - begin;
    if (length > 0 && bytes[end - 1] == '\r') length--;
    if (length == 0) continue;
    printf("line %llu\n", number);
    fflush(stdout);
    int status = show(it, bytes + begin, length);
    worst = status > worst ? status : worst;
  }
  return worst;
}

/* The number of an option, or false. */
static bool is_number(const char *text, unsigned long long most, unsigned long long *number) {
  char *end = NULL;
  if (text == NULL || *text < '0' || *text > '9') return false;
  *number = strtoull(text, &end, 10);
  return *end == 0 && *number <= most;
}

/* Reads the arguments. Returns whether they are options and at most one file. */
static bool read_arguments(program *it, char **words) {
  for (; *words != NULL && (*words)[0] == '-' && (*words)[1] != 0; words++) {
    if (strcmp(*words, "--") == 0) {
      words++;
      break;
    }
    unsigned long long number = 0;
    char option = (*words)[2] == 0 ? (*words)[1] : '-';
    if (option == 'i' || option == 'n' || option == 'b') {
      if (!is_number(*++words, option == 'i' ? UINT32_MAX : SIZE_MAX / 4, &number)) return false;
      if (option == 'i') it->options.items = (uint32_t)number;
      if (option == 'n') it->options.lines = number;
      if (option == 'b') it->most_bytes = (size_t)number;
    } else if (option == 'a') {
      it->options.items = 0, it->options.lines = 0;
    } else if (option == 'l') {
      it->has_lines = true;
    } else {
      return false;
    }
  }
  if (*words == NULL) return true;
  it->file = strcmp(*words, "-") == 0 ? NULL : *words;
  return words[1] == NULL;
}

/* Returns the status, or says that not all of the output is written. */
static int ends(int status) {
  return fflush(stdout) != 0 || ferror(stdout) ? fails("the output can't be written", "") : status;
}

int main(int count, char **words) {
  program it = {{WKB_DUMP_ITEMS, WKB_DUMP_LINES}, MOST_BYTES, false, NULL};
  if (count == 2 && strcmp(words[1], "--help") == 0) {
    fputs(USAGE, stdout);
    return ends(0);
  }
  if (!read_arguments(&it, words + (count > 0))) {
    fputs(USAGE, stderr);
    return WKB_DUMP_STOPPED;
  }
#ifdef _WIN32
  _setmode(_fileno(stdin), _O_BINARY);
#endif
  if (it.file != NULL && freopen(it.file, "rb", stdin) == NULL) return fails("this file can't be opened: ", it.file);
  char *bytes;
  size_t size;
  const char *wrong = read_input(it.most_bytes, &bytes, &size);
  int status = wrong != NULL  ? fails(wrong, "")
               : it.has_lines ? show_lines(&it, bytes, size)
                              : show(&it, bytes, size);
  free(bytes);
  return ends(status);
}
