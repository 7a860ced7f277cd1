/* Tries each call on the inputs of lasting.rows, and tests facts that no proof covers: that no byte after the input
 * is read, that an error leaves its outputs, that null may be given for an empty or unwanted buffer, and that calls
 * take little stack. checks/library/run compares the output with expected. That they don't allocate, and may run at the
 * same time, in signal handlers and in forked children, is seen by alone/symbols: they have no data of their own, and
 * call nothing but memcpy and its like. */
#include "shared.h"

int main(void) {
  calls_are_right();
  texts_are_right();
  levels_are_right();
  what_lasts_is_as_it_was();
  what_lasts_is_as_it_was_in_columns();
  little_stack_is_taken();
  return 0;
}
