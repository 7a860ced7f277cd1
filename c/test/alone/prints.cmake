# cmake -DCOMMAND=PROGRAM;WORDS [-DEXPECTED=FILE] -P prints.cmake: the program exits with status 0, and its output is
# the file's.
execute_process(COMMAND ${COMMAND} OUTPUT_VARIABLE printed RESULT_VARIABLE status)
string(REPLACE "\r" "" printed "${printed}")
set(expected "${printed}")
if(EXPECTED)
  file(READ "${EXPECTED}" expected)
endif()
if(NOT status EQUAL 0 OR NOT printed STREQUAL expected)
  message(FATAL_ERROR "${COMMAND} ended with ${status}, and printed:\n${printed}")
endif()
