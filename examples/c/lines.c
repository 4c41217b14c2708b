/* Answers the lines of standard input as fixed_tool does, each by a call of the library. */
#define _GNU_SOURCE
#include <stdio.h>
#include <stdlib.h>

#include "fixed.h"

int main(void) {
  char *line = NULL;
  size_t room = 0;
  ssize_t count;
  int has_fault = 0;
  while ((count = getline(&line, &room, stdin)) >= 0) {
    if (count > 0 && line[count - 1] == '\n') count--;
    char answer[FIXED_ANSWER_SIZE];
    size_t len;
    uint32_t is_fault;
    if (fixed_answer_line(line, (size_t)count, answer, sizeof answer, &len, &is_fault) != FIXED_OK) return 2;
    has_fault |= (int)is_fault;
    answer[len] = '\n';
    if (fwrite(answer, 1, len + 1, stdout) != len + 1) return 4;
  }
  free(line);
  return has_fault;
}
