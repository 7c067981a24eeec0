/* A whole file as a text. The programs in C here that read clauses and logs include it. */
#include <stdio.h>
#include <stdlib.h>

static char *read_all(FILE *file) {
  size_t room = 1 << 16, length = 0;
  char *text = malloc(room);
  while (text) {
    length += fread(text + length, 1, room - length - 1, file);
    if (length + 1 < room) break;
    text = realloc(text, room *= 2);
  }
  if (!text) exit(2);
  text[length] = 0;
  return text;
}
