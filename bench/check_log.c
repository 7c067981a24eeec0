/* The checks of logs, written plainly: clauses as DIMACS writes them, each in a line, and steps `s LITERALS : HINTS` among them.
   Prints whether the log derives the empty clause, and the microseconds that the check took. */
#include <stdio.h>
#include <stdlib.h>
#include <string.h>
#include <time.h>

#include "read_all.h"

typedef struct { int *items; size_t count, room; } ints;

static void push(ints *list, int item) {
  if (list->count == list->room) {
    list->room = list->room ? list->room * 2 : 16;
    list->items = realloc(list->items, list->room * sizeof(int));
    if (!list->items) exit(2);
  }
  list->items[list->count++] = item;
}

/* Where each list begins; the next one begins where it ends. */
static ints literals, starts, hints, hint_starts;
static int vars;
static size_t given;
static int *stamps;    /* by literal: the number of the step in which it was made true */

static int *stamp(int literal) { return &stamps[literal + vars]; }

/* A conflict (0), the literal that is forced, or neither (vars + 1). */
static int weigh(size_t clause, int step) {
  int open = 0;
  for (int at = starts.items[clause]; at < starts.items[clause + 1]; at++) {
    int literal = literals.items[at];
    if (*stamp(-literal) == step) continue;
    if (*stamp(literal) == step) return vars + 1;
    if (open && open != literal) return vars + 1;
    open = literal;
  }
  return open;
}

static int follows(size_t index, int step) {
  size_t clause = given + index;
  for (int at = starts.items[clause]; at < starts.items[clause + 1]; at++) {
    int literal = literals.items[at];
    if (abs(literal) > vars || *stamp(literal) == step || *stamp(-literal) == step) return 0;
    *stamp(-literal) = step;
  }
  for (int at = hint_starts.items[index]; at < hint_starts.items[index + 1]; at++) {
    size_t hint = (size_t)hints.items[at];
    if (hint >= clause) return 0;
    int found = weigh(hint, step);
    if (found == 0) return at + 1 == hint_starts.items[index + 1];
    if (found == vars + 1) return 0;
    *stamp(found) = step;
  }
  return 0;
}

__attribute__((noinline)) static int derives(size_t steps) {
  if (!steps || starts.items[given + steps - 1] != starts.items[given + steps]) return 0;
  for (size_t index = 0; index < steps; index++)
    if (!follows(index, (int)index + 1)) return 0;
  return 1;
}

static void read_clause(char *line) {
  for (char *word = strtok(line, " "); word && strcmp(word, "0"); word = strtok(NULL, " ")) push(&literals, atoi(word));
  push(&starts, (int)literals.count);
}

static void read_hints(char *words) {
  for (char *word = strtok(words, " "); word; word = strtok(NULL, " ")) push(&hints, atoi(word));
  push(&hint_starts, (int)hints.count);
}

int main(void) {
  size_t steps = 0;
  push(&starts, 0);
  push(&hint_starts, 0);
  for (char *line = read_all(stdin), *next; line && *line; line = next) {
    next = strchr(line, '\n');
    if (next) *next++ = 0;
    if (*line == 'p') sscanf(line, "p cnf %d", &vars);
    else if (*line == 's') {
      char *colon = strchr(line, ':');
      *colon = 0;
      read_clause(line + 1);
      read_hints(colon + 1);
      steps++;
    } else if (*line && *line != 'c') { read_clause(line); given++; }
  }
  struct timespec before, after;
  clock_gettime(CLOCK_MONOTONIC, &before);
  stamps = calloc(2 * (size_t)vars + 1, sizeof(int));
  int answer = derives(steps);
  clock_gettime(CLOCK_MONOTONIC, &after);
  printf("%s %ld\n", answer ? "true" : "false", (after.tv_sec - before.tv_sec) * 1000000L + (after.tv_nsec - before.tv_nsec) / 1000);
  return 0;
}
