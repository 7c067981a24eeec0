/* Checks the log of one certificate: check_certs CLAUSES CERTIFICATES INDEX. CLAUSES is a file in DIMACS form, CERTIFICATES a file
   as "Certificates" in docs/FORMATS.md has it, and INDEX counts its entries from 0. Prints whether the log derives the empty clause,
   by the rules of "Logs" there. */
#include <ctype.h>
#include <stdio.h>
#include <stdlib.h>
#include <string.h>

typedef struct { long *items; size_t count, room; } list;

static void push(list *l, long item) {
  if (l->count == l->room) l->items = realloc(l->items, (l->room = l->room ? l->room * 2 : 64) * sizeof(long));
  if (!l->items) exit(2);
  l->items[l->count++] = item;
}

/* Clause n has the literals from starts[n] to starts[n + 1]; the clauses that are given come first, then those of the steps. */
static list literals, starts, hints, hint_starts;
static long vars, given;
static long *step_of; /* by literal: the step in which it is true */

static long *made(long literal) { return &step_of[literal + vars]; }

static char *text_of(const char *name) {
  FILE *file = fopen(name, "rb");
  size_t room = 1 << 16, count = 0;
  char *text = malloc(room);
  if (!file || !text) exit(2);
  while ((count += fread(text + count, 1, room - count - 1, file)) + 1 == room)
    if (!(text = realloc(text, room *= 2))) exit(2);
  text[count] = 0;
  fclose(file);
  return text;
}

static void read_clauses(char *text) {
  for (char *line = strtok(text, "\n"); line; line = strtok(NULL, "\n")) {
    if (*line == 'p') sscanf(line, "p cnf %ld", &vars);
    if (*line == 'p' || *line == 'c') continue;
    for (long l; (l = strtol(line, &line, 10)) != 0; push(&literals, l))
      if (labs(l) > vars) exit(2);
    push(&starts, (long)literals.count);
    given++;
  }
}

/* ---- the certificates */

static char *at;

static char peek(void) {
  while (isspace((unsigned char)*at)) at++;
  return *at;
}

static void take(const char *word) {
  for (; *word; word++, at++)
    if (peek() != *word) { puts("not a file of certificates"); exit(2); }
}

static long number(void) { peek(); return strtol(at, &at, 10); }

/* A list, each item by this function. */
static void each(void (*item)(void)) {
  take("[");
  while (peek() != ']') { item(); if (peek() == ',') at++; }
  take("]");
}

static int asked;
static void skip(void) { number(); }
static void instance(void) { take("["); number(); take(","); each(skip); take("]"); }
static void literal(void) { long l = number(); if (asked == 0) push(&literals, l); }
static void hint(void) { long h = number(); if (asked == 0) push(&hints, h); }

static void step(void) {
  take("["); each(literal); take(","); each(hint); take("]");
  if (asked == 0) { push(&starts, (long)literals.count); push(&hint_starts, (long)hints.count); }
}

static void cert(void) {
  take("{\"instances\":"); each(instance); take(",\"log\":"); each(step); take("}");
  asked--;
}

/* ---- the log */

/* A conflict (0), the literal that has to be true, or neither (vars + 1). */
static long weigh(long clause, long now) {
  long open = 0;
  for (long i = starts.items[clause]; i < starts.items[clause + 1]; i++) {
    long l = literals.items[i];
    if (*made(-l) == now) continue;
    if (*made(l) == now || (open && open != l)) return vars + 1;
    open = l;
  }
  return open;
}

static int follows(long index, long now) {
  long clause = given + index, last = hint_starts.items[index + 1];
  for (long i = starts.items[clause]; i < starts.items[clause + 1]; i++) {
    long l = literals.items[i];
    if (l == 0 || labs(l) > vars || *made(l) == now || *made(-l) == now) return 0;
    *made(-l) = now;
  }
  for (long i = hint_starts.items[index]; i < last; i++) {
    long found = hints.items[i] >= 0 && hints.items[i] < clause ? weigh(hints.items[i], now) : vars + 1;
    if (found == 0) return i + 1 == last;
    if (found == vars + 1) return 0;
    *made(found) = now;
  }
  return 0;
}

int main(int count, char **words) {
  if (count != 4) { puts("check_certs CLAUSES CERTIFICATES INDEX"); return 2; }
  push(&starts, 0);
  push(&hint_starts, 0);
  read_clauses(text_of(words[1]));
  asked = atoi(words[3]);
  at = text_of(words[2]);
  take("{\"certs\":"); each(cert); take(",\"cocoon\":1}");
  step_of = calloc(2 * (size_t)vars + 1, sizeof(long));
  long steps = (long)hint_starts.count - 1, good = step_of && asked < 0 && steps > 0 && starts.items[given + steps - 1] == starts.items[given + steps];
  for (long index = 0; good && index < steps; index++) good = follows(index, index + 1);
  puts(good ? "derives the empty clause" : "derives nothing");
  return good ? 0 : 1;
}
