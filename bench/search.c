/* The search, written plainly: clauses as DIMACS writes them, each in a line, and at most as many conflicts as the argument says.
   Makes the steps of `solve`, one by one, so that what the code of `solve` costs can be told from what its search costs. Prints what
   the program of search.rt.txt prints, with the microseconds that the search used of the processor. */
#include <stdio.h>
#include <stdlib.h>
#include <string.h>
#include <time.h>

#include "read_all.h"

typedef unsigned long long u64;
typedef struct { int *items; size_t count, room; } ints;
/* The watched literals of a clause, and where in it the next look for one begins. */
typedef struct { int first, second; size_t resume; } pair;

enum { MOST_SWEEPS = 4, MOST_MOVED = 1 << 12, SHORT = 8, NOWHERE = -1, TAKEN_OUT = -2, NO_REASON = -1 };
static const u64 FIRST = 1 << 26, GREATEST = 1ULL << 50;
static const int LOST = 40;

static int vars;
static size_t given, count, clause_room;
static ints *clauses, *hints;  /* hints: of learned clauses, the conflict last */
static pair *pairs;
static ints *lists;            /* by literal: the clauses that watch it */
static ints trail, reasons, starts;
static int *places;            /* by literal: one more than its place on the trail, 0 if it is not there */
static size_t propagated;
static char *marks;

static u64 *scores, increment;
static int *heap, *heap_places, heap_count;
/* Variables that the heap gave and that had nothing to do with a conflict since, in that order; those before `drawn_next` were taken again. */
static int *drawn, *drawn_places, drawn_count, drawn_next;
static char *phases;

static void *allocated(size_t size) {
  void *room = calloc(size ? size : 1, 1);
  if (!room) exit(2);
  return room;
}

static void *grown(void *items, size_t size) {
  items = realloc(items, size);
  if (!items) exit(2);
  return items;
}

static void push(ints *list, int item) {
  if (list->count == list->room) {
    list->room = list->room ? list->room * 2 : 4;
    list->items = grown(list->items, list->room * sizeof(int));
  }
  list->items[list->count++] = item;
}

static size_t number_of(int literal) { return literal > 0 ? 2 * (size_t)literal : 2 * (size_t)-literal + 1; }
static int is_true(int literal) { return places[number_of(literal)] != 0; }
static int is_false(int literal) { return places[number_of(-literal)] != 0; }

/* ---- the order */

static int is_before(int variable, int other) {
  u64 score = scores[variable], beside = scores[other];
  return score > beside || (score == beside && variable > other);
}

static void put(int place, int variable) { heap[place] = variable; heap_places[variable] = place; }

static void move_up(int place, int variable) {
  while (place > 0 && is_before(variable, heap[(place - 1) / 2])) {
    put(place, heap[(place - 1) / 2]);
    place = (place - 1) / 2;
  }
  put(place, variable);
}

static void move_down(int place, int variable) {
  while (place < heap_count / 2) {
    int next = 2 * place + 1;
    if (next + 1 < heap_count && is_before(heap[next + 1], heap[next])) next++;
    if (!is_before(heap[next], variable)) break;
    put(place, heap[next]);
    place = next;
  }
  put(place, variable);
}

static void begin_order(void) {
  scores = allocated(((size_t)vars + 1) * sizeof(u64));
  heap = allocated((size_t)vars * sizeof(int));
  heap_places = allocated(((size_t)vars + 1) * sizeof(int));
  drawn = allocated((size_t)vars * sizeof(int));
  drawn_places = allocated(((size_t)vars + 1) * sizeof(int));
  for (int variable = 0; variable <= vars; variable++) drawn_places[variable] = NOWHERE;
  phases = allocated((size_t)vars + 1);
  increment = FIRST;
  for (size_t clause = 0; clause < given; clause++)
    for (size_t at = 0; at < clauses[clause].count; at++) scores[abs(clauses[clause].items[at])] += clauses[clause].count <= 2 ? SHORT : 1;
  heap_count = vars;
  for (int place = 0; place < vars; place++) put(place, vars - place);
  for (int place = heap_count / 2; place-- > 0;) move_down(place, heap[place]);
}

/* The variable that comes first of those that wait; 0 if none does. */
static int next_variable(void) {
  if (drawn_next < drawn_count && !(heap_count > 0 && is_before(heap[0], drawn[drawn_next]))) return drawn[drawn_next++];
  if (!heap_count) return 0;
  int first = heap[0];
  move_down(0, heap[--heap_count]);
  heap_places[first] = NOWHERE;
  if (drawn_places[first] == NOWHERE && drawn_next == drawn_count) {
    drawn_places[first] = drawn_count;
    drawn[drawn_count++] = first;
    drawn_next = drawn_count;
  }
  return first;
}

static void release(int literal) {
  int variable = abs(literal);
  phases[variable] = literal > 0;
  if (drawn_places[variable] >= 0) {
    if (drawn_places[variable] < drawn_next) drawn_next = drawn_places[variable];
  } else if (heap_places[variable] == NOWHERE) move_up(heap_count++, variable);
}

static void bump(int literal) {
  if (!scores) return; /* nothing was decided, and nothing will be */
  int variable = abs(literal);
  scores[variable] += increment;
  drawn_places[variable] = TAKEN_OUT;
  if (heap_places[variable] != NOWHERE) move_up(heap_places[variable], variable);
}

static void decay(void) {
  increment += increment / 32;
  if (increment <= GREATEST) return;
  increment >>= LOST;
  for (int variable = 0; variable <= vars; variable++) scores[variable] >>= LOST;
}

/* ---- what is true, and what is watched */

static void enqueue(int literal, int reason) {
  push(&trail, literal);
  places[number_of(literal)] = (int)trail.count;
  push(&reasons, reason);
}

static void watch(int first, int second, size_t resume) {
  int clause = (int)count - 1;
  push(&lists[number_of(first)], clause);
  push(&lists[number_of(second)], clause);
  pairs[clause] = (pair){first, second, resume};
}

static ints *add_clause(void) {
  if (count == clause_room) {
    clause_room = clause_room ? clause_room * 2 : 1024;
    clauses = grown(clauses, clause_room * sizeof(ints));
    hints = grown(hints, clause_room * sizeof(ints));
    pairs = grown(pairs, clause_room * sizeof(pair));
  }
  clauses[count] = hints[count] = (ints){0};
  return &clauses[count++];
}

/* The place of a literal that is not false, besides this one; the number of literals, if there is none. */
static size_t replacement(const ints *clause, int other, size_t from) {
  for (size_t at = from; at < clause->count; at++)
    if (clause->items[at] != other && !is_false(clause->items[at])) return at;
  for (size_t at = 0; at < from && at < clause->count; at++)
    if (clause->items[at] != other && !is_false(clause->items[at])) return at;
  return clause->count;
}

/* Attaches the last clause. False if it is a conflict. */
static int watch_given(void) {
  const ints *clause = &clauses[count - 1];
  if (!clause->count) return 0;
  int first = clause->items[0];
  size_t second = is_true(first) ? clause->count : replacement(clause, first, 0);
  if (second < clause->count) { watch(first, clause->items[second], second); return 1; }
  if (is_false(first)) return 0;
  if (!is_true(first)) enqueue(first, (int)count - 1);
  watch(first, first, 0);
  return 1;
}

static void take_out(ints *list, size_t at) {
  if (list->count - at > MOST_MOVED) list->items[at] = list->items[list->count - 1];
  else memmove(list->items + at, list->items + at + 1, (list->count - at - 1) * sizeof(int));
  list->count--;
}

/* Visits each clause that watches a literal, which is false. The number of a conflict, or -1. */
static int propagate_literal(int off) {
  ints *list = &lists[number_of(off)];
  for (size_t at = 0; at < list->count;) {
    int clause = list->items[at];
    pair *watched = &pairs[clause];
    int other = watched->first == off ? watched->second : watched->first;
    if (is_true(other)) { at++; continue; }
    size_t place = replacement(&clauses[clause], other, watched->resume);
    if (place < clauses[clause].count) {
      int second = clauses[clause].items[place];
      take_out(list, at);
      push(&lists[number_of(second)], clause);
      *watched = (pair){other, second, place};
      continue;
    }
    if (is_false(other)) return clause;
    enqueue(other, clause);
    at++;
  }
  return -1;
}

static int propagate(void) {
  for (; propagated < trail.count; propagated++) {
    int conflict = propagate_literal(-trail.items[propagated]);
    if (conflict >= 0) return conflict;
  }
  return -1;
}

/* The literal that is decided next; 0 if each variable has a value. */
static int decision(void) {
  for (int variable; (variable = next_variable());) {
    if (!is_true(variable) && !is_false(variable)) return phases[variable] ? variable : -variable;
  }
  return 0;
}

/* ---- what a conflict shows */

/* Marks what makes the literals of a clause false. How many of the new marks are of the last level. */
static size_t mark(int clause, size_t floor) {
  size_t found = 0;
  for (size_t at = 0; at < clauses[clause].count; at++) {
    int place = places[number_of(-clauses[clause].items[at])] - 1;
    if (place < 0 || marks[place]) continue;
    marks[place] = 1;
    found += (size_t)place >= floor;
    bump(clauses[clause].items[at]);
  }
  return found;
}

/* Learns the clause of a conflict, with so many literals of the last level. */
static void analyze(int conflict, size_t floor, size_t keep) {
  ints resolved = {0};
  marks = grown(marks, trail.count + 1);
  memset(marks, 0, trail.count);
  size_t left = mark(conflict, floor);
  push(&resolved, conflict);
  for (size_t top = trail.count; left > keep;) {
    if (!marks[--top]) continue;
    marks[top] = 0;
    left--;
    left += mark(reasons.items[top], floor);
    push(&resolved, reasons.items[top]);
  }
  ints *clause = add_clause();
  for (size_t place = 0; place < trail.count; place++)
    if (marks[place]) push(clause, -trail.items[place]);
  while (resolved.count > 0) push(&hints[count - 1], resolved.items[--resolved.count]);
  free(resolved.items);
}

static void backtrack(size_t level) {
  size_t cut = (size_t)starts.items[level];
  for (size_t place = cut; place < trail.count; place++) {
    release(trail.items[place]);
    places[number_of(trail.items[place])] = 0;
  }
  trail.count = reasons.count = propagated = cut;
  starts.count = level;
}

static void learn(int conflict) {
  size_t floor = (size_t)starts.items[starts.count - 1], second = floor, end = trail.count, level = 0;
  analyze(conflict, floor, 1);
  while (!marks[end - 1]) end--;
  while (second > 0 && !marks[second - 1]) second--;
  int first = -trail.items[end - 1], beside = second ? -trail.items[second - 1] : first;
  while (level < starts.count && (size_t)starts.items[level] < second) level++;
  backtrack(level);
  enqueue(first, (int)count - 1);
  watch(first, beside, 0);
  decay();
}

static const char *solve(size_t conflicts, int conflict) {
  while (count - given < conflicts) {
    while (conflict < 0 && (conflict = propagate()) < 0) {
      int literal = decision();
      if (!literal) return "sat";
      push(&starts, (int)trail.count);
      enqueue(literal, NO_REASON);
    }
    if (!starts.count) { analyze(conflict, 0, 0); return "unsat"; }
    learn(conflict);
    conflict = -1;
  }
  return "spent";
}

/* ---- texts */

static void read_clauses(char *text) {
  while (*text) {
    if (*text == 'p') sscanf(text, "p cnf %d", &vars);
    if (*text != 'p' && *text != 'c' && *text != '\n') {
      ints *clause = add_clause();
      for (int literal; (literal = (int)strtol(text, &text, 10));) push(clause, literal);
    }
    text += strcspn(text, "\n");
    text += *text != 0;
  }
  given = count;
}

/* Attaches all clauses. The number of one that is a conflict already, or -1. */
static int begin(void) {
  lists = allocated((2 * (size_t)vars + 2) * sizeof(ints));
  for (count = 0; count < given;) {
    count++;
    if (!watch_given()) { int conflict = (int)count - 1; count = given; return conflict; }
  }
  return -1;
}

/* What a clause forces becomes true. False if it is a conflict. */
static int sweep_clause(int number) {
  const ints *clause = &clauses[number];
  int forced = 0;
  for (size_t at = 0; at < clause->count; at++) {
    int literal = clause->items[at];
    if (is_false(literal) || literal == forced) continue;
    if (forced || is_true(literal)) return 1;
    forced = literal;
  }
  if (forced) enqueue(forced, number);
  return forced != 0;
}

/* Goes over all clauses a few times, before any is watched. The number of a conflict, or -1, and then nothing is true. */
static int sweep(void) {
  places = allocated((2 * (size_t)vars + 2) * sizeof(int));
  for (int sweep = 0; sweep < MOST_SWEEPS; sweep++) {
    size_t before = trail.count;
    for (size_t place = 0; place < given; place++) {
      int number = (int)(sweep % 2 ? given - 1 - place : place);
      if (!sweep_clause(number)) return number;
    }
    if (trail.count == before) break;
  }
  for (size_t place = 0; place < trail.count; place++) places[number_of(trail.items[place])] = 0;
  trail.count = reasons.count = 0;
  return -1;
}

static void print_log(void) {
  for (size_t clause = given; clause < count; clause++) {
    printf("s ");
    for (size_t at = 0; at < clauses[clause].count; at++) printf("%d ", clauses[clause].items[at]);
    putchar(':');
    for (size_t at = 0; at < hints[clause].count; at++) printf(" %d", hints[clause].items[at]);
    putchar('\n');
  }
}

int main(int words, char **word) {
  struct timespec before, after;
  read_clauses(read_all(stdin));
  clock_gettime(CLOCK_PROCESS_CPUTIME_ID, &before);
  int conflict = sweep();
  if (conflict < 0) {
    conflict = begin();
    begin_order();
  }
  const char *answer = solve(words > 1 ? strtoul(word[1], NULL, 10) : 1000000, conflict);
  clock_gettime(CLOCK_PROCESS_CPUTIME_ID, &after);
  size_t steps = *answer == 's' && answer[1] == 'a' ? 0 : count - given;
  printf("c %s %zu %ld\n", answer, steps, (after.tv_sec - before.tv_sec) * 1000000L + (after.tv_nsec - before.tv_nsec) / 1000);
  if (*answer == 'u') print_log();
  return 0;
}
