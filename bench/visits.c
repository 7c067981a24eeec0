/* Switches and networks, run plainly. A program is a tree that is walked for each packet, and rows are searched.

   visits visits                            reads what the program `text_tests` reads with the word `visits`: a count of packets in the
   visits each                              first line, the words of a program in the second, and those of its rows in the third
                                            (docs/CASES.md). Runs as many packets through its ingress, and prints one number that all
                                            results make; with the word `each` every result in a line
   visits forward NETWORK PACKETS HOPS      reads a network as plain_form.py writes it, and a file of packets, and prints what
                                            `cocoon forward` does of them
   visits grouped NETWORK PACKETS HOPS      the same, with the rows of each table in groups of equal masks

   It takes fields of at most 64 bits. Of a table whose rows are all literal it sorts them; those of any other it tries one by one, or
   with the word `grouped` searches each group by halves: the first row of all groups that match decides.
   A part in quotes, as `"3 a#"`, stands there three times, with 0, 1 and 2 for `#`. */
#include <stdint.h>
#include <stdio.h>
#include <stdlib.h>
#include <string.h>

typedef unsigned __int128 wide;

static void fail(const char *what) {
  fprintf(stderr, "visits: %s\n", what);
  exit(2);
}

static void *room(size_t count, size_t size) {
  void *made = calloc(count ? count : 1, size);
  if (!made) fail("no memory");
  return made;
}

/* Room for one more behind so many; it doubles. */
static void *one_more(void *items, size_t count, size_t size) {
  if (count & (count - 1)) return items;
  void *made = realloc(items, (count ? 2 * count : 1) * size);
  if (!made) fail("no memory");
  return made;
}

/* ---- programs */

typedef enum { LITERAL, META, FIELD, PORT, RID, ADD, SUB, AND, OR, XOR, JOIN, EQUAL, UNEQUAL, LESS, AT_MOST, MORE, AT_LEAST, BOTH, EITHER,
               FLIP, NOT, SLICE, PICK } kind;

typedef struct expr {
  kind kind;
  int width, index, low;
  wide value;
  struct expr *a, *b, *c;
} expr;

typedef enum { SET_META, SET_FIELD, APPLY, IF, VERDICT, EGRESS_PORT, GROUP, RETURN } act;

typedef struct { struct stmt *stmts; size_t count; } block;

typedef struct stmt {
  act act;
  int index;
  expr *value;
  block first, second;
} stmt;

enum { MOST = 4096, MOST_KEYS = 8, MOST_OPEN = 256 };

/* Rows that stand side by side. */
typedef struct { size_t from, count; } span;

typedef struct {
  unsigned number, key_count, result;
  unsigned keys[MOST_KEYS];
  int sorted; /* all rows are literal, and stand in the order of their values */
  size_t count, group_count;
  span *groups; /* where there are any, rows with the same masks, in the order of their values */
  uint64_t *values, *masks, *results, *places, otherwise;
} table;

typedef struct { uint64_t number, *members; size_t count; } group;

typedef struct {
  size_t field_count, meta_count, table_count, header_count, group_count, header_bits;
  int field_widths[MOST], meta_widths[MOST];
  size_t first_fields[MOST_OPEN];
  table *tables;
  group *groups;
  block ingress, egress;
} program;

static program *now; /* the one that is read, or run */

/* ---- reading */

static expr *stack[MOST];
static size_t depth;

static expr *pop(void) { return depth ? stack[--depth] : (fail("no operand"), NULL); }

static void push(expr e) {
  expr *made = room(1, sizeof e);
  *made = e;
  if (depth == MOST) fail("deep");
  stack[depth++] = made;
}

static void binary(kind k) {
  expr *b = pop(), *a = pop();
  int width = k == JOIN ? a->width + b->width : k >= EQUAL ? 0 : a->width;
  push((expr){ .kind = k, .width = width, .a = a, .b = b });
}

static void unary(kind k) {
  expr *a = pop();
  push((expr){ .kind = k, .width = a->width, .a = a });
}

static void pick(void) {
  expr *b = pop(), *a = pop(), *c = pop();
  push((expr){ .kind = PICK, .width = a->width, .a = a, .b = b, .c = c });
}

/* The blocks that are open, outermost first, and those that were closed and stand in no statement yet. */
static block open[MOST_OPEN], closed[MOST_OPEN];
static size_t blocks, closed_count;

static void begin_block(void) {
  if (++blocks == MOST_OPEN) fail("deep");
  open[blocks] = (block){ 0 };
}

static void end_block(void) {
  if (closed_count == MOST_OPEN || !blocks) fail("blocks");
  closed[closed_count++] = open[blocks--];
}

static block last_closed(void) { return closed_count ? closed[--closed_count] : (fail("no block"), open[0]); }

static void add(stmt s) {
  block *b = &open[blocks];
  b->stmts = one_more(b->stmts, b->count, sizeof s);
  b->stmts[b->count++] = s;
}

static int in_egress;

static void begin_egress(void) {
  now->ingress = open[0];
  open[0] = (block){ 0 };
  in_egress = 1;
}

static void add_choice(int has_second) {
  block second = { 0 };
  if (has_second) second = last_closed();
  block first = last_closed();
  add((stmt){ .act = IF, .value = pop(), .first = first, .second = second });
}

static table *table_of(unsigned number) {
  for (size_t i = 0; i < now->table_count; i++)
    if (now->tables[i].number == number) return &now->tables[i];
  return fail("no such table"), NULL;
}

static void add_table(const char *word) {
  table t = { 0 };
  char *at;
  t.number = (unsigned)strtoul(word, &at, 10);
  t.result = (unsigned)strtoul(at + 1, &at, 10);
  while (*at == ':' || *at == ',') {
    if (t.key_count == MOST_KEYS) fail("many keys");
    t.keys[t.key_count++] = (unsigned)strtoul(at + 1, &at, 10);
  }
  now->tables = one_more(now->tables, now->table_count, sizeof t);
  now->tables[now->table_count++] = t;
}

static void add_field(unsigned width) {
  if (now->field_count == MOST || width > 64) fail("fields");
  now->field_widths[now->field_count++] = (int)width;
  now->header_bits += width;
}

static void add_meta(unsigned width) {
  if (now->meta_count == MOST || width > 64) fail("meta fields");
  now->meta_widths[now->meta_count++] = (int)width;
}

static void add_header(void) {
  if (++now->header_count == MOST_OPEN) fail("headers");
  now->first_fields[now->header_count] = now->field_count;
}

static int field_at(unsigned header, unsigned field) { return (int)(now->first_fields[header] + field); }

/* Whether the word is an operator or a statement without numbers in it; it is read. */
static int read_plain_word(const char *word) {
  static const struct { const char *word; kind kind; } operators[] = {
    { "+", ADD }, { "-", SUB }, { "&", AND }, { "|", OR }, { "^", XOR }, { "++", JOIN }, { "==", EQUAL }, { "!=", UNEQUAL }, { "<", LESS },
    { "<=", AT_MOST }, { ">", MORE }, { ">=", AT_LEAST }, { "&&", BOTH }, { "||", EITHER } };
  for (size_t i = 0; i < sizeof operators / sizeof *operators; i++)
    if (!strcmp(word, operators[i].word)) return binary(operators[i].kind), 1;
  if (!strcmp(word, "~")) unary(FLIP);
  else if (!strcmp(word, "!")) unary(NOT);
  else if (!strcmp(word, "?")) pick();
  else if (!strcmp(word, "port")) push((expr){ .kind = PORT, .width = 16 });
  else if (!strcmp(word, "rid")) push((expr){ .kind = RID, .width = 64 });
  else if (!strcmp(word, "true")) push((expr){ .kind = LITERAL, .value = 1 });
  else if (!strcmp(word, "false")) push((expr){ .kind = LITERAL, .value = 0 });
  else if (!strcmp(word, "egress_port")) add((stmt){ .act = EGRESS_PORT, .value = pop() });
  else if (!strcmp(word, "group")) add((stmt){ .act = GROUP, .value = pop() });
  else if (!strcmp(word, "return")) add((stmt){ .act = RETURN });
  else if (!strcmp(word, "{")) begin_block();
  else if (!strcmp(word, "}")) end_block();
  else if (!strcmp(word, "if")) add_choice(0);
  else if (!strcmp(word, "else")) add_choice(1);
  else if (!strcmp(word, "egress")) begin_egress();
  else return 0;
  return 1;
}

static void read_word(const char *word) {
  unsigned a, b;
  unsigned long long n;
  char name[64];
  if (read_plain_word(word)) return;
  if (sscanf(word, "field:%63[^:]:%u", name, &a) == 2) add_field(a);
  else if (sscanf(word, "meta:%63[^:]:%u", name, &a) == 2) add_meta(a);
  else if (!strncmp(word, "header:", 7)) add_header();
  else if (!strncmp(word, "exact:", 6)) add_table(word + 6);
  else if (!strncmp(word, "ternary:", 8)) add_table(word + 8);
  else if (sscanf(word, "h:%u.%u", &a, &b) == 2)
    push((expr){ .kind = FIELD, .width = now->field_widths[field_at(a, b)], .index = field_at(a, b) });
  else if (sscanf(word, "m:%u", &a) == 1) push((expr){ .kind = META, .width = now->meta_widths[a], .index = (int)a });
  else if (sscanf(word, "slice:%u.%u", &a, &b) == 2) push((expr){ .kind = SLICE, .width = (int)(a - b + 1), .low = (int)b, .a = pop() });
  else if (sscanf(word, "%uw%llu", &a, &n) == 2) push((expr){ .kind = LITERAL, .width = (int)a, .value = n });
  else if (sscanf(word, "set:%u.%u", &a, &b) == 2) add((stmt){ .act = SET_FIELD, .index = field_at(a, b), .value = pop() });
  else if (sscanf(word, "set:%u", &a) == 1) add((stmt){ .act = SET_META, .index = (int)a, .value = pop() });
  else if (sscanf(word, "apply:%u", &a) == 1) add((stmt){ .act = APPLY, .index = (int)(table_of(a) - now->tables) });
  else if (sscanf(word, "verdict:%u", &a) == 1) add((stmt){ .act = VERDICT, .index = (int)a });
  else fail(word);
}

/* ---- rows */

typedef struct { uint64_t values[MOST_KEYS], masks[MOST_KEYS], result; size_t place; } row;
static row *rows;
static size_t row_count, compared;
static int grouped; /* rows are grouped by their masks */

static int compare(const void *a, const void *b) {
  const row *x = a, *y = b;
  for (size_t i = 0; grouped && i < compared; i++)
    if (x->masks[i] != y->masks[i]) return x->masks[i] < y->masks[i] ? -1 : 1;
  for (size_t i = 0; i < compared; i++)
    if (x->values[i] != y->values[i]) return x->values[i] < y->values[i] ? -1 : 1;
  return x->place < y->place ? -1 : x->place > y->place;
}

static wide mask(int width) { return width == 128 ? ~(wide)0 : ((wide)1 << width) - 1; }

static int all_literal(const table *t) {
  for (size_t i = 0; i < row_count; i++)
    for (unsigned key = 0; key < t->key_count; key++)
      if (rows[i].masks[key] != mask(now->meta_widths[t->keys[key]])) return 0;
  return 1;
}

/* The row is in the last group. */
static void group_row(table *t, size_t bytes) {
  if (!t->count || memcmp(t->masks + t->count * t->key_count, t->masks + (t->count - 1) * t->key_count, bytes)) {
    t->groups = one_more(t->groups, t->group_count, sizeof *t->groups);
    t->groups[t->group_count++] = (span){ .from = t->count };
  }
  t->groups[t->group_count - 1].count++;
}

/* The rows that were read are those of this table. Of literal ones with the same values only the first counts, and so it is in a group. */
static void end_rows(table *t, uint64_t otherwise) {
  size_t bytes = t->key_count * sizeof(uint64_t);
  t->sorted = all_literal(t);
  compared = t->key_count;
  if ((t->sorted || grouped) && row_count) qsort(rows, row_count, sizeof *rows, compare);
  t->values = room(row_count, bytes);
  t->masks = room(row_count, bytes);
  t->results = room(row_count, sizeof(uint64_t));
  t->places = room(row_count, sizeof(uint64_t));
  t->otherwise = otherwise;
  for (size_t i = 0; i < row_count; i++) {
    int follows = (t->sorted || grouped) && t->count;
    if (follows && !memcmp(rows[i].values, t->values + (t->count - 1) * t->key_count, bytes)
        && !memcmp(rows[i].masks, t->masks + (t->count - 1) * t->key_count, bytes))
      continue;
    memcpy(t->values + t->count * t->key_count, rows[i].values, bytes);
    memcpy(t->masks + t->count * t->key_count, rows[i].masks, bytes);
    if (grouped && !t->sorted) group_row(t, bytes);
    t->places[t->count] = rows[i].place;
    t->results[t->count++] = rows[i].result;
  }
  row_count = 0;
}

static void add_row(const char *word) {
  rows = one_more(rows, row_count, sizeof *rows);
  row *r = &rows[row_count];
  char *at = (char *)word;
  size_t count = 0, key = 0;
  do r->values[count++] = strtoull(at + 1, &at, 10); while (*at == ',' && count < MOST_KEYS);
  do r->masks[key++] = strtoull(at + 1, &at, 10); while (*at == ',' && key < count);
  for (key = 0; key < count; key++) r->values[key] &= r->masks[key];
  r->result = strtoull(at + 1, &at, 10);
  r->place = row_count++;
}

static void add_group(const char *word) {
  group g = { 0 };
  char *at;
  g.number = strtoull(word, &at, 10);
  while ((*at == ':' || *at == ',') && at[1]) {
    g.members = one_more(g.members, g.count, sizeof *g.members);
    g.members[g.count++] = strtoull(at + 1, &at, 10);
  }
  now->groups = one_more(now->groups, now->group_count, sizeof g);
  now->groups[now->group_count++] = g;
}

static void read_row_word(const char *word) {
  unsigned number;
  unsigned long long otherwise;
  if (sscanf(word, "rows:%u:%llu", &number, &otherwise) == 2) end_rows(table_of(number), otherwise);
  else if (!strncmp(word, "row:", 4)) add_row(word + 3);
  else if (!strncmp(word, "members:", 8)) add_group(word + 8);
  else fail(word);
}

/* ---- shorthand */

static void words(char *text, void (*read)(const char *)) {
  for (char *word = strtok(text, " "); word; word = strtok(NULL, " ")) read(word);
}

/* The words of a line, piece by piece; a piece in quotes as often as its first word says. */
static void read_line(char *line, void (*read)(const char *)) {
  int quoted = 0;
  for (char *piece = line, *end; piece; piece = end, quoted = !quoted) {
    if ((end = strchr(piece, '"'))) *end++ = 0;
    if (!quoted) { words(piece, read); continue; }
    char *repeated;
    unsigned long times = strtoul(piece, &repeated, 10);
    char *made = room(strlen(repeated) * 12 + 1, 1);
    for (unsigned long time = 0; time < times; time++) {
      char *to = made;
      for (const char *from = repeated; *from; from++)
        if (*from == '#') to += sprintf(to, "%lu", time);
        else *to++ = *from;
      *to = 0;
      words(made, read);
    }
    free(made);
  }
}

/* The next line of a file, without what ends it; NULL at the end. */
static char *next_line(FILE *file) {
  static char *made;
  static size_t size;
  if (getline(&made, &size, file) < 0) return NULL;
  made[strcspn(made, "\n")] = 0;
  return made;
}

static char *line_of(FILE *file) {
  char *line = next_line(file);
  return line ? line : (fail("no line"), NULL);
}

/* A program and its rows: two lines. What stands in its last control is in the block that is open. */
static void read_program(FILE *file, program *p) {
  now = p;
  open[0] = (block){ 0 };
  read_line(line_of(file), read_word);
  if (in_egress) p->egress = open[0];
  else p->ingress = open[0];
  in_egress = 0;
  read_line(line_of(file), read_row_word);
}

/* ---- a visit */

static uint64_t fields[MOST], meta[MOST], rid;
static unsigned char headers[8 * MOST];
static unsigned verdict, egress_port, chosen_group, port;

static wide value(const expr *e) {
  switch (e->kind) {
    case LITERAL: return e->value;
    case META: return meta[e->index];
    case FIELD: return fields[e->index];
    case PORT: return port;
    case RID: return rid;
    case ADD: return (value(e->a) + value(e->b)) & mask(e->width);
    case SUB: return (value(e->a) - value(e->b)) & mask(e->width);
    case AND: return value(e->a) & value(e->b);
    case OR: return value(e->a) | value(e->b);
    case XOR: return value(e->a) ^ value(e->b);
    case JOIN: { wide high = value(e->a); return high << e->b->width | value(e->b); }
    case EQUAL: return value(e->a) == value(e->b);
    case UNEQUAL: return value(e->a) != value(e->b);
    case LESS: return value(e->a) < value(e->b);
    case AT_MOST: return value(e->a) <= value(e->b);
    case MORE: return value(e->a) > value(e->b);
    case AT_LEAST: return value(e->a) >= value(e->b);
    case BOTH: return value(e->a) && value(e->b);
    case EITHER: return value(e->a) || value(e->b);
    case FLIP: return ~value(e->a) & mask(e->width);
    case NOT: return !value(e->a);
    case PICK: return value(e->c) ? value(e->a) : value(e->b);
    default: return value(e->a) >> e->low & mask(e->width);
  }
}

static uint64_t look_up_sorted(const table *t) {
  size_t low = 0, high = t->count;
  while (low < high) {
    size_t middle = low + (high - low) / 2;
    const uint64_t *values = t->values + middle * t->key_count;
    unsigned key = 0;
    while (key < t->key_count && values[key] == meta[t->keys[key]]) key++;
    if (key == t->key_count) return t->results[middle];
    if (values[key] < meta[t->keys[key]]) low = middle + 1;
    else high = middle;
  }
  return t->otherwise;
}

static uint64_t first_match(const table *t) {
  uint64_t keys[MOST_KEYS];
  for (unsigned key = 0; key < t->key_count; key++) keys[key] = meta[t->keys[key]];
  const uint64_t *values = t->values, *masks = t->masks;
  for (size_t i = 0; i < t->count; i++, values += t->key_count, masks += t->key_count) {
    unsigned key = 0;
    while (key < t->key_count && (keys[key] & masks[key]) == values[key]) key++;
    if (key == t->key_count) return t->results[i];
  }
  return t->otherwise;
}

/* The row of a group that matches, or none: -1. */
static size_t in_group(const table *t, span g) {
  uint64_t keys[MOST_KEYS];
  const uint64_t *masks = t->masks + g.from * t->key_count;
  for (unsigned key = 0; key < t->key_count; key++) keys[key] = meta[t->keys[key]] & masks[key];
  size_t low = g.from, high = g.from + g.count;
  while (low < high) {
    size_t middle = low + (high - low) / 2;
    const uint64_t *values = t->values + middle * t->key_count;
    unsigned key = 0;
    while (key < t->key_count && values[key] == keys[key]) key++;
    if (key == t->key_count) return middle;
    if (values[key] < keys[key]) low = middle + 1;
    else high = middle;
  }
  return (size_t)-1;
}

static uint64_t first_of_groups(const table *t) {
  uint64_t place = UINT64_MAX, result = t->otherwise;
  for (size_t i = 0; i < t->group_count; i++) {
    size_t found = in_group(t, t->groups[i]);
    if (found != (size_t)-1 && t->places[found] < place) {
      place = t->places[found];
      result = t->results[found];
    }
  }
  return result;
}

static uint64_t look_up(const table *t) { return t->sorted ? look_up_sorted(t) : t->groups ? first_of_groups(t) : first_match(t); }

/* Whether the statements returned. */
static int run(block b) {
  for (const stmt *s = b.stmts; s < b.stmts + b.count; s++)
    switch (s->act) {
      case SET_META: meta[s->index] = (uint64_t)value(s->value); break;
      case SET_FIELD: fields[s->index] = (uint64_t)value(s->value); break;
      case APPLY: { const table *t = &now->tables[s->index]; meta[t->result] = look_up(t); break; }
      case IF: if (run(value(s->value) ? s->first : s->second)) return 1; break;
      case VERDICT: verdict = (unsigned)s->index; break;
      case EGRESS_PORT: egress_port = (unsigned)value(s->value); break;
      case GROUP: chosen_group = (unsigned)value(s->value); break;
      case RETURN: return 1;
    }
  return 0;
}

static void cut(const unsigned char *bytes) {
  wide pending = 0;
  int count = 0;
  for (size_t i = 0; i < now->field_count; i++) {
    while (count < now->field_widths[i]) { pending = pending << 8 | *bytes++; count += 8; }
    count -= now->field_widths[i];
    fields[i] = (uint64_t)(pending >> count & mask(now->field_widths[i]));
  }
}

static void join(void) {
  wide pending = 0;
  int count = 0;
  size_t at = 0;
  for (size_t i = 0; i < now->field_count; i++) {
    pending = pending << now->field_widths[i] | fields[i];
    count += now->field_widths[i];
    while (count >= 8) { count -= 8; headers[at++] = (unsigned char)(pending >> count); }
  }
}

static void ingress(const unsigned char *bytes) {
  cut(bytes);
  memset(meta, 0, now->meta_count * sizeof *meta);
  verdict = egress_port = chosen_group = 0;
  run(now->ingress);
  join();
}

static void egress(void) {
  verdict = egress_port = 0;
  run(now->egress);
  join();
}

/* ---- many packets through one program */

static void run_visits(int each) {
  program *p = room(1, sizeof *p);
  unsigned long packets = strtoul(line_of(stdin), NULL, 10);
  read_program(stdin, p);
  if (p->header_bits > 64) fail("a long header");
  uint64_t course = 1, digest = 0;
  port = 1;
  for (unsigned long done = 0; done < packets; done++) {
    course = course * 6364136223846793005u + 1442695040888963407u;
    unsigned char bytes[8];
    for (int i = 0; i < 8; i++) bytes[i] = (unsigned char)(course >> (56 - 8 * i));
    ingress(bytes);
    if (each) {
      if (verdict != 1) printf("none");
      else printf("%u ", egress_port);
      for (size_t i = 0; verdict == 1 && i < p->header_bits / 8; i++) printf("%02x", headers[i]);
      printf("\n");
    } else {
      digest = digest * 31 + (verdict == 1 ? egress_port : 65536);
      for (size_t i = 0; verdict == 1 && i < p->header_bits / 8; i++) digest = digest * 31 + headers[i];
    }
  }
  if (!each) printf("%llu\n", (unsigned long long)digest);
}

/* ---- networks */

typedef enum { NOWHERE, AT_HOST, AT_SWITCH } place;
typedef struct { place place; uint64_t number; unsigned port; } end;
typedef struct { uint64_t number; program *program; end *links; size_t link_count; } switch_;
typedef struct { uint64_t number; end at; } host;

static switch_ *switches;
static host *hosts;
static size_t switch_count, host_count;

static switch_ *switch_of(uint64_t number) {
  for (size_t i = 0; i < switch_count; i++)
    if (switches[i].number == number) return &switches[i];
  return fail("no such switch"), NULL;
}

static host *host_of(uint64_t number) {
  for (size_t i = 0; i < host_count; i++)
    if (hosts[i].number == number) return &hosts[i];
  return fail("no such host"), NULL;
}

static void add_link(uint64_t number, unsigned from, end to) {
  switch_ *s = switch_of(number);
  for (; s->link_count <= from; s->link_count++) {
    s->links = one_more(s->links, s->link_count, sizeof *s->links);
    s->links[s->link_count] = (end){ 0 };
  }
  s->links[from] = to;
}

static void add_host(host h) {
  hosts = one_more(hosts, host_count, sizeof h);
  hosts[host_count++] = h;
}

static void add_switch(uint64_t number, FILE *file) {
  switch_ s = { .number = number, .program = room(1, sizeof *s.program) };
  read_program(file, s.program);
  switches = one_more(switches, switch_count, sizeof s);
  switches[switch_count++] = s;
}

static void read_network(const char *name) {
  FILE *file = fopen(name, "r");
  if (!file) fail(name);
  unsigned long long s, to;
  unsigned from, other;
  for (char *line; (line = next_line(file));) {
    if (sscanf(line, "switch %llu", &s) == 1) add_switch(s, file);
    else if (sscanf(line, "link %llu %u host %llu", &s, &from, &to) == 3) add_link(s, from, (end){ .place = AT_HOST, .number = to });
    else if (sscanf(line, "link %llu %u switch %llu %u", &s, &from, &to, &other) == 4)
      add_link(s, from, (end){ .place = AT_SWITCH, .number = to, .port = other });
    else if (sscanf(line, "host %llu %llu %u", &s, &to, &from) == 3)
      add_host((host){ .number = s, .at = { .place = AT_SWITCH, .number = to, .port = from } });
    else if (sscanf(line, "host %llu", &s) == 1) add_host((host){ .number = s });
    else fail(line);
  }
  fclose(file);
}

/* ---- a packet and its copies */

typedef struct { unsigned port; unsigned char *bytes; } departed;

/* The lines of deliveries, how many they are, and how many copies are on their way. */
static char *lines;
static size_t lines_length, lines_room, delivered, travelling;

static char *hex(char *to, const unsigned char *bytes, size_t length) {
  for (size_t i = 0; i < length; i++) {
    *to++ = "0123456789abcdef"[bytes[i] >> 4];
    *to++ = "0123456789abcdef"[bytes[i] & 15];
  }
  return to;
}

static void deliver(uint64_t number, const unsigned char *bytes, size_t length) {
  if (lines_room < lines_length + 2 * length + 32) {
    lines_room = 2 * (lines_length + 2 * length + 32);
    if (!(lines = realloc(lines, lines_room))) fail("no memory");
  }
  char *to = lines + lines_length;
  to += sprintf(to, "> %llu ", (unsigned long long)number);
  if (length) to = hex(to, bytes, length);
  else *to++ = '-';
  *to++ = '\n';
  lines_length = (size_t)(to - lines);
  delivered++;
}

static departed departing(const unsigned char *bytes, size_t length) {
  size_t front = now->header_bits / 8;
  unsigned char *all = room(length, 1);
  memcpy(all, headers, front);
  memcpy(all + front, bytes + front, length - front);
  return (departed){ .port = egress_port, .bytes = all };
}

/* What departs for each member of the group that ingress chose, in their order. */
static size_t copies(const unsigned char *bytes, size_t length, departed **all) {
  static uint64_t kept_fields[MOST], kept_meta[MOST];
  const group *g = now->groups, *end = g + now->group_count;
  size_t count = 0;
  while (g < end && g->number != chosen_group) g++;
  memcpy(kept_fields, fields, now->field_count * sizeof *fields);
  memcpy(kept_meta, meta, now->meta_count * sizeof *meta);
  for (size_t i = 0; g < end && i < g->count; i++) {
    memcpy(fields, kept_fields, now->field_count * sizeof *fields);
    memcpy(meta, kept_meta, now->meta_count * sizeof *meta);
    rid = g->members[i];
    egress();
    if (verdict != 1) continue;
    *all = one_more(*all, count, sizeof **all);
    (*all)[count++] = departing(bytes, length);
  }
  return count;
}

/* What departs from a visit of a switch. */
static size_t visit(const switch_ *s, unsigned in, const unsigned char *bytes, size_t length, departed **all) {
  now = s->program;
  port = in;
  if (length < now->header_bits / 8) return 0;
  ingress(bytes);
  if (verdict == 2) return copies(bytes, length, all);
  if (verdict != 1) return 0;
  *all = room(1, sizeof **all);
  **all = departing(bytes, length);
  return 1;
}

static void follow(end at, const unsigned char *bytes, size_t length, unsigned long visits) {
  if (at.place == NOWHERE) return;
  if (at.place == AT_HOST) { deliver(at.number, bytes, length); return; }
  if (!visits) { travelling++; return; }
  const switch_ *s = switch_of(at.number);
  departed *all = NULL;
  size_t count = visit(s, at.port, bytes, length, &all);
  for (size_t i = 0; i < count; i++) {
    if (all[i].port < s->link_count) follow(s->links[all[i].port], all[i].bytes, length, visits - 1);
    free(all[i].bytes);
  }
  free(all);
}

static unsigned digit(char c) { return (unsigned)(c <= '9' ? c - '0' : (c | 32) - 'a' + 10); }

static void run_packets(const char *name, unsigned long hops) {
  FILE *file = fopen(name, "r");
  if (!file) fail(name);
  size_t index = 0;
  for (char *line; (line = next_line(file));) {
    if (!*line) continue;
    char *at;
    uint64_t number = strtoull(line, &at, 10);
    size_t length = at[1] == '-' ? 0 : strlen(at + 1) / 2;
    unsigned char *bytes = room(length, 1);
    for (size_t i = 0; i < length; i++) bytes[i] = (unsigned char)(digit(at[1 + 2 * i]) << 4 | digit(at[2 + 2 * i]));
    lines_length = delivered = travelling = 0;
    follow(host_of(number)->at, bytes, length, hops);
    printf("%zu delivered %zu travelling %zu\n", ++index, delivered, travelling);
    if (lines_length) fwrite(lines, 1, lines_length, stdout);
    free(bytes);
  }
  fclose(file);
}

int main(int count, char **asked) {
  grouped = count == 5 && !strcmp(asked[1], "grouped");
  if (grouped || (count == 5 && !strcmp(asked[1], "forward"))) {
    read_network(asked[2]);
    run_packets(asked[3], strtoul(asked[4], NULL, 10));
  } else run_visits(count > 1 && !strcmp(asked[1], "each"));
  return 0;
}
