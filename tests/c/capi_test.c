/* Calls every function of include/citternblaze.h and prints what it answers;
 * capi_test.out has what must be printed. A number that no call may touch is
 * printed as "-". */
#define _POSIX_C_SOURCE 200112L
#define _DEFAULT_SOURCE
#include "citternblaze.h"

#include <inttypes.h>
#include <pthread.h>
#include <stdio.h>
#include <stdlib.h>
#include <string.h>
#include <sys/mman.h>

#define ROOM 8
/* answer areas just long enough, and too short by one */
#define ENOUGH CITTERNBLAZE_ANSWER_WORDS
#define SHORT (CITTERNBLAZE_ANSWER_WORDS - 1)
#define UNTOUCHED UINT64_C(0xa5a5a5a5a5a5a5a5)

static uint64_t answer[ROOM];

static void clear(void) {
  for (size_t i = 0; i < ROOM; i++)
    answer[i] = UNTOUCHED;
}

/* The number that a call returned, and the whole area behind it, which is made
 * ready for the next call. */
static void show(const char *call, size_t many) {
  printf("%s: %zu:", call, many);
  for (size_t i = 0; i < ROOM; i++) {
    if (answer[i] == UNTOUCHED)
      printf(" -");
    else
      printf(" %" PRIu64, answer[i]);
  }
  printf("\n");
  clear();
}

#define MOST_SUMS 258

/* The starts that edges with these counts have. */
static uint32_t *sums(const uint16_t *of, size_t len) {
  static uint32_t starts[MOST_SUMS];
  uint32_t sum = 0;
  for (size_t i = 0; i < len; i++) {
    starts[i] = sum;
    sum += of[i];
  }
  return starts;
}

static void face(const char *call, uint16_t ab, uint16_t ac, uint16_t bc,
                 uint32_t edge, uint32_t index, size_t answer_len) {
  show(call, citternblaze_face(ab, ac, bc, edge, index, answer, answer_len));
}

static void test_face(void) {
  face("face 5 1 1, edge 0, index 2", 5, 1, 1, 0, 2, ROOM);
  face("face 5 1 1, edge 0, index 4", 5, 1, 1, 0, 4, ROOM);
  face("face 5 1 1, edge 0, index 1", 5, 1, 1, 0, 1, ROOM);
  face("face 5 1 1, edge 0, index 5", 5, 1, 1, 0, 5, ROOM);
  face("face 5 1 1, edge 3, index 0", 5, 1, 1, 3, 0, ROOM);
  face("face 255 255 255, edge 0, index 128", 255, 255, 255, 0, 128, ROOM);
  face("face 0 255 255, edge 2, index 0", 0, 255, 255, 2, 0, ROOM);
  face("face 255 0 0, edge 4294967295, index 4294967295", 255, 0, 0, UINT32_MAX,
       UINT32_MAX, ROOM);
  face("face 1001 600 500, edge 2, index 450", 1001, 600, 500, 2, 450, ROOM);
  face("face 1001 600 500, edge 1, index 551", 1001, 600, 500, 1, 551, ROOM);
  face("face 65535 1 1, edge 0, index 65533", 65535, 1, 1, 0, 65533, ROOM);
  face("face 65535 1 1, edge 0, index 65535", 65535, 1, 1, 0, 65535, ROOM);
  face("face 5 1 1, edge 0, index 2, answer area of 6", 5, 1, 1, 0, 2, ENOUGH);
  face("face 5 1 1, edge 0, index 2, answer area of 5", 5, 1, 1, 0, 2, SHORT);
  face("face 5 1 1, edge 0, index 2, answer area of 0", 5, 1, 1, 0, 2, 0);
}

static void entry(const char *call, const uint16_t of[6], size_t answer_len) {
  show(call, citternblaze_case(of[0], of[1], of[2], of[3], of[4], of[5], answer,
                               answer_len));
}

static void test_case(void) {
  static const uint16_t none[6] = {0};
  static const uint16_t open[6] = {1, 1, 1, 1, 1, 1};
  static const uint16_t corner[6] = {1, 1, 1, 0, 0, 0};
  static const uint16_t rim[6] = {0, 0, 0, 1, 1, 1};
  static const uint16_t octagon[6] = {2, 1, 1, 1, 1, 2};
  static const uint16_t full[6] = {2, 2, 2, 2, 2, 2};
  static const uint16_t first[6] = {3, 0, 0, 0, 0, 0};
  static const uint16_t last[6] = {0, 0, 0, 0, 0, 3};
  static const uint16_t most[6] = {65535, 65535, 65535, 65535, 65535, 65535};
  entry("case 0 0 0 0 0 0", none, ROOM);
  entry("case 1 1 1 1 1 1", open, ROOM);
  entry("case 1 1 1 0 0 0", corner, ROOM);
  entry("case 0 0 0 1 1 1", rim, ROOM);
  entry("case 2 1 1 1 1 2", octagon, ROOM);
  entry("case 2 2 2 2 2 2", full, ROOM);
  entry("case 3 0 0 0 0 0, outside", first, ROOM);
  entry("case 0 0 0 0 0 3, outside", last, ROOM);
  entry("case 65535 65535 65535 65535 65535 65535, outside", most, ROOM);
  entry("case 2 1 1 1 1 2, answer area of 6", octagon, ENOUGH);
  entry("case 2 1 1 1 1 2, answer area of 5", octagon, SHORT);
  entry("case 2 1 1 1 1 2, answer area of 0", octagon, 0);
}

static void book(const char *call, const uint16_t of[6], size_t answer_len) {
  show(call, citternblaze_book(of[0], of[1], of[2], of[3], of[4], of[5], answer,
                               answer_len));
}

static void test_book(void) {
  static const uint16_t none[6] = {0};
  static const uint16_t corner[6] = {1, 1, 1, 0, 0, 0};
  static const uint16_t quad[6] = {0, 1, 1, 1, 1, 0};
  static const uint16_t octagon[6] = {2, 1, 1, 1, 1, 2};
  static const uint16_t spirals[6] = {11, 9, 8, 6, 9, 15};
  static const uint16_t turned[6] = {9, 11, 6, 12, 15, 5};
  static const uint16_t quads[6] = {4, 12, 9, 10, 7, 5};
  static const uint16_t most[6] = {65535, 65533, 65532, 65532, 65533, 65535};
  static const uint16_t split[6] = {4, 2, 6, 6, 2, 4};
  static const uint16_t not_split[6] = {3, 2, 5, 5, 2, 3};
  static const uint16_t longest[6] = {4092, 2, 4094, 4094, 2, 4092};
  static const uint16_t beyond[6] = {65532, 2, 65534, 65534, 2, 65532};
  static const uint16_t odd[6] = {1, 1, 1, 1, 1, 1};
  static const uint16_t above[6] = {2, 0, 0, 0, 0, 0};
  book("book 0 0 0 0 0 0", none, ROOM);
  book("book 1 1 1 0 0 0", corner, ROOM);
  book("book 0 1 1 1 1 0", quad, ROOM);
  book("book 2 1 1 1 1 2", octagon, ROOM);
  book("book 11 9 8 6 9 15", spirals, ROOM);
  book("book 9 11 6 12 15 5", turned, ROOM);
  book("book 4 12 9 10 7 5", quads, ROOM);
  book("book 65535 65533 65532 65532 65533 65535", most, ROOM);
  book("book 4 2 6 6 2 4, split", split, ROOM);
  book("book 3 2 5 5 2 3, not split", not_split, ROOM);
  book("book 4092 2 4094 4094 2 4092, split", longest, ROOM);
  book("book 65532 2 65534 65534 2 65532, split", beyond, ROOM);
  book("book 1 1 1 1 1 1, to be walked", odd, ROOM);
  book("book 2 0 0 0 0 0, to be walked", above, ROOM);
  book("book 2 1 1 1 1 2, answer area of 6", octagon, ENOUGH);
  book("book 2 1 1 1 1 2, answer area of 5", octagon, SHORT);
  book("book 2 1 1 1 1 2, answer area of 0", octagon, 0);
}

static const uint16_t cells[] = {0, 1, 2, 3, 0, 1, 2, 4};
static const uint16_t edges[] = {0, 1, 0, 2, 0, 3, 0, 4, 1, 2,
                                 1, 3, 1, 4, 2, 3, 2, 4};
static const uint16_t counts[] = {1, 2, 3, 4, 5, 6, 7, 8, 255};

static void check(const char *call, size_t cells_len, size_t edges_len,
                  size_t counts_len, size_t answer_len) {
  show(call, citternblaze_check(cells, cells_len, edges, edges_len, counts,
                                counts_len, sums(counts, counts_len),
                                counts_len, answer, answer_len));
}

static void test_check(void) {
  static const uint16_t six[] = {0, 1, 0, 2, 0, 3, 1, 2, 1, 3, 2, 3};
  static const uint16_t full[] = {4095, 4095, 4095, 4095, 4095, 4095};
  check("check 2 cells", 8, 18, 9, ROOM);
  show("check 1 cell, every count 4095",
       citternblaze_check(cells, 4, six, 12, full, 6, sums(full, 6), 6, answer,
                          ROOM));
  check("check 5 numbers", 5, 18, 9, ROOM);
  check("check no cells", 0, 18, 9, ROOM);
  check("check 9 edges, 8 counts", 8, 18, 8, ROOM);
  check("check 8 edges", 8, 16, 8, ROOM);
  check("check 7 edges", 8, 14, 7, ROOM);
  check("check 1 cell", 4, 18, 9, ROOM);
  show("check, starts of other counts",
       citternblaze_check(cells, 8, edges, 18, counts, 9, sums(full, 6), 9,
                          answer, ROOM));
  show("check, 8 starts",
       citternblaze_check(cells, 8, edges, 18, counts, 9, sums(counts, 9), 8,
                          answer, ROOM));
  check("check 2 cells, answer area of 6", 8, 18, 9, ENOUGH);
  check("check 2 cells, answer area of 5", 8, 18, 9, SHORT);
  check("check 2 cells, answer area of 0", 8, 18, 9, 0);
}

#define STARTS 10

/* Lent starts, and what became of them; 2779096485 is untouched. */
static void show_starts(const uint32_t *starts) {
  printf("  starts");
  for (size_t i = 0; i < STARTS; i++) {
    if (starts[i] == UINT32_C(0xa5a5a5a5))
      printf(" -");
    else
      printf(" %" PRIu32, starts[i]);
  }
  printf("\n");
}

static void open_grid(const char *call, const uint16_t *edge_counts,
                      size_t starts_len, size_t answer_len) {
  uint32_t starts[STARTS];
  memset(starts, 0xa5, sizeof starts);
  show(call, citternblaze_open(cells, 8, edges, 18, edge_counts, 9, starts,
                               starts_len, answer, answer_len));
  show_starts(starts);
}

static void test_open(void) {
  static const uint16_t over[9] = {0, 0, 0, 0, 0, 0, 0, 4096};
  open_grid("open 2 cells", counts, 9, ROOM);
  open_grid("open, 8 starts", counts, 8, ROOM);
  open_grid("open, 10 starts", counts, 10, ROOM);
  open_grid("open, a count of 4096", over, 9, ROOM);
  open_grid("open, answer area of 6", counts, 9, ENOUGH);
  open_grid("open, answer area of 5", counts, 9, SHORT);
}

/* Sets the count of an edge of cells 0 1 2 3 and 0 1 2 4, whose starts are those
 * of their counts, or 1 too high from edge `from` on. */
static void set(const char *call, size_t from, size_t edge, uint16_t count,
                size_t answer_len) {
  uint16_t edge_counts[9];
  uint32_t starts[STARTS];
  memcpy(edge_counts, counts, sizeof counts);
  memset(starts, 0xa5, sizeof starts);
  memcpy(starts, sums(counts, 9), 9 * sizeof *starts);
  for (size_t i = from; i < 9; i++)
    starts[i]++;
  show(call, citternblaze_set_count(cells, 8, edges, 18, edge_counts, 9, starts,
                                    9, edge, count, answer, answer_len));
  printf("  counts");
  for (size_t i = 0; i < 9; i++)
    printf(" %u", edge_counts[i]);
  printf("\n");
  show_starts(starts);
}

static void test_set(void) {
  set("set edge 3 to 0", 9, 3, 0, ROOM);
  set("set edge 0 to 4095", 9, 0, 4095, ROOM);
  set("set edge 8 to 7", 9, 8, 7, ROOM);
  set("set edge 9 of 9", 9, 9, 0, ROOM);
  set("set the highest edge to 4096", 9, SIZE_MAX, 4096, ROOM);
  set("set edge 3 to 4096", 9, 3, 4096, ROOM);
  set("set edge 9 of 9, the last start wrong", 8, 9, 0, ROOM);
  set("set edge 3, answer area of 6", 9, 3, 0, ENOUGH);
  set("set edge 3, answer area of 5", 9, 3, 0, SHORT);
}

#define WORDS 24

/* The mesh of cells 0 1 2 3 and 0 1 2 4 with these counts, in an area of
 * area_len words. */
static void mesh(const char *call, const uint16_t *edge_counts, size_t cells_len,
                 size_t area_len, size_t answer_len) {
  uint32_t area[WORDS];
  memset(area, 0xa5, sizeof area);
  show(call, citternblaze_mesh(cells, cells_len, edges, 18, edge_counts, 9,
                               sums(edge_counts, 9), 9, area, area_len, answer,
                               answer_len));
  printf("  area");
  for (size_t i = 0; i < WORDS; i++) {
    if (area[i] == UINT32_C(0xa5a5a5a5))
      printf(" -");
    else
      printf(" %" PRIu32, area[i]);
  }
  printf("\n");
}

static void test_mesh(void) {
  static const uint16_t none[9] = {0};
  /* corners at 0 of both cells, and at 3 of the first */
  static const uint16_t corner[9] = {1, 1, 1, 1};
  static const uint16_t at_3[9] = {0, 0, 1, 0, 0, 1, 0, 1};
  /* edge 0 3: a loop of length 2 in the first cell */
  static const uint16_t twice[9] = {0, 0, 2};
  /* a corner at 0 of the first cell, and open curves */
  static const uint16_t many[9] = {4095, 4094, 1};
  static const uint16_t over[9] = {0, 0, 0, 0, 0, 0, 0, 4096};
  mesh("mesh without crossings", none, 8, WORDS, ROOM);
  mesh("mesh of a corner in two cells", corner, 8, WORDS, ROOM);
  mesh("mesh of a corner in one cell", at_3, 8, WORDS, ROOM);
  mesh("mesh of a loop of two segments", twice, 8, WORDS, ROOM);
  mesh("mesh of a corner among 8190 crossings", many, 8, WORDS, ROOM);
  mesh("mesh, a count of 4096", over, 8, WORDS, ROOM);
  mesh("mesh, area of 22", twice, 8, 22, ROOM);
  mesh("mesh, area of 21", twice, 8, 21, ROOM);
  mesh("mesh, area of 0", twice, 8, 0, ROOM);
  mesh("mesh of 5 numbers", twice, 5, WORDS, ROOM);
  mesh("mesh of 1 cell", twice, 4, WORDS, ROOM);
  mesh("mesh, answer area of 6", twice, 8, WORDS, ENOUGH);
  mesh("mesh, answer area of 5", twice, 8, WORDS, SHORT);
  mesh("mesh, answer area of 0", twice, 8, WORDS, 0);
}

/* The cells 0 1 2 3, 0 1 4 5 and 0 1 3 4, of which the first two share the edge 0 1
 * and no face; a corner at node 0 in each. */
static const uint16_t chain[] = {0, 1, 2, 3, 0, 1, 4, 5, 0, 1, 3, 4};
static const uint16_t chain_edges[] = {0, 1, 0, 2, 0, 3, 0, 4, 0, 5, 1, 2,
                                       1, 3, 1, 4, 1, 5, 2, 3, 3, 4, 4, 5};
static const uint16_t chain_counts[12] = {1, 1, 1, 1, 1};

#define JOINED SIZE_MAX

/* One run of these cells, or all joined, in an area of area_len words. */
static void run(const char *call, const uint16_t *cuts, size_t cuts_len,
                size_t asked, size_t area_len, size_t answer_len) {
  uint32_t area[34];
  memset(area, 0xa5, sizeof area);
  if (asked == JOINED)
    show(call, citternblaze_mesh_joined(chain, 12, chain_edges, 24, chain_counts,
                                        12, sums(chain_counts, 12), 12, cuts,
                                        cuts_len, area, area_len, answer,
                                        answer_len));
  else
    show(call, citternblaze_mesh_run(chain, 12, chain_edges, 24, chain_counts, 12,
                                     sums(chain_counts, 12), 12, cuts, cuts_len,
                                     asked, area, area_len, answer, answer_len));
  printf("  area");
  for (size_t i = 0; i < 34; i++) {
    if (area[i] == UINT32_C(0xa5a5a5a5))
      printf(" -");
    else
      printf(" %" PRIu32, area[i]);
  }
  printf("\n");
}

static void test_runs(void) {
  static const uint16_t two[] = {2}, one_two[] = {1, 2}, falls[] = {2, 1};
  static const uint16_t zero[] = {0}, three[] = {1, 3};
  run("run 0 of 2, apart at an edge", two, 1, 0, 34, ROOM);
  run("run 1 of 2", two, 1, 1, 34, ROOM);
  run("run 2 of 3", one_two, 2, 2, 34, ROOM);
  run("run 0, no cuts", NULL, 0, 0, 34, ROOM);
  run("joined, no cuts", NULL, 0, JOINED, 34, ROOM);
  run("joined from 2", two, 1, JOINED, 34, ROOM);
  run("joined from 3", one_two, 2, JOINED, 33, ROOM);
  run("run 0 of 2, area of 21", two, 1, 0, 21, ROOM);
  run("run 1 of 2, area of 10", two, 1, 1, 10, ROOM);
  run("joined, area of 32", two, 1, JOINED, 32, ROOM);
  run("run 2 of 2", two, 1, 2, 34, ROOM);
  run("the highest run but one", two, 1, SIZE_MAX - 1, 0, ROOM);
  run("run 5, a cut of 0", zero, 1, 5, 0, ROOM);
  run("run 0, falling cuts", falls, 2, 0, 34, ROOM);
  run("joined, a cut of 3", three, 2, JOINED, 34, ROOM);
  run("run 1, answer area of 6", two, 1, 1, 34, ENOUGH);
  run("run 1, answer area of 5", two, 1, 1, 34, SHORT);
  run("joined, answer area of 6", two, 1, JOINED, 34, ENOUGH);
  run("joined, answer area of 5", two, 1, JOINED, 34, SHORT);
}

/* Loop `index` of cell `cell` of cells 0 1 2 3 and 0 1 2 4 with these counts. */
static void loop(const char *call, const uint16_t *edge_counts, size_t cells_len,
                 size_t cell, size_t index, size_t answer_len) {
  show(call, citternblaze_loops(cells, cells_len, edges, 18, edge_counts, 9,
                                sums(edge_counts, 9), 9, cell, index, answer,
                                answer_len));
}

static void test_loops(void) {
  /* a corner at 0 of both cells; a corner at 3; a loop of length 2; 0 and 1
   * apart from 2, 3 and 4 */
  static const uint16_t corner[9] = {1, 1, 1, 1};
  static const uint16_t at_3[9] = {0, 0, 1, 0, 0, 1, 0, 1};
  static const uint16_t twice[9] = {0, 0, 2};
  static const uint16_t apart[9] = {0, 1, 1, 1, 1, 1, 1};
  static const uint16_t full[9] = {0, 0, 4095};
  static const uint16_t over[9] = {0, 0, 4096};
  loop("loop 0 of cell 0, a corner at 0", corner, 8, 0, 0, ROOM);
  loop("loop 0 of cell 1, a corner at 0", corner, 8, 1, 0, ROOM);
  loop("loop 1 of cell 1", corner, 8, 1, 1, ROOM);
  loop("loop 0 of cell 0, a corner at 3", at_3, 8, 0, 0, ROOM);
  loop("loop 0 of cell 0, of two segments", twice, 8, 0, 0, ROOM);
  loop("loop 0 of cell 1, none", twice, 8, 1, 0, ROOM);
  loop("loop 0 of cell 1, diagonal", apart, 8, 1, 0, ROOM);
  loop("loop 2046 of cell 0, 4095 on an edge", full, 8, 0, 2046, ROOM);
  loop("loop 2047 of cell 0, 4095 on an edge", full, 8, 0, 2047, ROOM);
  loop("loop 0 of cell 2 of 2, a count of 4096", over, 8, 2, 0, ROOM);
  loop("the highest loop of cell 1", apart, 8, 1, SIZE_MAX, ROOM);
  loop("loop 0 of cell 2 of 2", corner, 8, 2, 0, ROOM);
  loop("loop 0 of the highest cell", corner, 8, SIZE_MAX, 0, ROOM);
  loop("loop 0 of cell 2 of 5 numbers", corner, 5, 2, 0, ROOM);
  loop("loop 0 of cell 0, answer area of 6", corner, 8, 0, 0, ENOUGH);
  loop("loop 0 of cell 0, answer area of 5", corner, 8, 0, 0, SHORT);
  loop("loop 0 of cell 2 of 2, answer area of 5", corner, 8, 2, 0, SHORT);
}

#define NUMBERS 14

/* The places of cells 0 1 2 3 and 0 1 2 4, with crossings on edge 0 3 only:
 * count_03 of them. Node k is at 8k, -k, 0.5. */
static void place(const char *call, uint16_t count_03, const double *fractions,
                  size_t fractions_len, size_t nodes_len, size_t area_len,
                  size_t answer_len) {
  const uint16_t edge_counts[9] = {0, 0, count_03};
  double nodes[15], area[NUMBERS];
  for (int k = 0; k < 5; k++) {
    nodes[3 * k] = 8 * k;
    nodes[3 * k + 1] = -k;
    nodes[3 * k + 2] = 0.5;
  }
  for (size_t i = 0; i < NUMBERS; i++)
    area[i] = -77;
  show(call, citternblaze_places(cells, 8, edges, 18, edge_counts, 9,
                                 sums(edge_counts, 9), 9, nodes, nodes_len,
                                 fractions, fractions_len, area, area_len,
                                 answer, answer_len));
  printf("  area");
  for (size_t i = 0; i < NUMBERS; i++) {
    if (area[i] == -77)
      printf(" -");
    else
      printf(" %g", area[i]);
  }
  printf("\n");
}

static void test_places(void) {
  static const double quarters[3] = {0.25, 0.75, 0.875};
  static const double equal[2] = {0.5, 0.5};
  static const double ends[2] = {0.5, 1};
  place("places of no points", 0, quarters, 0, 15, NUMBERS, ROOM);
  place("places of a crossing", 1, quarters, 1, 15, NUMBERS, ROOM);
  place("places of two crossings and a middle", 2, quarters, 2, 15, NUMBERS,
        ROOM);
  place("places, a count of 4096", 4096, quarters, 2, 15, NUMBERS, ROOM);
  place("places, area of 9", 2, quarters, 2, 15, 9, ROOM);
  place("places, area of 8", 2, quarters, 2, 15, 8, ROOM);
  place("places, 14 numbers for 5 nodes", 2, quarters, 2, 14, NUMBERS, ROOM);
  place("places, a fraction too few", 2, quarters, 1, 15, NUMBERS, ROOM);
  place("places, a fraction too many", 2, quarters, 3, 15, NUMBERS, ROOM);
  place("places, equal fractions", 2, equal, 2, 15, NUMBERS, ROOM);
  place("places, a fraction of 1", 2, ends, 2, 15, NUMBERS, ROOM);
  place("places, answer area of 6", 2, quarters, 2, 15, NUMBERS, ENOUGH);
  place("places, answer area of 5", 2, quarters, 2, 15, NUMBERS, SHORT);
}

static const uint16_t six_edges[] = {0, 1, 0, 2, 0, 3, 1, 2, 1, 3, 2, 3};

/* Counts of the cell 0 1 2 3 that keep d1 on 01 and 23, d2 on 02 and 13 and the
 * sum on 03 and 12. */
static const uint16_t *spiral(uint16_t d1, uint16_t d2) {
  static uint16_t of[6];
  of[0] = of[5] = d1;
  of[1] = of[4] = d2;
  of[2] = of[3] = (uint16_t)(d1 + d2);
  return of;
}

/* The mesh of the cell 0 1 2 3 with these counts. */
static size_t mesh_of(const uint16_t *of, uint32_t *area, size_t area_len,
                      size_t answer_len) {
  return citternblaze_mesh(cells, 4, six_edges, 12, of, 6, sums(of, 6), 6, area,
                           area_len, answer, answer_len);
}

/* A number that tells so many words of 32 bits, and their order. */
static void show_digest(const void *words, size_t many) {
  uint64_t sum = UINT64_C(0xcbf29ce484222325);
  for (size_t i = 0; i < many; i++) {
    uint32_t word;
    memcpy(&word, (const char *)words + sizeof word * i, sizeof word);
    sum = (sum ^ word) * UINT64_C(0x100000001b3);
  }
  printf("  digest %016" PRIx64 "\n", sum);
}

static void show_triangles(const uint32_t *words, size_t triangles) {
  for (size_t i = 0; i < 11 * triangles; i++) {
    if (i % 11 == 0)
      printf("  T");
    if (words[i] == UINT32_MAX)
      printf(" -");
    else
      printf(" %" PRIu32, words[i]);
    if (i % 11 == 10)
      printf("\n");
  }
}

#define SPLIT_WORDS (11 * 196)

/* Cells that are split: the words of one split, and of more splits what tells
 * them; and, of a cell that is not, its fan. */
static void test_split(void) {
  static const uint16_t turned[6] = {5, 5, 7, 8, 2, 6};
  static uint32_t area[SPLIT_WORDS];
  show("mesh of (4, 2)", mesh_of(spiral(4, 2), area, 11 * 52, ROOM));
  show_triangles(area, 52);
  show("mesh of (4, 2), with corners", mesh_of(turned, area, 11 * 55, ROOM));
  show_triangles(area, 3);
  memset(area, 0xa5, sizeof area);
  show("mesh of (4, 2), area of 571", mesh_of(spiral(4, 2), area, 571, ROOM));
  show("mesh of (4, 2), no area", mesh_of(spiral(4, 2), NULL, 0, ROOM));
  show("mesh of (4, 2), answer area of 5",
       mesh_of(spiral(4, 2), area, SPLIT_WORDS, SHORT));
  show_digest(area, SPLIT_WORDS);
  show("mesh of (4, 2), answer area of 6",
       mesh_of(spiral(4, 2), area, SPLIT_WORDS, ENOUGH));
  show_digest(area, SPLIT_WORDS);
  show("mesh of (6, 2)", mesh_of(spiral(6, 2), area, 11 * 96, ROOM));
  show_digest(area, 11 * 96);
  show("mesh of (10, 4)", mesh_of(spiral(10, 4), area, 11 * 196, ROOM));
  show_digest(area, 11 * 196);
  show("mesh of (3, 2)", mesh_of(spiral(3, 2), area, SPLIT_WORDS, ROOM));
  show_triangles(area, 1);
  show("loop 1 of (4, 2)",
       citternblaze_loops(cells, 4, six_edges, 12, spiral(4, 2), 6,
                          sums(spiral(4, 2), 6), 6, 0, 1, answer, ROOM));
}

/* The places of the cell 0 1 2 3 with these counts: node 0 at zero, the others at
 * 24 on an axis each; the crossings of an edge at even distances. */
static size_t places_of(const uint16_t *of, double *fractions, size_t more,
                        double *area, size_t area_len) {
  static const double nodes[12] = {0, 0, 0, 24, 0, 0, 0, 24, 0, 0, 0, 24};
  size_t many = 0;
  for (int edge = 0; edge < 6; edge++)
    for (int i = 1; i <= of[edge]; i++)
      fractions[many++] = i / (of[edge] + 1.0);
  return citternblaze_places(cells, 4, six_edges, 12, of, 6, sums(of, 6), 6,
                             nodes, 12, fractions, many + more, area, area_len,
                             answer, ROOM);
}

/* Of (4, 2) the 24 outer crossings, of which the last is shown, then 12 inner ones
 * and four middles. */
static void test_split_places(void) {
  double fractions[36] = {0}, area[3 * 40];
  for (size_t i = 0; i < 3 * 40; i++)
    area[i] = -77;
  show("places of (4, 2)", places_of(spiral(4, 2), fractions, 0, area, 120));
  for (int point = 23; point < 40; point++)
    printf("  %d: %.15g %.15g %.15g\n", point, area[3 * point],
           area[3 * point + 1], area[3 * point + 2]);
  show("places of (4, 2), area of 119",
       places_of(spiral(4, 2), fractions, 0, area, 119));
  show("places of (4, 2), 36 fractions",
       places_of(spiral(4, 2), fractions, 12, area, 120));
}

#define DEEP_TRIANGLES ((size_t)16793556)
#define DEEP_POINTS ((size_t)8404968)
#define DEEP_CROSSINGS 16376

/* The mesh of (4092, 2) as the only run of its cell. */
static size_t run_of(uint32_t *area, size_t area_len) {
  const uint16_t *of = spiral(4092, 2);
  return citternblaze_mesh_run(cells, 4, six_edges, 12, of, 6, sums(of, 6), 6, NULL,
                               0, 0, area, area_len, answer, ROOM);
}

static size_t joined_of(uint32_t *area, size_t area_len) {
  const uint16_t *of = spiral(4092, 2);
  return citternblaze_mesh_joined(cells, 4, six_edges, 12, of, 6, sums(of, 6), 6,
                                  NULL, 0, area, area_len, answer, ROOM);
}

/* The most splits that a cell can have, 2045, each within the one before: its mesh,
 * 739 MB, by all three calls, and its places, 202 MB. */
static void *call_deep(void *failed) {
  uint32_t *words = malloc(11 * DEEP_TRIANGLES * sizeof *words);
  if (words == NULL)
    return failed;
  show("mesh of (4092, 2)",
       mesh_of(spiral(4092, 2), words, 11 * DEEP_TRIANGLES, ROOM));
  show_digest(words, 11 * DEEP_TRIANGLES);
  show_triangles(words + 11 * (DEEP_TRIANGLES - 1), 1);
  show("mesh of (4092, 2), a word too short",
       mesh_of(spiral(4092, 2), words, 11 * DEEP_TRIANGLES - 1, ROOM));
  show("run 0 of (4092, 2)", run_of(words, 11 * DEEP_TRIANGLES));
  show_digest(words, 11 * DEEP_TRIANGLES);
  show("joined (4092, 2)", joined_of(words, 11 * DEEP_TRIANGLES));
  show_digest(words, 11 * DEEP_TRIANGLES);
  free(words);
  double *fractions = malloc(DEEP_CROSSINGS * sizeof *fractions);
  double *area = malloc(3 * DEEP_POINTS * sizeof *area);
  if (fractions == NULL || area == NULL)
    return failed;
  show("places of (4092, 2)", places_of(spiral(4092, 2), fractions, 0, area,
                                        3 * DEEP_POINTS));
  show_digest(area, 6 * DEEP_POINTS);
  free(fractions);
  free(area);
  return NULL;
}

/* The same on a thread with exactly the stack that the header names. */
static void test_deep(void) {
  static char failed[] = "no memory or no thread";
  pthread_attr_t with_stack;
  pthread_t thread;
  void *outcome = failed;
  if (pthread_attr_init(&with_stack) == 0 &&
      pthread_attr_setstacksize(&with_stack, CITTERNBLAZE_STACK_BYTES) == 0 &&
      pthread_create(&thread, &with_stack, call_deep, failed) == 0)
    pthread_join(thread, &outcome);
  if (outcome != NULL)
    printf("%s\n", (const char *)outcome);
}

/* The sides of cells 0 1 2 3 and 0 1 2 4 with these counts. Each byte that differs
 * from the one before it is printed, after its node; 165 is untouched. */
static void shade(const char *call, const uint16_t *edge_counts, size_t area_len,
                  size_t answer_len) {
  uint8_t area[CITTERNBLAZE_SHADING_BYTES + 2];
  memset(area, 0xa5, sizeof area);
  show(call, citternblaze_shading(cells, 8, edges, 18, edge_counts, 9,
                                  sums(edge_counts, 9), 9, area, area_len,
                                  answer, answer_len));
  printf("  area");
  for (size_t i = 0; i < sizeof area; i++) {
    if (i == 0 || area[i] != area[i - 1])
      printf(" %zu:%u", i, area[i]);
  }
  printf("\n");
}

static void test_shading(void) {
  static const uint16_t same[9] = {0}, even[9] = {2, 4, 254, 2, 2, 4094, 2, 2, 0};
  /* edges 03 13 23 cut off node 3; 01 02 03 04 node 0; 03 alone nothing */
  static const uint16_t at_3[9] = {0, 0, 1, 0, 0, 3, 0, 4095, 0};
  static const uint16_t at_0[9] = {1, 1, 1, 1}, odd[9] = {0, 0, 1};
  const size_t bytes = CITTERNBLAZE_SHADING_BYTES;
  shade("shading, no crossing", same, bytes, ROOM);
  shade("shading, even counts", even, bytes, ROOM);
  shade("shading, node 3 cut off", at_3, bytes, ROOM);
  shade("shading, node 0 cut off", at_0, bytes, ROOM);
  shade("shading, an odd edge", odd, bytes, ROOM);
  shade("shading, area of 4095", at_3, bytes - 1, ROOM);
  shade("shading, area of 4097", at_3, bytes + 1, ROOM);
  shade("shading, an odd edge, area of 0", odd, 0, ROOM);
  shade("shading, answer area of 6", at_3, bytes, ENOUGH);
  shade("shading, answer area of 5", at_3, bytes, SHORT);
}

/* A sheet: triangles 0 1 2, 0 1 3, 0 2 3 round node 0, with edges 01 02 03 12 13
 * 23, of which 12 has one crossing and those from node 0 have two each. */
static const uint16_t triangles[] = {0, 1, 2, 0, 1, 3, 0, 2, 3};
static const uint16_t flat_edges[] = {0, 1, 0, 2, 0, 3, 1, 2, 1, 3, 2, 3};
static const uint16_t flat_counts[] = {2, 2, 2, 1, 0, 0};

/* Its chains, and the whole area of twelve words. */
static void trace(const char *call, size_t area_len, size_t answer_len) {
  uint32_t area[12];
  memset(area, 0xa5, sizeof area);
  show(call, citternblaze_flat_chains(triangles, 9, flat_edges, 12, flat_counts, 6,
                                      area, area_len, answer, answer_len));
  printf("  area");
  for (size_t i = 0; i < 12; i++) {
    if (area[i] == 0xa5a5a5a5)
      printf(" -");
    else
      printf(" %" PRIu32, area[i]);
  }
  printf("\n");
}

static void flat_face(const char *call, uint32_t edge, uint32_t index,
                      size_t answer_len) {
  show(call, citternblaze_flat_face(2, 2, 1, edge, index, answer, answer_len));
}

static void test_flat(void) {
  flat_face("flat face, joined", 1, 1, ROOM);
  flat_face("flat face, unjoined", 0, 1, ROOM);
  flat_face("flat face, no crossing", 2, 1, ROOM);
  flat_face("flat face, answer area of 6", 1, 1, ENOUGH);
  flat_face("flat face, answer area of 5", 1, 1, SHORT);
  show("flat check", citternblaze_flat_check(triangles, 9, flat_edges, 12,
                                             flat_counts, 6, answer, ROOM));
  show("flat check, answer area of 5",
       citternblaze_flat_check(triangles, 9, flat_edges, 12, flat_counts, 6, answer,
                               SHORT));
  show("flat check, no edges",
       citternblaze_flat_check(triangles, 9, flat_edges, 0, flat_counts, 0, answer,
                               ROOM));
  trace("chains, area of 12", 12, ROOM);
  trace("chains, area of 11", 11, ROOM);
  trace("chains, area of 10", 10, ROOM);
  trace("chains, answer area of 6", 12, ENOUGH);
  trace("chains, answer area of 5", 12, SHORT);
}

/* A cell, an edge of kind 2, one of kind 4 and an end. */
static const uint8_t bundle[] = {
    10, 0, 1, 0, 0, 0, 1, 0, 2, 0, 3, 1, /* nodes 0 1 2 259 */
    7, 0, 2, 0, 5, 0, 6, 1, 9,           /* ends 5 262, count 9 */
    8, 0, 4, 0, 5, 0, 7, 1, 255, 15,     /* ends 5 263, count 4095 */
    2, 0, 3, 0};

/* An edge of kind 4 with 255, and an end. */
static const uint8_t narrow[] = {8, 0, 4, 0, 5, 0, 7, 1, 255, 0, 2, 0, 3, 0};

/* The same with looks: 5 262 has 300 and then 1, 5 263 has 7. */
static const uint8_t looked[] = {
    10, 0, 1, 0, 0, 0, 1, 0, 2, 0, 3, 1, /* */
    7, 0, 2, 0, 5, 0, 6, 1, 9,           /* */
    8, 0, 4, 0, 5, 0, 7, 1, 255, 15,     /* */
    8, 0, 5, 0, 5, 0, 6, 1, 44, 1,       /* */
    8, 0, 5, 0, 5, 0, 7, 1, 7, 0,        /* */
    8, 0, 5, 0, 5, 0, 6, 1, 1, 0,        /* */
    2, 0, 3, 0};

/* An edge, a look at it, one with its pair turned round, and an end. */
static const uint8_t stray[] = {7, 0, 2, 0, 5, 0, 6, 1, 9,     /* */
                                8, 0, 5, 0, 5, 0, 6, 1, 44, 1, /* */
                                8, 0, 5, 0, 6, 1, 5, 0, 44, 1, /* */
                                2, 0, 3, 0};

static void record(const char *call, size_t bytes_len, size_t start,
                   size_t answer_len) {
  printf("%s, ", call);
  show("kind and next start",
       citternblaze_record(bundle, bytes_len, start, answer, answer_len));
  printf("%s, ", call);
  show("body",
       citternblaze_record_body(bundle, bytes_len, start, answer, answer_len));
}

static void test_record(void) {
  record("record at 0", sizeof bundle, 0, ROOM);
  record("record at 12", sizeof bundle, 12, ROOM);
  record("record at 21", sizeof bundle, 21, ROOM);
  record("record at 31", sizeof bundle, 31, ROOM);
  record("record at 1", sizeof bundle, 1, ROOM);
  record("record at 35 of 35", sizeof bundle, sizeof bundle, ROOM);
  record("record at the highest start", sizeof bundle, SIZE_MAX, ROOM);
  record("record at 0 of 11", 11, 0, ROOM);
  record("record at 21 of 30", 30, 21, ROOM);
  record("record at 0 of 0", 0, 0, ROOM);
  show("record of kind 4 with 255",
       citternblaze_record(narrow, sizeof narrow, 0, answer, ROOM));
  show("body of kind 4 with 255",
       citternblaze_record_body(narrow, sizeof narrow, 0, answer, ROOM));
  show("record of a look",
       citternblaze_record(looked, sizeof looked, 31, answer, ROOM));
  show("body of a look",
       citternblaze_record_body(looked, sizeof looked, 31, answer, ROOM));
  record("record at 0, answer area of 6", sizeof bundle, 0, ENOUGH);
  record("record at 0, answer area of 5", sizeof bundle, 0, SHORT);
}

static void read_bytes(const char *call, const uint8_t *bytes, size_t bytes_len,
                       size_t nodes_len, size_t ends_len, size_t counts_len,
                       size_t answer_len) {
  uint16_t nodes[6], ends[6], count[3];
  memset(nodes, 0xa5, sizeof nodes);
  memset(ends, 0xa5, sizeof ends);
  memset(count, 0xa5, sizeof count);
  show(call, citternblaze_bundle_read(bytes, bytes_len, nodes, nodes_len, ends,
                                      ends_len, count, counts_len, answer,
                                      answer_len));
  printf("  nodes");
  for (size_t i = 0; i < 6; i++)
    printf(" %x", nodes[i]);
  printf(", ends");
  for (size_t i = 0; i < 6; i++)
    printf(" %x", ends[i]);
  printf(", counts");
  for (size_t i = 0; i < 3; i++)
    printf(" %x", count[i]);
  printf("\n");
}

static void read_bundle(const char *call, size_t bytes_len, size_t nodes_len,
                        size_t ends_len, size_t counts_len, size_t answer_len) {
  read_bytes(call, bundle, bytes_len, nodes_len, ends_len, counts_len,
             answer_len);
}

static void test_bundle_read(void) {
  read_bundle("read", sizeof bundle, 6, 6, 3, ROOM);
  read_bundle("read into lists just long enough", sizeof bundle, 4, 4, 2, ROOM);
  read_bundle("read, list of 3 nodes", sizeof bundle, 3, 6, 3, ROOM);
  read_bundle("read, list of 3 ends", sizeof bundle, 6, 3, 3, ROOM);
  read_bundle("read, list of 1 count", sizeof bundle, 6, 6, 1, ROOM);
  read_bundle("read a bundle cut to 34", 34, 6, 6, 3, ROOM);
  read_bundle("read a bundle cut to 31", 31, 6, 6, 3, ROOM);
  read_bundle("read a bundle cut to 30", 30, 6, 6, 3, ROOM);
  read_bundle("read nothing", 0, 6, 6, 3, ROOM);
  read_bundle("read, answer area of 6", sizeof bundle, 6, 6, 3, ENOUGH);
  read_bundle("read, answer area of 5", sizeof bundle, 6, 6, 3, SHORT);
  read_bytes("read looks", looked, sizeof looked, 6, 6, 3, ROOM);
  read_bytes("read looks, list of 1 count", looked, sizeof looked, 6, 6, 1, ROOM);
  read_bytes("read looks, answer area of 5", looked, sizeof looked, 6, 6, 3,
             SHORT);
  read_bytes("read a look for no edge", stray, sizeof stray, 6, 6, 3, ROOM);
  read_bytes("read a look for no edge, no lists", stray, sizeof stray, 0, 0, 0,
             ROOM);
  read_bytes("read a look for no edge, cut by one", stray, sizeof stray - 1, 6, 6,
             3, ROOM);
  show("read kind 4 with 255",
       citternblaze_bundle_read(narrow, sizeof narrow, NULL, 0, NULL, 0, NULL, 0,
                                answer, ROOM));
}

static void write_bundle_of(const char *call, const uint16_t *edge_counts,
                            size_t nodes_len, size_t ends_len,
                            size_t counts_len, size_t area_len,
                            size_t answer_len) {
  uint8_t area[28];
  memset(area, 0xa5, sizeof area);
  show(call, citternblaze_bundle_write(cells, nodes_len, edges, ends_len,
                                       edge_counts, counts_len, area, area_len,
                                       answer, answer_len));
  printf("  area");
  for (size_t i = 0; i < sizeof area; i++)
    printf(" %x", area[i]);
  printf("\n");
}

static void write_bundle(const char *call, size_t nodes_len, size_t ends_len,
                         size_t counts_len, size_t area_len,
                         size_t answer_len) {
  write_bundle_of(call, counts, nodes_len, ends_len, counts_len, area_len,
                  answer_len);
}

/* Lists for which the bytes needed pass 32 bits. They are mapped and may not be
 * touched, so the call goes by their lengths alone. */
static void test_bundle_cap(void) {
  const size_t most = 357913941; /* 12 * 357913941 + 4 is 2^32 */
  const size_t size = most * 4 * sizeof(uint16_t);
  uint16_t *nodes = mmap(NULL, size, PROT_NONE,
                         MAP_PRIVATE | MAP_ANONYMOUS | MAP_NORESERVE, -1, 0);
  if (nodes == MAP_FAILED) {
    perror("capi_test: mmap");
    exit(1);
  }
  show("write 357913940 cells into no area",
       citternblaze_bundle_write(nodes, 4 * (most - 1), NULL, 0, NULL, 0, NULL, 0,
                                 answer, ROOM));
  show("write 357913941 cells into no area",
       citternblaze_bundle_write(nodes, 4 * most, NULL, 0, NULL, 0, NULL, 0, answer,
                                 ROOM));
  munmap(nodes, size);
}

static void test_bundle_write(void) {
  static const uint16_t wide[] = {256, 255}, widest[] = {65535};
  write_bundle("write a cell and an edge", 4, 2, 1, 28, ROOM);
  write_bundle("write into an area just long enough", 4, 2, 1, 25, ROOM);
  write_bundle("write into an area too short by one", 4, 2, 1, 24, ROOM);
  write_bundle_of("write a count of 256", wide, 4, 2, 1, 28, ROOM);
  write_bundle_of("write a count of 256, area of 26", wide, 4, 2, 1, 26, ROOM);
  write_bundle_of("write a count of 256, area of 25", wide, 4, 2, 1, 25, ROOM);
  write_bundle_of("write counts of 256 and 255", wide, 0, 4, 2, 28, ROOM);
  write_bundle_of("write a count of 65535", widest, 0, 2, 1, 28, ROOM);
  write_bundle("write nothing", 0, 0, 0, 4, ROOM);
  write_bundle("write 5 nodes", 5, 2, 1, 28, ROOM);
  write_bundle("write 3 ends", 4, 3, 1, 28, ROOM);
  write_bundle("write 2 ends, 2 counts", 4, 2, 2, 28, ROOM);
  write_bundle("write, answer area of 6", 4, 2, 1, 28, ENOUGH);
  write_bundle("write, answer area of 5", 4, 2, 1, 28, SHORT);
}

/* The nearest of the first points_len numbers to x, y, z. A distance that is
 * answered is printed as the number that its bits are. */
static void nearest(const char *call, const double *points, size_t points_len,
                    double x, double y, double z, size_t answer_len) {
  size_t many =
      citternblaze_nearest(points, points_len, x, y, z, answer, answer_len);
  double distance = -77;
  if (many == 3)
    memcpy(&distance, &answer[2], sizeof distance);
  show(call, many);
  if (many == 3)
    printf("  distance %.17g\n", distance);
}

static void test_nearest(void) {
  static const double list[] = {3, 4, 12, 0, -1, 0, 1, 0, 0, 0.9, 1.8, 0.8};
  static const double signs[] = {0.0, -0.0, 0.0};
  static const double ends[] = {1e6, -1e6, 1e6};
  double odd[] = {0, 0, 0, 0, 0, 0};
  const double nan = (odd[0] / odd[0]), infinity = 1 / odd[0];
  nearest("nearest of 1", list, 3, 0, 0, 0, ROOM);
  nearest("nearest of 2 as near", list, 9, 0, 0, 0, ROOM);
  nearest("nearest of 4, the last", list, 12, 1, 2, 1, ROOM);
  nearest("nearest of 4, in the first", list, 12, 3, 4, 12, ROOM);
  nearest("nearest, -0", signs, 3, -0.0, 0, -0.0, ROOM);
  nearest("nearest, the greatest distance", ends, 3, -1e6, 1e6, -1e6, ROOM);
  nearest("nearest of none", list, 0, 0, 0, 0, ROOM);
  nearest("nearest of none, y not a number", list, 0, 0, nan, 0, ROOM);
  nearest("nearest of 2 numbers", list, 2, nan, 0, 0, ROOM);
  nearest("nearest of 2, z beyond the limit", list, 6, 0, 0, -1000001, ROOM);
  nearest("nearest of 2, x infinite", list, 6, infinity, nan, 0, ROOM);
  odd[4] = nan;
  odd[5] = -infinity;
  nearest("nearest of 2, number 4 not a number", odd, 6, nan, 0, 0, ROOM);
  odd[4] = 0;
  nearest("nearest of 2, number 5 infinite", odd, 6, 0, 0, 0, ROOM);
  nearest("nearest, answer area of 6", list, 9, 0, 0, 0, ENOUGH);
  nearest("nearest, answer area of 5", list, 9, 0, 0, 0, SHORT);
  nearest("nearest, answer area of 0", list, 9, 0, 0, 0, 0);
}

/* A refusal of docs/FORMAT.md: its name and number in the header, and what an
 * example of it answers. */
static void refusal(const char *name, uint64_t number, size_t many) {
  printf("%s %" PRIu64 "%s, ", name, number,
         answer[0] == number ? "" : " IS NOT ANSWERED");
  show("example", many);
}

#define REFUSAL(NAME, call) refusal(#NAME, CITTERNBLAZE_REFUSED_##NAME, call)

/* The grid check of cells_len nodes, edges_len ends and edges_len / 2 counts of
 * 0. */
static size_t check_of(const uint16_t *of_cells, size_t cells_len,
                       const uint16_t *of_edges, size_t edges_len) {
  static const uint16_t zeros[11] = {0};
  return citternblaze_check(of_cells, cells_len, of_edges, edges_len, zeros,
                            edges_len / 2, sums(zeros, edges_len / 2),
                            edges_len / 2, answer, ROOM);
}

#define CHECK(of_cells, of_edges)                                              \
  check_of(of_cells, sizeof of_cells / sizeof *of_cells, of_edges,             \
           sizeof of_edges / sizeof *of_edges)

#define FULL 43

/* So many cells that share no node, with their edges; every count is 255. */
static size_t check_full(void) {
  static const int ends[12] = {0, 1, 0, 2, 0, 3, 1, 2, 1, 3, 2, 3};
  static uint16_t many_cells[4 * FULL], many_edges[12 * FULL];
  static uint16_t many_counts[6 * FULL];
  for (int i = 0; i < 4 * FULL; i++)
    many_cells[i] = (uint16_t)i;
  for (int i = 0; i < 12 * FULL; i++)
    many_edges[i] = (uint16_t)(i / 12 * 4 + ends[i % 12]);
  for (int i = 0; i < 6 * FULL; i++)
    many_counts[i] = 255;
  return citternblaze_check(many_cells, 4 * FULL, many_edges, 12 * FULL,
                            many_counts, 6 * FULL, sums(many_counts, 6 * FULL),
                            6 * FULL, answer, ROOM);
}

static void test_grid_refusals(void) {
  static const uint16_t one[] = {0, 1, 2, 3}, five[] = {0, 1, 2, 3, 4};
  static const uint16_t falls[] = {0, 2, 1, 3};
  static const uint16_t again[] = {0, 1, 2, 3, 0, 1, 2, 3};
  static const uint16_t three[] = {0, 1, 2, 3, 0, 1, 2, 4, 0, 1, 2, 5};
  static const uint16_t apart[] = {0, 1, 2, 3, 0, 1, 4, 5};
  static const uint16_t six[] = {0, 1, 0, 2, 0, 3, 1, 2, 1, 3, 2, 3};
  static const uint16_t without[] = {0, 1, 0, 2, 0, 3, 1, 2, 1, 3};
  static const uint16_t added[] = {0, 1, 0, 2, 0, 3, 1, 2, 1, 3, 2, 3, 7, 8};
  static const uint16_t odd[] = {0, 1, 0}, equal[] = {1, 1};
  static const uint16_t swapped[] = {0, 2, 0, 1, 0, 3, 1, 2, 1, 3, 2, 3};
  static const uint16_t over[6] = {0, 0, 0, 4096};
  static const uint16_t of_apart[] = {0, 1, 0, 2, 0, 3, 0, 4, 0, 5, 1,
                                      2, 1, 3, 1, 4, 1, 5, 2, 3, 4, 5};
  REFUSAL(CELL_LIST, CHECK(five, six));
  REFUSAL(EDGE_LIST, CHECK(one, odd));
  REFUSAL(CELL_NODES, CHECK(falls, six));
  REFUSAL(CELL_REPEATED, CHECK(again, six));
  REFUSAL(FACE_CROWDED, CHECK(three, six));
  REFUSAL(EDGE_ORDER, CHECK(one, equal));
  REFUSAL(EDGE_ORDER, CHECK(one, swapped));
  REFUSAL(COUNT, citternblaze_check(one, 4, six, 12, over, 6, sums(over, 6), 6,
                                    answer, ROOM));
  /* 18 stands between 6 and 7 */
  REFUSAL(EDGE_ORDER,
          citternblaze_check(one, 4, swapped, 12, over, 6, sums(over, 6), 6,
                             answer, ROOM));
  REFUSAL(COUNT,
          citternblaze_check(one, 4, without, 10, over, 5, sums(over, 5), 5,
                             answer, ROOM));
  REFUSAL(EDGE_MISSING, CHECK(one, without));
  REFUSAL(EDGE_STRAY, CHECK(one, added));
  REFUSAL(EDGE_UNLINKED, CHECK(apart, of_apart));
  REFUSAL(CROSSINGS, check_full());
}

static void test_other_refusals(void) {
  static const uint16_t six[] = {0, 1, 0, 2, 0, 3, 1, 2, 1, 3, 2, 3};
  static const uint16_t corner[6] = {1, 1, 1}, twice[6] = {2}, odd[6] = {1};
  static const double halves[2] = {0.5, 0.5};
  double nodes[12] = {0, 0, 0, 8, 0, 0, 0, 8, 0, 0, 0, 8}, points[9];
  uint8_t bytes[70], sides[CITTERNBLAZE_SHADING_BYTES];
  uint16_t lists[12] = {0};
  uint32_t words[11];
  uint32_t starts[6] = {0};
  REFUSAL(EDGE_LIST, citternblaze_check(cells, 4, six, 12, corner, 6, starts, 6,
                                        answer, ROOM));
  REFUSAL(NO_EDGE, citternblaze_set_count(cells, 4, six, 12, lists, 6, starts, 6,
                                          6, 0, answer, ROOM));
  REFUSAL(NO_CELL, citternblaze_loops(cells, 4, six, 12, corner, 6,
                                      sums(corner, 6), 6, 1, 0, answer, ROOM));
  REFUSAL(MESH_AREA, citternblaze_mesh(cells, 4, six, 12, corner, 6,
                                       sums(corner, 6), 6, words, 10, answer,
                                       ROOM));
  REFUSAL(CUTS, citternblaze_mesh_joined(cells, 4, six, 12, corner, 6,
                                         sums(corner, 6), 6, lists, 1, words, 11,
                                         answer, ROOM));
  REFUSAL(NO_RUN, citternblaze_mesh_run(cells, 4, six, 12, corner, 6,
                                        sums(corner, 6), 6, NULL, 0, 1, words, 11,
                                        answer, ROOM));
  show("write", citternblaze_bundle_write(cells, 4, six, 12, twice, 6, bytes, 70,
                                          answer, ROOM));
  REFUSAL(RECORDS, citternblaze_bundle_read(bytes, 69, lists, 4, NULL, 0, NULL,
                                            0, answer, ROOM));
  REFUSAL(BUNDLE_AREA, citternblaze_bundle_read(bytes, 70, lists, 3, NULL, 0,
                                                NULL, 0, answer, ROOM));
  REFUSAL(LOOK, citternblaze_bundle_read(stray, sizeof stray, NULL, 0, NULL, 0,
                                         NULL, 0, answer, ROOM));
  REFUSAL(BUNDLE_AREA, citternblaze_bundle_write(cells, 4, six, 12, twice, 6,
                                                 bytes, 69, answer, ROOM));
  REFUSAL(PLACE_LISTS,
          citternblaze_places(cells, 4, six, 12, twice, 6, sums(twice, 6), 6,
                              nodes, 12, halves, 1, points, 9, answer, ROOM));
  nodes[4] = nodes[0] / nodes[0];
  REFUSAL(NODE_PLACE,
          citternblaze_places(cells, 4, six, 12, twice, 6, sums(twice, 6), 6,
                              nodes, 12, halves, 2, points, 9, answer, ROOM));
  nodes[4] = 0;
  REFUSAL(FRACTION,
          citternblaze_places(cells, 4, six, 12, twice, 6, sums(twice, 6), 6,
                              nodes, 12, halves, 2, points, 9, answer, ROOM));
  REFUSAL(SHADING_AREA, citternblaze_shading(cells, 4, six, 12, corner, 6,
                                             sums(corner, 6), 6, bytes, 70,
                                             answer, ROOM));
  REFUSAL(NO_SHADING, citternblaze_shading(cells, 4, six, 12, odd, 6,
                                           sums(odd, 6), 6, sides, sizeof sides,
                                           answer, ROOM));
  REFUSAL(CHAIN_AREA,
          citternblaze_flat_chains(triangles, 9, flat_edges, 12, flat_counts, 6,
                                   words, 4, answer, ROOM));
  REFUSAL(POINTS, citternblaze_nearest(nodes, 11, 0, 0, 0, answer, ROOM));
  REFUSAL(POINTS, citternblaze_nearest(nodes, 12, 0, 0, 2e6, answer, ROOM));
}

/* Every list and every area as (NULL, 0). */
static void test_null(void) {
  uint8_t area[4];
  show("face, no answer area", citternblaze_face(5, 1, 1, 0, 2, NULL, 0));
  show("case, no answer area", citternblaze_case(2, 1, 1, 1, 1, 2, NULL, 0));
  show("book, no answer area", citternblaze_book(2, 1, 1, 1, 1, 2, NULL, 0));
  show("check of nothing",
       citternblaze_check(NULL, 0, NULL, 0, NULL, 0, NULL, 0, answer, ROOM));
  show("check without edges",
       citternblaze_check(cells, 8, NULL, 0, NULL, 0, NULL, 0, answer, ROOM));
  show("open nothing",
       citternblaze_open(NULL, 0, NULL, 0, NULL, 0, NULL, 0, answer, ROOM));
  show("set nothing", citternblaze_set_count(NULL, 0, NULL, 0, NULL, 0, NULL, 0,
                                             0, 0, answer, ROOM));
  show("mesh of nothing",
       citternblaze_mesh(NULL, 0, NULL, 0, NULL, 0, NULL, 0, NULL, 0, answer,
                         ROOM));
  show("mesh, no area", citternblaze_mesh(cells, 8, edges, 18, counts, 9,
                                          sums(counts, 9), 9, NULL, 0, answer,
                                          ROOM));
  show("run of nothing",
       citternblaze_mesh_run(NULL, 0, NULL, 0, NULL, 0, NULL, 0, NULL, 0, 0, NULL,
                             0, answer, ROOM));
  show("joined from nothing",
       citternblaze_mesh_joined(NULL, 0, NULL, 0, NULL, 0, NULL, 0, NULL, 0, NULL,
                                0, answer, ROOM));
  show("run, no area",
       citternblaze_mesh_run(cells, 8, edges, 18, counts, 9, sums(counts, 9), 9, NULL,
                             0, 0, NULL, 0, answer, ROOM));
  show("joined, no area",
       citternblaze_mesh_joined(cells, 8, edges, 18, counts, 9, sums(counts, 9), 9,
                                NULL, 0, NULL, 0, answer, ROOM));
  show("loop of nothing",
       citternblaze_loops(NULL, 0, NULL, 0, NULL, 0, NULL, 0, 0, 0, answer,
                          ROOM));
  show("places of nothing",
       citternblaze_places(NULL, 0, NULL, 0, NULL, 0, NULL, 0, NULL, 0, NULL, 0,
                           NULL, 0, answer, ROOM));
  show("places, no numbers",
       citternblaze_places(cells, 8, edges, 18, counts, 9, sums(counts, 9), 9,
                           NULL, 0, NULL, 0, NULL, 0, answer, ROOM));
  show("shading of nothing",
       citternblaze_shading(NULL, 0, NULL, 0, NULL, 0, NULL, 0, NULL, 0, answer,
                            ROOM));
  show("shading, no area", citternblaze_shading(cells, 8, edges, 18, counts, 9,
                                                sums(counts, 9), 9, NULL, 0,
                                                answer, ROOM));
  show("flat face, no answer area", citternblaze_flat_face(2, 2, 1, 0, 0, NULL, 0));
  show("flat check of nothing",
       citternblaze_flat_check(NULL, 0, NULL, 0, NULL, 0, answer, ROOM));
  show("chains of nothing", citternblaze_flat_chains(NULL, 0, NULL, 0, NULL, 0, NULL,
                                                     0, answer, ROOM));
  show("chains, no area",
       citternblaze_flat_chains(triangles, 9, flat_edges, 12, flat_counts, 6, NULL,
                                0, answer, ROOM));
  show("record of nothing", citternblaze_record(NULL, 0, 0, answer, ROOM));
  show("body of nothing", citternblaze_record_body(NULL, 0, 0, answer, ROOM));
  show("read nothing", citternblaze_bundle_read(NULL, 0, NULL, 0, NULL, 0, NULL,
                                                0, answer, ROOM));
  show("read an end into no lists",
       citternblaze_bundle_read(bundle + 31, 4, NULL, 0, NULL, 0, NULL, 0, answer,
                                ROOM));
  show("read into no lists",
       citternblaze_bundle_read(bundle, sizeof bundle, NULL, 0, NULL, 0, NULL, 0,
                                answer, ROOM));
  show("write nothing", citternblaze_bundle_write(NULL, 0, NULL, 0, NULL, 0, area,
                                                  4, answer, ROOM));
  show("write nothing into no area",
       citternblaze_bundle_write(NULL, 0, NULL, 0, NULL, 0, NULL, 0, answer,
                                 ROOM));
  show("nearest of nothing",
       citternblaze_nearest(NULL, 0, 0, 0, 0, answer, ROOM));
  show("check, no answer area",
       citternblaze_check(NULL, 0, NULL, 0, NULL, 0, NULL, 0, NULL, 0));
  show("open, no answer area",
       citternblaze_open(NULL, 0, NULL, 0, NULL, 0, NULL, 0, NULL, 0));
  show("set, no answer area",
       citternblaze_set_count(NULL, 0, NULL, 0, NULL, 0, NULL, 0, 0, 0, NULL,
                              0));
  show("mesh, no answer area",
       citternblaze_mesh(NULL, 0, NULL, 0, NULL, 0, NULL, 0, NULL, 0, NULL, 0));
  show("run, no answer area",
       citternblaze_mesh_run(NULL, 0, NULL, 0, NULL, 0, NULL, 0, NULL, 0, 0, NULL,
                             0, NULL, 0));
  show("joined, no answer area",
       citternblaze_mesh_joined(NULL, 0, NULL, 0, NULL, 0, NULL, 0, NULL, 0, NULL,
                                0, NULL, 0));
  show("loops, no answer area",
       citternblaze_loops(NULL, 0, NULL, 0, NULL, 0, NULL, 0, 0, 0, NULL, 0));
  show("places, no answer area",
       citternblaze_places(NULL, 0, NULL, 0, NULL, 0, NULL, 0, NULL, 0, NULL, 0,
                           NULL, 0, NULL, 0));
  show("shading, no answer area",
       citternblaze_shading(NULL, 0, NULL, 0, NULL, 0, NULL, 0, NULL, 0, NULL,
                            0));
  show("flat check, no answer area",
       citternblaze_flat_check(NULL, 0, NULL, 0, NULL, 0, NULL, 0));
  show("chains, no answer area",
       citternblaze_flat_chains(NULL, 0, NULL, 0, NULL, 0, NULL, 0, NULL, 0));
  show("record, no answer area", citternblaze_record(NULL, 0, 0, NULL, 0));
  show("body, no answer area", citternblaze_record_body(NULL, 0, 0, NULL, 0));
  show("read, no answer area",
       citternblaze_bundle_read(NULL, 0, NULL, 0, NULL, 0, NULL, 0, NULL, 0));
  show("write, no answer area",
       citternblaze_bundle_write(NULL, 0, NULL, 0, NULL, 0, NULL, 0, NULL, 0));
  show("nearest, no answer area",
       citternblaze_nearest(NULL, 0, 0, 0, 0, NULL, 0));
}

int main(void) {
  clear();
  test_face();
  test_case();
  test_book();
  test_check();
  test_open();
  test_set();
  test_mesh();
  test_split();
  test_runs();
  test_loops();
  test_places();
  test_split_places();
  test_deep();
  test_shading();
  test_flat();
  test_record();
  test_bundle_read();
  test_bundle_write();
  test_bundle_cap();
  test_nearest();
  test_grid_refusals();
  test_other_refusals();
  test_null();
  return 0;
}
