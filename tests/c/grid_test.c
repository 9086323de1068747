/* The calls that citternblaze.h itself defines over a grid answer and write as those that take the lists one by one; the words of the refusals. */
#include "citternblaze.h"

#include <stdio.h>
#include <stdlib.h>
#include <string.h>

#define WORDS 4096

static int wrong;

#define LISTS cells, 12, edges, 20, counts, 10, starts, 10

/* Three cells round the edge 0 1. */
static uint16_t cells[12] = {0, 1, 2, 3, 0, 1, 2, 4, 0, 1, 3, 4};
static uint16_t edges[20] = {0, 1, 0, 2, 0, 3, 0, 4, 1, 2, 1, 3, 1, 4, 2, 3, 2, 4, 3, 4};
static uint16_t counts[10];
static uint32_t starts[10];

static void expect(const char *what, int holds) {
  if (!holds) {
    printf("wrong: %s\n", what);
    wrong = 1;
  }
}

/* The numbers of two answers, and the bytes of two areas, are the same. */
static void same(const char *what, citternblaze_answer a, size_t len, const uint64_t *number, const void *one, const void *two,
                 size_t bytes) {
  expect(what, a.len == len && memcmp(a.number, number, len * sizeof *number) == 0);
  expect(what, bytes == 0 || memcmp(one, two, bytes) == 0);
}

static void texts(void) {
  for (uint64_t n = 0; n < 27; n++)
    for (uint64_t m = 0; m < n; m++)
      expect("refusals have words of their own", strcmp(citternblaze_refusal_text(n), citternblaze_refusal_text(m)) != 0);
  expect("27 is no refusal", strcmp(citternblaze_refusal_text(27), citternblaze_refusal_text(UINT64_MAX)) == 0);
  for (uint64_t n = 1; n < 27; n++)
    printf("%lu %s\n", (unsigned long)n, citternblaze_refusal_text(n));
}

/* Each call twice, once over the grid and once over its lists. */
static void calls(const citternblaze_grid *grid) {
  static uint32_t one[WORDS], two[WORDS];
  static uint8_t sides[2][CITTERNBLAZE_SHADING_BYTES];
  static double points[2][3 * WORDS], nodes[15], fractions[64];
  const uint16_t cuts[1] = {1};
  uint64_t n[CITTERNBLAZE_ANSWER_WORDS];
  const size_t most = CITTERNBLAZE_ANSWER_WORDS;
  size_t len = citternblaze_check(LISTS, n, most);
  same("check", citternblaze_grid_check(grid), len, n, NULL, NULL, 0);
  len = citternblaze_mesh(LISTS, two, WORDS, n, most);
  same("mesh", citternblaze_grid_mesh(grid, one, WORDS), len, n, one, two, sizeof one);
  expect("triangles", citternblaze_grid_triangles(grid).number[CITTERNBLAZE_AT_TRIANGLES] == n[CITTERNBLAZE_AT_TRIANGLES]);
  len = citternblaze_mesh(LISTS, two, 5, n, most);
  same("mesh without room", citternblaze_grid_mesh(grid, one, 5), len, n, one, two, sizeof one);
  len = citternblaze_mesh_run(LISTS, cuts, 1, 1, two, WORDS, n, most);
  same("run", citternblaze_grid_mesh_run(grid, cuts, 1, 1, one, WORDS), len, n, one, two, sizeof one);
  len = citternblaze_mesh_joined(LISTS, cuts, 1, two, WORDS, n, most);
  same("joined", citternblaze_grid_mesh_joined(grid, cuts, 1, one, WORDS), len, n, one, two, sizeof one);
  len = citternblaze_loops(LISTS, 1, 0, n, most);
  same("loops", citternblaze_grid_loops(grid, 1, 0), len, n, NULL, NULL, 0);
  len = citternblaze_shading(LISTS, sides[1], CITTERNBLAZE_SHADING_BYTES, n, most);
  same("shading", citternblaze_grid_shading(grid, sides[0], CITTERNBLAZE_SHADING_BYTES), len, n, sides[0], sides[1], sizeof sides[0]);
  for (int i = 0; i < 15; i++)
    nodes[i] = i * i % 7;
  for (int i = 0; i < 64; i++)
    fractions[i] = 0.25 + 0.5 * (i % 2);
  const size_t crossings = (size_t)citternblaze_grid_check(grid).number[CITTERNBLAZE_AT_CROSSINGS];
  len = citternblaze_places(LISTS, nodes, 15, fractions, crossings, points[1], 3 * WORDS, n, most);
  same("places", citternblaze_grid_places(grid, nodes, 15, fractions, crossings, points[0], 3 * WORDS), len, n, points[0], points[1],
       sizeof points[0]);
}

int main(void) {
  uint16_t set[10];
  uint32_t again[10];
  uint64_t n[CITTERNBLAZE_ANSWER_WORDS];
  citternblaze_grid grid = {cells, 12, edges, 20, counts, 10, starts, 10}, read;
  texts();
  for (int count = 0; count < 5; count++) {
    counts[0] = (uint16_t)count;
    starts[8] = 77;
    memcpy(again, starts, sizeof again);
    size_t len = citternblaze_open(cells, 12, edges, 20, counts, 10, again, 10, n, CITTERNBLAZE_ANSWER_WORDS);
    same("open", citternblaze_grid_open(&grid), len, n, starts, again, sizeof again);
    calls(&grid);
    memcpy(set, counts, sizeof set);
    len = citternblaze_set_count(cells, 12, edges, 20, set, 10, again, 10, 3, 4000, n, CITTERNBLAZE_ANSWER_WORDS);
    same("set_count", citternblaze_grid_set_count(&grid, 3, 4000), len, n, starts, again, sizeof again);
    expect("set_count", memcmp(set, counts, sizeof set) == 0);
    counts[3] = 0;
  }
  /* a grid that is refused: without triangles to tell */
  citternblaze_grid_open(&grid);
  cells[3] = 1;
  expect("a refusal is handed on", citternblaze_grid_triangles(&grid).number[0] == CITTERNBLAZE_REFUSED_CELL_NODES);
  const uint8_t broken[1] = {0};
  expect("a bundle that is refused", citternblaze_grid_read(&read, broken, 1, cells, 12, edges, 20, counts, starts, 10).number[0] ==
                                         CITTERNBLAZE_REFUSED_RECORDS && read.cells_len == 0 && read.counts_len == 0);
  /* the cell, part and points of a triangle: examples/triangles.c prints them for samples */
  const uint32_t triangle[11] = {5 + 3 * CITTERNBLAZE_MOST_CELLS, 0, 1, 2, CITTERNBLAZE_MIDDLE, 0, 0, 0, 0, 0, 0};
  expect("cell", citternblaze_cell_of(triangle) == 5 && citternblaze_part_of(triangle) == 3);
  citternblaze_points at = citternblaze_points_from(triangle, 1, 9);
  citternblaze_points_next(&at, triangle);
  expect("points", at.corner[0] == 1 && at.corner[1] == 2 && at.corner[2] == 9);
  return wrong;
}
