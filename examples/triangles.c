/* From a bundle file to triangles in space: reads the bundle, opens, meshes and
 * places its grid, and prints each triangle with the places of its corners.
 * README.md has the line that builds it.
 *
 * A bundle says which nodes and edges there are and how many crossings each
 * edge has, not where they lie: a probe knows that from its scan. This program
 * makes it up, in make_places. */
#include "citternblaze.h"

#include <stdio.h>
#include <stdlib.h>

#define NODES (CITTERNBLAZE_HIGHEST_NODE + 1)

/* No accepted grid needs longer lists; a longer bundle is refused with 14. */
static uint16_t cells[4 * CITTERNBLAZE_MOST_CELLS];
static uint16_t edges[2 * CITTERNBLAZE_MOST_EDGES];
static uint16_t counts[CITTERNBLAZE_MOST_EDGES];
static uint32_t starts[CITTERNBLAZE_MOST_EDGES];
static double nodes[3 * NODES];
static double fractions[CITTERNBLAZE_MOST_CROSSINGS];

static void *room(size_t bytes) {
  void *memory = malloc(bytes > 0 ? bytes : 1);
  if (memory == NULL)
    exit(2);
  return memory;
}

/* One number of a call's answer; ends the program where the call refused. */
static size_t number(citternblaze_answer answer, int at) {
  const uint64_t refusal = answer.number[CITTERNBLAZE_AT_REFUSAL];
  if (refusal != CITTERNBLAZE_DONE) {
    printf("refused %lu at %lu: %s\n", (unsigned long)refusal,
           (unsigned long)answer.number[CITTERNBLAZE_AT_PLACE],
           citternblaze_refusal_text(refusal));
    exit(1);
  }
  return (size_t)answer.number[at];
}

/* The bytes of a file that has fewer than so many. */
static size_t read_file(const char *name, uint8_t *bytes, size_t most) {
  FILE *file = fopen(name, "rb");
  size_t length = file == NULL ? 0 : fread(bytes, 1, most, file);
  if (file == NULL || ferror(file) || length == most) {
    fprintf(stderr, "%s: cannot be read, or is too long\n", name);
    exit(2);
  }
  fclose(file);
  return length;
}

/* Nodes 0 to 3 at 0 and one step along each axis, the next four about (1, 1,
 * 1), and so on; the crossings of each edge at even distances. */
static void make_places(const citternblaze_grid *grid) {
  for (int i = 0; i < 3 * NODES; i++)
    nodes[i] = i / 12 + (i / 3 % 4 == i % 3 + 1);
  for (size_t edge = 0; edge < grid->counts_len; edge++)
    for (int index = 0; index < grid->counts[edge]; index++)
      fractions[grid->starts[edge] + index] =
          (index + 1) / (grid->counts[edge] + 1.0);
}

static void print(citternblaze_points at, const uint32_t *words,
                  size_t triangles, const double *points) {
  for (size_t t = 0; t < triangles; t++, words += CITTERNBLAZE_TRIANGLE_WORDS) {
    citternblaze_points_next(&at, words);
    printf("cell %lu", (unsigned long)citternblaze_cell_of(words));
    if (citternblaze_part_of(words) > 0)
      printf(" sub-cell %lu", (unsigned long)citternblaze_part_of(words));
    for (int k = 0; k < 3; k++) {
      const double *point = points + 3 * at.corner[k];
      printf("%s (%g %g %g)", k == 0 ? ":" : "", point[0], point[1], point[2]);
    }
    printf("\n");
  }
}

int main(int argc, char **argv) {
  static uint8_t bytes[1 << 20];
  citternblaze_grid grid;
  citternblaze_points corners;
  size_t length =
      read_file(argc > 1 ? argv[1] : "/dev/stdin", bytes, sizeof bytes);
  number(citternblaze_grid_read(&grid, bytes, length, cells, sizeof cells / 2,
                                edges, sizeof edges / 2, counts, starts,
                                CITTERNBLAZE_MOST_EDGES),
         0);
  size_t crossings =
      number(citternblaze_grid_open(&grid), CITTERNBLAZE_AT_CROSSINGS);
  size_t triangles =
      number(citternblaze_grid_triangles(&grid), CITTERNBLAZE_AT_TRIANGLES);
  size_t words_len = CITTERNBLAZE_TRIANGLE_WORDS * triangles;
  uint32_t *words = (uint32_t *)room(words_len * sizeof *words);
  number(citternblaze_grid_mesh(&grid, words, words_len),
         CITTERNBLAZE_AT_TRIANGLES);
  make_places(&grid);
  /* a cell has more triangles than fans and inner crossings */
  size_t most = 3 * (crossings + triangles);
  double *points = (double *)room(most * sizeof *points);
  size_t placed =
      number(citternblaze_grid_places(&grid, nodes, 3 * NODES, fractions,
                                      crossings, points, most),
             CITTERNBLAZE_AT_POINTS);
  corners = citternblaze_points_from(words, triangles, crossings);
  printf("crossings %lu inner %lu middles %lu triangles %lu\n",
         (unsigned long)crossings, (unsigned long)(corners.middles - crossings),
         (unsigned long)(placed - corners.middles), (unsigned long)triangles);
  print(corners, words, triangles, points);
  free(points);
  free(words);
  return 0;
}
