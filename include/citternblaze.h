/* Citternblaze: a tetrahedral mesher whose every call is proved. The calls are
 * in libcitternblaze.a and libcitternblaze.so (`make`, `make install`; of the
 * checkout alone also libcapi.a, by `scripts/libraries.sh capi`).
 * docs/FORMAT.md says what a grid, a mesh, a bundle and each refusal are;
 * examples/ has programs.
 *
 * Lists and areas. A list or an area is a pointer and the number of its
 * elements. The caller lends it for the length of the call: no call keeps a
 * pointer, reads or writes the caller's memory outside of what it is lent, or
 * uses the heap. The pointer may be NULL where the number of elements is 0;
 * otherwise it must be aligned for its elements. An area that a call writes must
 * overlap nothing else that is lent to that call.
 *
 * Answers. Every call has an area `answer` for the numbers of its answer. It must
 * have CITTERNBLAZE_ANSWER_WORDS elements or more:
 * - With them, the call puts its numbers at the front of the area, keeps what
 *   stands behind them, and returns how many they are: at most
 *   CITTERNBLAZE_ANSWER_WORDS.
 * - With fewer, the call changes nothing at all, in no area or list that it is
 *   lent, and returns CITTERNBLAZE_ANSWER_WORDS.
 * So a call that returns more than answer_len did nothing. In a call's text below
 * "answers" means the numbers that it puts.
 *
 * What the calls need:
 * - A processor of the level x86-64-v2 (x86-64 with SSE3 to SSE4.2 and POPCNT;
 *   no AVX), and the System V calling convention, as Linux has it.
 * - Of C's functions memcpy and memset, at most.
 * - Stack: CITTERNBLAZE_STACK_BYTES suffice for any call. A KB here has 1,024
 *   bytes. As measured, the nine calls on a grid take 233 to 674 KB where no split
 *   is inside another; with the 2,045 splits of d1 4092 and d2 2, one inside the
 *   other, the mesh call takes 1,128 KB, the run call 1,240 KB, the joined call
 *   1,368 KB and the places call 2,405 KB. The chains call of a flat grid takes
 *   940 KB, its check 172 KB, the bundle reader 148 KB, citternblaze_case 2 KB,
 *   each other call under 1 KB. What a call's text below says it takes is tested
 *   on a thread with exactly that stack.
 * - For citternblaze_places and citternblaze_nearest, 64-bit floating point as a C
 *   program finds it at its start: rounding to nearest, subnormal numbers on (no
 *   flush to zero), no exception trapped. The other calls do not compute with it.
 * - Nothing of threads: there is no state between calls, and any number of
 *   threads may call at once, where no area that one of them writes is lent to
 *   another.
 *
 * Time. Under "Cost" each call's text says what its time is in proportion to, for
 * every input; a call on a grid takes that of citternblaze_check before.
 * docs/SPEED.md has figures, the worst input found of each call among them. But:
 * - With more than 12288 edges and more than 12288 later looks the bundle reader
 *   goes over the edges once more for every 12288 looks.
 * - A split cell has as many triangles as citternblaze_book answers, which may be
 *   far more than its crossings. */
#ifndef CITTERNBLAZE_H
#define CITTERNBLAZE_H

#include <stddef.h>
#include <stdint.h>

/* The version, as the file VERSION has it. */
#define CITTERNBLAZE_VERSION "0.2.0"

/* The elements that an answer area must have; no answer has more numbers. */
#define CITTERNBLAZE_ANSWER_WORDS 6

/* The bytes of stack that suffice for any call. */
#define CITTERNBLAZE_STACK_BYTES (2560 * 1024)

/* What an accepted grid has at most. */
#define CITTERNBLAZE_MOST_CELLS 2048
#define CITTERNBLAZE_MOST_EDGES 12288
#define CITTERNBLAZE_HIGHEST_NODE 4095
#define CITTERNBLAZE_HIGHEST_COUNT 4095
#define CITTERNBLAZE_MOST_CROSSINGS 65535

/* What an accepted flat grid has at most, besides: its nodes, counts and crossings
 * have the limits of a grid. */
#define CITTERNBLAZE_MOST_FLAT_TRIANGLES 2048
#define CITTERNBLAZE_MOST_FLAT_EDGES 6144

/* The first number of an answer that is a result, of every call but
 * citternblaze_face, citternblaze_flat_face and citternblaze_record_body; any other
 * is a refusal. */
#define CITTERNBLAZE_DONE 0

/* The first number of the answer of citternblaze_face and citternblaze_flat_face. */
#define CITTERNBLAZE_JOINED 0
#define CITTERNBLAZE_UNJOINED 1
#define CITTERNBLAZE_NO_CROSSING 2

/* How a crossing is joined: round a corner, or along its edge. */
#define CITTERNBLAZE_ROUND 0
#define CITTERNBLAZE_ALONG 1

/* Why a crossing is unjoined: rule 2 left it, or rule 3 skipped it. */
#define CITTERNBLAZE_LEFT 0
#define CITTERNBLAZE_SKIPPED 1

/* The bytes of a shading, one for each node that there may be, and the byte of a
 * node that no cell has. */
#define CITTERNBLAZE_SHADING_BYTES 4096
#define CITTERNBLAZE_UNUSED 255

/* The words of a triangle: how many they are, and where each stands. A side has
 * two words, and corner 0 is the start of side 0. */
#define CITTERNBLAZE_TRIANGLE_WORDS 11
#define CITTERNBLAZE_TRIANGLE_CELL 0
#define CITTERNBLAZE_TRIANGLE_P0 1
#define CITTERNBLAZE_TRIANGLE_CORNERS 2
#define CITTERNBLAZE_TRIANGLE_SIDES 5

/* The word of a corner that is its loop's middle, and the first word of a side
 * that is an inner side. */
#define CITTERNBLAZE_MIDDLE 4294967295u
#define CITTERNBLAZE_INNER 4294967295u

/* The first word of a chain: it is open, or closed. */
#define CITTERNBLAZE_OPEN 0
#define CITTERNBLAZE_CLOSED 1

/* The first number of a split cell's inner crossings, and the first name of its
 * inner faces. */
#define CITTERNBLAZE_INNER_CROSSING 65536u
#define CITTERNBLAZE_INNER_FACE 8192u

/* The types of a loop: contractible; corner, at a node that is not the cell's
 * lowest; diagonal; corner, at the cell's lowest node. */
#define CITTERNBLAZE_CONTRACTIBLE 0
#define CITTERNBLAZE_CORNER 1
#define CITTERNBLAZE_DIAGONAL 2
#define CITTERNBLAZE_LOWEST_CORNER 3

/* The kinds of a record. An edge is of kind EDGE where its count is 255 or less,
 * and of kind WIDE_EDGE where it is more. A later look at an edge is of kind LOOK,
 * whatever its count. */
#define CITTERNBLAZE_KIND_CELL 1
#define CITTERNBLAZE_KIND_EDGE 2
#define CITTERNBLAZE_KIND_END 3
#define CITTERNBLAZE_KIND_WIDE_EDGE 4
#define CITTERNBLAZE_KIND_LOOK 5

/* The refusals: the first number of an answer that is not a result. The second is
 * the refusal's place, as docs/FORMAT.md has it. They are judged in the order of
 * their numbers, but 18 directly after 6, 22 directly after 13, and 25 and 26
 * directly after 10; of a setting 21, 18 and 10, after those of its grid. */
#define CITTERNBLAZE_REFUSED_CELL_LIST 1     /* cells: length or number */
#define CITTERNBLAZE_REFUSED_EDGE_LIST 2     /* edges, starts: length, sums */
#define CITTERNBLAZE_REFUSED_CELL_NODES 3    /* a cell's nodes */
#define CITTERNBLAZE_REFUSED_CELL_REPEATED 4 /* a cell twice */
#define CITTERNBLAZE_REFUSED_FACE_CROWDED 5  /* a face in three cells */
#define CITTERNBLAZE_REFUSED_EDGE_ORDER 6    /* edges: order */
#define CITTERNBLAZE_REFUSED_EDGE_MISSING 7  /* a cell's edge not listed */
#define CITTERNBLAZE_REFUSED_EDGE_STRAY 8    /* an edge in no cell */
#define CITTERNBLAZE_REFUSED_EDGE_UNLINKED 9 /* cells of an edge not linked */
#define CITTERNBLAZE_REFUSED_CROSSINGS 10    /* too many crossings */
#define CITTERNBLAZE_REFUSED_NO_CELL 11      /* no such cell */
#define CITTERNBLAZE_REFUSED_MESH_AREA 12    /* area too short for the mesh */
#define CITTERNBLAZE_REFUSED_RECORDS 13      /* not the records of a bundle */
#define CITTERNBLAZE_REFUSED_BUNDLE_AREA 14  /* lists or area too short */
#define CITTERNBLAZE_REFUSED_PLACE_LISTS 15  /* places: lengths */
#define CITTERNBLAZE_REFUSED_NODE_PLACE 16   /* a number of a node's place */
#define CITTERNBLAZE_REFUSED_FRACTION 17     /* a fraction */
#define CITTERNBLAZE_REFUSED_COUNT 18        /* a count over 4095 */
#define CITTERNBLAZE_REFUSED_SHADING_AREA 19 /* not 4096 bytes */
#define CITTERNBLAZE_REFUSED_NO_SHADING 20   /* the grid has no shading */
#define CITTERNBLAZE_REFUSED_NO_EDGE 21      /* no such edge */
#define CITTERNBLAZE_REFUSED_LOOK 22         /* a look for no edge */
#define CITTERNBLAZE_REFUSED_POINTS 23       /* nearest: list or number */
#define CITTERNBLAZE_REFUSED_CHAIN_AREA 24   /* area too short for the chains */
#define CITTERNBLAZE_REFUSED_CUTS 25         /* cuts: order, or no cell's number */
#define CITTERNBLAZE_REFUSED_NO_RUN 26       /* no such run */

/* Where the numbers of an answer stand, call by call. The first number of an answer
 * is CITTERNBLAZE_DONE or a refusal, but for citternblaze_face,
 * citternblaze_flat_face and citternblaze_record_body; the second number of a
 * refusal is its place. */
#define CITTERNBLAZE_AT_REFUSAL 0
#define CITTERNBLAZE_AT_PLACE 1
#define CITTERNBLAZE_AT_CROSSINGS 1      /* check, open, set_count, flat_check */
#define CITTERNBLAZE_AT_TRIANGLES 1      /* mesh, mesh_run, mesh_joined */
#define CITTERNBLAZE_AT_SPLITS 2         /* mesh, mesh_run, mesh_joined */
#define CITTERNBLAZE_AT_POINTS 1         /* places */
#define CITTERNBLAZE_AT_WORDS 1          /* flat_chains */
#define CITTERNBLAZE_AT_BYTES 1          /* bundle_write */
#define CITTERNBLAZE_AT_CELLS 1          /* bundle_read */
#define CITTERNBLAZE_AT_EDGES 2          /* bundle_read */
#define CITTERNBLAZE_AT_KIND 1           /* record */
#define CITTERNBLAZE_AT_NEXT 2           /* record */
#define CITTERNBLAZE_AT_BODY 0           /* record_body */
#define CITTERNBLAZE_AT_BODY_BYTES 1     /* record_body */
#define CITTERNBLAZE_AT_POINT 1          /* nearest */
#define CITTERNBLAZE_AT_DISTANCE 2       /* nearest: the bits of a double */
#define CITTERNBLAZE_AT_P0 1             /* loops */
#define CITTERNBLAZE_AT_LENGTH 2         /* loops */
#define CITTERNBLAZE_AT_NORMAL 3         /* loops */
#define CITTERNBLAZE_AT_TYPE 4           /* loops */
#define CITTERNBLAZE_AT_NODE 5           /* loops, but of a contractible one */
#define CITTERNBLAZE_AT_CASE_LOOPS 1     /* case */
#define CITTERNBLAZE_AT_CASE_TRIANGLES 2 /* case */
#define CITTERNBLAZE_AT_CORNERS 1        /* book: t */
#define CITTERNBLAZE_AT_D1 2             /* book */
#define CITTERNBLAZE_AT_D2 3             /* book */
#define CITTERNBLAZE_AT_BOOKED 4         /* book: the triangles */
#define CITTERNBLAZE_AT_JOIN 0           /* face, flat_face: joined or not */
#define CITTERNBLAZE_AT_EDGE 1           /* face, flat_face: the partner's */
#define CITTERNBLAZE_AT_INDEX 2          /* face, flat_face: the partner's */
#define CITTERNBLAZE_AT_HOW 3            /* face, flat_face */
#define CITTERNBLAZE_AT_CORNER 4         /* face, flat_face: where round one */
#define CITTERNBLAZE_AT_WHY 1            /* face, flat_face: where unjoined */

#ifdef __cplusplus
extern "C" {
#endif

/* The face call. What a crossing of a face a < b < c is joined to.
 *
 * Reads the counts of the edges ab, ac, bc, which may be any of 16 bits; an edge,
 * 0 ab, 1 ac, 2 bc; and an index on it, counted from its lower node.
 *
 * Answers 0, the partner's edge and index, and how the two are joined: 0 and the
 * corner that the segment goes round, 0 a, 1 b, 2 c; or 1, along their edge. Or 1,
 * where the crossing is unjoined, and why: 0, where the face's sum is odd and no
 * count above the other two, so that each edge leaves one; or 1, where the edge's
 * count is above the other two and the crossings between its corners are odd in
 * number, so that the first is skipped. Or 2, where there is no such crossing: the
 * edge is over 2, or the index not below its count.
 *
 * Cost: a fixed time. */
size_t citternblaze_face(uint16_t ab, uint16_t ac, uint16_t bc,
                         uint32_t edge, uint32_t index,
                         uint64_t *answer, size_t answer_len);

/* The table of common cells. How many loops and triangles a cell has whose six
 * counts are 0, 1 or 2.
 *
 * Reads the counts of the edges 01, 02, 03, 12, 13, 23, which may be any of 16
 * bits.
 *
 * Answers 0, the number of loops and the number of triangles; or 0 alone, where
 * a count is above 2: the cell is outside the table.
 *
 * Cost: a fixed time. */
size_t citternblaze_case(uint16_t e01, uint16_t e02, uint16_t e03,
                         uint16_t e12, uint16_t e13, uint16_t e23,
                         uint64_t *answer, size_t answer_len);

/* The booking. How many triangles a cell has, from the counts of its edges alone.
 *
 * Reads the counts of the edges 01, 02, 03, 12, 13, 23, which may be any of 16
 * bits.
 *
 * Answers 0; t, the corner triangles: at each node the least of its three corner
 * counts; d1 and d2, the two smaller of the counts left at the lowest node, the
 * larger first; and the triangles of the cell. These are t and 2 d1 where d2 is 0;
 * where d1 > d2 > 0 and both have a common divisor above 1, t and the triangles of
 * the parts into which citternblaze_mesh splits the cell, which pass 32 bits for
 * large counts; else t and 4 (d1 + d2). Or 0 alone, "walk it", where a face has an
 * odd sum or a count above the other two: such a cell's loops have to be walked, as
 * citternblaze_mesh does.
 *
 * Cost: a fixed time, but of a split cell the divisions that lead to the greatest
 * common divisor of d1 and d2. */
size_t citternblaze_book(uint16_t e01, uint16_t e02, uint16_t e03,
                         uint16_t e12, uint16_t e13, uint16_t e23,
                         uint64_t *answer, size_t answer_len);

/* The grid check.
 *
 * Reads the cells, four nodes each; the edges, two nodes each; a count for each
 * edge; and its start, the sum of the counts of all earlier edges, as
 * citternblaze_open fills them in and citternblaze_set_count keeps them.
 *
 * Answers 0 and the number of crossings, where the grid is accepted; or the
 * number and the place of a refusal, 1 to 10 or 18. Takes up to 512 KB of the
 * stack.
 *
 * Cost: cells and listed edges, whatever they are. A refusal by 4 or 5 is told after
 * all cells are looked at. */
size_t citternblaze_check(const uint16_t *cells, size_t cells_len,
                          const uint16_t *edges, size_t edges_len,
                          const uint16_t *counts, size_t counts_len,
                          const uint32_t *starts, size_t starts_len,
                          uint64_t *answer, size_t answer_len);

/* The opening call. Checks a grid whose starts are not known, and fills them in.
 *
 * Reads the cells, edges and counts, as citternblaze_check does, and of the starts
 * only how many there are: one for each count.
 *
 * Answers 0 and the number of crossings; or the number and the place of a
 * refusal, 1 to 10 or 18, which keeps every start. Takes up to 512 KB of the
 * stack.
 *
 * Cost: that of citternblaze_check. */
size_t citternblaze_open(const uint16_t *cells, size_t cells_len,
                         const uint16_t *edges, size_t edges_len,
                         const uint16_t *counts, size_t counts_len,
                         uint32_t *starts, size_t starts_len,
                         uint64_t *answer, size_t answer_len);

/* The setting call. Sets the count of one edge, and brings the starts of all later
 * edges up to date. After any number of such calls on an accepted grid, with no
 * other writing to its lists, every call answers as for a grid that is opened
 * afresh with the counts that it then has.
 *
 * Reads the grid, as citternblaze_check does; the number of an edge, and the count
 * that it is to have.
 *
 * Answers 0 and the number of crossings with this count; or the number and the
 * place of a refusal: 1 to 10 and 18 as citternblaze_check has them for the grid
 * as it is lent; 21 and the edge, where there is no such edge; 18 and the edge,
 * where the count is over 4095; 10 and 0, where there would be too many crossings.
 * A refusal keeps every count and every start. Takes up to 512 KB of the stack.
 *
 * Cost: that of citternblaze_check, whichever edge is set. */
size_t citternblaze_set_count(const uint16_t *cells, size_t cells_len,
                              const uint16_t *edges, size_t edges_len,
                              uint16_t *counts, size_t counts_len,
                              uint32_t *starts, size_t starts_len,
                              size_t edge, uint16_t count,
                              uint64_t *answer, size_t answer_len);

/* The mesh call. Writes the triangles of a grid at the front of the area, eleven
 * words each, and keeps the area beyond them.
 *
 * Reads the grid, as citternblaze_check does.
 *
 * The words of a triangle: its cell; p0, the least crossing of its loop; three
 * corners, each a crossing, or 4294967295 for the loop's middle point; three
 * sides of two words each, from each corner to the next: the name of the face
 * and the lower crossing of a segment, or 4294967295 and the number of an inner
 * side.
 *
 * A cell whose numbers d1 and d2 (citternblaze_book) are d1 > d2 > 0 and have a
 * common divisor above 1 is split, and the triangles of its parts stand in place
 * of those of its loops. The first word of a triangle is then the cell and
 * CITTERNBLAZE_MOST_CELLS times the number of the part, 0 for a corner triangle of
 * the cell itself. Crossings from 65536 on are inner ones of that cell, and faces
 * from 8192 on inner faces: the same number in another cell is another crossing or
 * face. docs/FORMAT.md says how they are numbered.
 *
 * Answers 0, the number of triangles and the number of splits; or the number and
 * the place of a refusal: 1 to 10 and 18 as citternblaze_check has them, or 12 and
 * the number of triangles needed, where the area is too short. A refusal keeps
 * every word of the area. Takes up to 1536 KB of the stack, and up to 640 KB where
 * no split is inside another.
 *
 * A cell that is not split has no more triangles than crossings. Where the area has
 * room for as many triangles as the cells have crossings together and those that
 * splitting adds, no cell is walked to count. Else the cells that are outside the
 * table of citternblaze_case and that citternblaze_book answers "walk it" for are
 * walked twice, first to count.
 *
 * Cost: the crossings of the cells, an edge's counted in each of its cells, and the
 * triangles. A split cell has as many triangles as citternblaze_book answers. */
size_t citternblaze_mesh(const uint16_t *cells, size_t cells_len,
                         const uint16_t *edges, size_t edges_len,
                         const uint16_t *counts, size_t counts_len,
                         const uint32_t *starts, size_t starts_len,
                         uint32_t *area, size_t area_len,
                         uint64_t *answer, size_t answer_len);

/* The run call. Writes the triangles of one run of a grid at the front of the area,
 * and keeps the area beyond them. Cuts part the cells of a grid, in their order,
 * into runs: each cut is the number of the first cell of a run, and run 0, which
 * has no cut, starts at cell 0.
 *
 * Reads the whole grid, as citternblaze_check does; the cuts; and the number of the
 * run that is asked for, from 0.
 *
 * The words are those that citternblaze_mesh writes for the run as a grid of its
 * own: its cells numbered from 0, the edges of its cells alone, in the order of the
 * whole, its own crossing numbers and its own names of faces. The whole must pass
 * every row of the check, but the run need not pass 9.
 *
 * Answers 0, the number of triangles and the number of splits; or the number and
 * the place of a refusal: 1 to 10 and 18 as citternblaze_check has them for the
 * whole; 25 and the index of the lowest cut that is not above the one before it,
 * not above 0, or not below the number of cells; 26 and the run, where there are no
 * more runs than its number; 12 and the triangles of the run, where the area is too
 * short. A refusal keeps every word of the area. Takes up to 1536 KB of the stack,
 * and up to 640 KB where no split is inside another.
 *
 * Cost: that of the check of the whole, and of citternblaze_mesh for the run. */
size_t citternblaze_mesh_run(const uint16_t *cells, size_t cells_len,
                             const uint16_t *edges, size_t edges_len,
                             const uint16_t *counts, size_t counts_len,
                             const uint32_t *starts, size_t starts_len,
                             const uint16_t *cuts, size_t cuts_len, size_t run,
                             uint32_t *area, size_t area_len,
                             uint64_t *answer, size_t answer_len);

/* The joined call. Makes the mesh of each run, as citternblaze_mesh_run does, writes
 * them one after the other, and puts the names of the whole in place of the run's
 * own for cells, crossings and faces; inner names of split cells stay. Where no cut
 * is refused, it writes the same words and answers the same numbers as
 * citternblaze_mesh.
 *
 * Reads the whole grid and the cuts, as citternblaze_mesh_run does.
 *
 * Answers 0, the number of triangles and the number of splits; or the number and
 * the place of a refusal: 1 to 10, 18 and 25 as citternblaze_mesh_run has them, or 12
 * and the triangles of all runs, where the area is too short. A refusal keeps every
 * word of the area. Takes up to 1792 KB of the stack, and up to 768 KB where no
 * split is inside another.
 *
 * Cost: that of citternblaze_mesh, and runs. */
size_t citternblaze_mesh_joined(const uint16_t *cells, size_t cells_len,
                                const uint16_t *edges, size_t edges_len,
                                const uint16_t *counts, size_t counts_len,
                                const uint32_t *starts, size_t starts_len,
                                const uint16_t *cuts, size_t cuts_len,
                                uint32_t *area, size_t area_len,
                                uint64_t *answer, size_t answer_len);

/* The loops call. One loop of a cell; a cell's loops are ordered by their least
 * crossings.
 *
 * Reads the grid, as citternblaze_check does; the number of a cell, and which of
 * its loops is asked for, from 0.
 *
 * Answers 0; p0, the loop's least crossing; its length; 1 where it is normal, or
 * else 0; and its type: 0, contractible; 1 and a node, the corner that it cuts
 * off; 2 and a node, which it keeps together with the cell's lowest; 3 and the
 * cell's lowest node, the corner that it cuts off. Or 0 alone, where the cell
 * has no such loop. Or the number and the place of a refusal: 1 to 10 and 18 as
 * citternblaze_check has them, or 11 and the cell asked for, where there is no
 * such cell. Takes up to 640 KB of the stack.
 *
 * Cost: the crossings of the cell, whichever loop is asked for. */
size_t citternblaze_loops(const uint16_t *cells, size_t cells_len,
                          const uint16_t *edges, size_t edges_len,
                          const uint16_t *counts, size_t counts_len,
                          const uint32_t *starts, size_t starts_len,
                          size_t cell, size_t index,
                          uint64_t *answer, size_t answer_len);

/* The places call. Writes the places of a grid's points at the front of the area,
 * three numbers each, and keeps the area beyond them: first the crossings, by
 * number; then the inner crossings of split cells, by cell and number; then the
 * middles of the loops that are drawn as fans, in mesh order: the mean of a loop's
 * points, but where loops of length 8 lie one inside the other, as in every part
 * of a split cell that has fans, each at a place of its own between the middles of
 * two opposite edges.
 *
 * Reads the grid, as citternblaze_check does; the places of the nodes, three
 * numbers for each node from 0 to the highest of a cell; and a fraction for each
 * crossing, which says how far from its edge's lower node to the higher it lies.
 * Inner crossings have none.
 *
 * Answers 0 and the number of points; or the number and the place of a refusal:
 * 1 to 10 and 18 as citternblaze_check has them; 15 and 0 where the list of
 * places or the area is too short, or the fractions are not one to a crossing; 16
 * and the index of a number among the places of the cells' nodes that is not from
 * -1000000 to 1000000; 17 and a crossing whose fraction is not above 0 and below
 * 1, or not above the one before it on its edge. A refusal keeps every number of
 * the area. Takes up to 2560 KB of the stack, and up to 640 KB where no split is
 * inside another.
 *
 * Cost: the points, and the crossings of the cells that have fans or are walked. */
size_t citternblaze_places(const uint16_t *cells, size_t cells_len,
                           const uint16_t *edges, size_t edges_len,
                           const uint16_t *counts, size_t counts_len,
                           const uint32_t *starts, size_t starts_len,
                           const double *nodes, size_t nodes_len,
                           const double *fractions, size_t fractions_len,
                           double *area, size_t area_len,
                           uint64_t *answer, size_t answer_len);

/* The shading call. Writes which side of the surfaces each node is on: for every
 * node of a cell 0 or 1, such that the ends of an edge differ exactly where its
 * count is odd, and 255 for a node that no cell has. The byte of node n is
 * area[n]. The lowest node of each connected part of the grid has 0; nodes are
 * connected where edges lead from the one to the other.
 *
 * Reads the grid, as citternblaze_check does.
 *
 * Answers 0; or the number and the place of a refusal: 1 to 10 and 18 as
 * citternblaze_check has them; 19 and 0 where the area is not 4096 bytes; 20 and
 * 0 where there is no shading, as where a closed way along edges has an odd number
 * of crossings. A refusal keeps every byte of the area. Takes up to 512 KB of the
 * stack.
 *
 * Cost: that of citternblaze_check, and a pass over the edges in which each takes a
 * logarithm of the nodes at most, on average. */
size_t citternblaze_shading(const uint16_t *cells, size_t cells_len,
                            const uint16_t *edges, size_t edges_len,
                            const uint16_t *counts, size_t counts_len,
                            const uint32_t *starts, size_t starts_len,
                            uint8_t *area, size_t area_len,
                            uint64_t *answer, size_t answer_len);

/* The face call for a triangle of a flat grid: as citternblaze_face, but where the
 * sum of the counts is odd and none is above the other two, the largest alone is
 * lessened by 1, the first of ab, ac, bc on a tie, so that one crossing of the
 * triangle is left, on that edge. Cost: a fixed time. */
size_t citternblaze_flat_face(uint16_t ab, uint16_t ac, uint16_t bc,
                              uint32_t edge, uint32_t index,
                              uint64_t *answer, size_t answer_len);

/* The check of a flat grid: a sheet of triangles.
 *
 * Reads the triangles, three nodes each, strictly increasing; the edges, two nodes
 * each; and a count for each edge.
 *
 * Answers 0 and the number of crossings, where the flat grid is accepted; or the
 * number and the place of a refusal, 1 to 8, 10 or 18, with triangles for cells and
 * edges for faces. Takes up to 192 KB of the stack.
 *
 * Cost: triangles and listed edges, with what stands above under "Time". */
size_t citternblaze_flat_check(const uint16_t *triangles, size_t triangles_len,
                               const uint16_t *edges, size_t edges_len,
                               const uint16_t *counts, size_t counts_len,
                               uint64_t *answer, size_t answer_len);

/* The chains call. Writes the chains of segments of a flat grid at the front of the
 * area, one after the other, by their least crossings, and keeps the area beyond
 * them.
 *
 * Reads the triangles, edges and counts, as citternblaze_flat_check does.
 *
 * The words of a chain: 1 where it is closed, or 0 where it is open; the number of
 * its crossings; and these in turn. An open chain starts at its end with the lower
 * number. A closed one starts at its least crossing, and leaves it into the
 * triangle listed first. A crossing without a segment is in no chain.
 *
 * Answers 0 and the number of words; or the number and the place of a refusal: 1
 * to 8, 10 and 18 as citternblaze_flat_check has them, or 24 and the number of
 * words needed, where the area is too short; twice as many words as there are
 * crossings suffice. A refusal keeps every word of the area. Takes up to 1,024 KB
 * of the stack.
 *
 * Cost: that of citternblaze_flat_check, and crossings. */
size_t citternblaze_flat_chains(const uint16_t *triangles, size_t triangles_len,
                                const uint16_t *edges, size_t edges_len,
                                const uint16_t *counts, size_t counts_len,
                                uint32_t *area, size_t area_len,
                                uint64_t *answer, size_t answer_len);

/* The record reader's first call. What stands at a start of a bundle's bytes.
 *
 * Answers 0, the record's kind (1 cell, 2 or 4 edge, 3 end, 5 look) and the start
 * of the next record; or 13 and the start, or 13 and bytes_len where the start is
 * not below it. A record of kind 4 with a count of 255 or less is refused.
 *
 * Cost: a fixed time, as citternblaze_record_body's is. */
size_t citternblaze_record(const uint8_t *bytes, size_t bytes_len, size_t start,
                           uint64_t *answer, size_t answer_len);

/* The record reader's second call. The body of the record at a start, as that
 * part of the caller's bytes.
 *
 * Answers where in the bytes the body starts and how many bytes it has; 0 and 0,
 * the empty part at the front, where citternblaze_record refuses. */
size_t citternblaze_record_body(const uint8_t *bytes, size_t bytes_len,
                                size_t start,
                                uint64_t *answer, size_t answer_len);

/* The bundle reader. Fills the lists with the bundle's cells, four nodes each,
 * the ends of its edges, two to an edge, and their counts, and keeps the lists
 * beyond them. The count of an edge is that of the last look with its pair of
 * ends, or its own where there is none. It does not check the grid.
 *
 * Answers 0 and the numbers of cells and edges; or 13 and the place of a fault
 * of the records; or 22 and the start of the lowest look whose pair no edge has;
 * or 14 and 0 where a list is too short. A refusal keeps every value of the
 * lists.
 *
 * Its time goes by the number of records, whatever they hold: an edge finds its
 * look, and a look its place, in 17 steps at most, also at nodes that no grid
 * has. It goes over the edges twice for every 12,288 looks, so that beyond these
 * the time goes by edges times looks: 250,000 of each take 42 passes over the
 * edges. Takes up to 192 KB of the stack. */
size_t citternblaze_bundle_read(const uint8_t *bytes, size_t bytes_len,
                                uint16_t *nodes, size_t nodes_len,
                                uint16_t *ends, size_t ends_len,
                                uint16_t *counts, size_t counts_len,
                                uint64_t *answer, size_t answer_len);

/* The bundle writer. Writes the bundle of cells, edges and counts at the front
 * of the area, and keeps the area beyond it: 12 bytes for each cell, 9 for each
 * edge, one more where its count is over 255, and 4. It does not check the grid.
 *
 * Answers 0 and the number of bytes written; or 13 and 0 where the lists are not
 * 4 nodes to a cell or 2 ends to a count; or 14 and the number of bytes needed,
 * 4294967295 if more, where the area is too short. A refusal keeps every value
 * of the area.
 *
 * Cost: the bytes written. */
size_t citternblaze_bundle_write(const uint16_t *nodes, size_t nodes_len,
                                 const uint16_t *ends, size_t ends_len,
                                 const uint16_t *counts, size_t counts_len,
                                 uint8_t *area, size_t area_len,
                                 uint64_t *answer, size_t answer_len);

/* The nearest call. Which point of a list is nearest to a place, the query.
 *
 * Reads the points, three numbers each, as citternblaze_places writes them; and
 * the query's three numbers.
 *
 * The squared distance of a point is (dx * dx + dy * dy) + dz * dz, where dx, dy
 * and dz are its numbers less those of the query, each operation rounded once.
 *
 * Answers 0, the number of the point with the least squared distance, the lowest
 * of several, and this distance, as the bits of a double: memcpy(&distance,
 * &answer[2], sizeof distance). Or 0 alone, where the list is empty. Or 23 and a
 * place: 0 where the list is not three numbers to a point, and else the lowest
 * index of a number that is not from -1000000 to 1000000, where x, y and z have
 * the indices points_len, points_len + 1 and points_len + 2.
 *
 * Cost: two passes over the points. */
size_t citternblaze_nearest(const double *points, size_t points_len,
                            double x, double y, double z,
                            uint64_t *answer, size_t answer_len);

/* What follows is plain C over the calls above, compiled into the program that
 * includes it: it is tested, not proved.
 *
 * The words of a refusal, one line for each number, without its place; "no such
 * refusal" for any other number. */
static inline const char *citternblaze_refusal_text(uint64_t number) {
  static const char *const text[] = {
      "nothing is refused",
      "the cells are not four numbers each, or none, or more than 2,048",
      "the edges are not two ends and one start to a count, or a start is not the "
      "sum of the earlier counts",
      "a cell has a node over 4,095, or its nodes do not increase",
      "a cell has the nodes of an earlier one",
      "a face is in three cells",
      "an edge is not a lower and a higher node, or not after the one before it",
      "an edge of a cell is not listed",
      "a listed edge is in no cell",
      "the cells of an edge do not hang together through faces that contain it",
      "there are more than 65,535 crossings",
      "there is no such cell",
      "the area is too short for the mesh",
      "the bytes are not the records of a bundle, or the lists to write are not "
      "four nodes to a cell and two ends to a count",
      "a lent list, or the writer's area, is too short for the bundle",
      "places, fractions or the area are not as many as there must be",
      "a number of a node's place is not from -1,000,000 to 1,000,000",
      "a fraction is not above 0 and below 1, or not above the one before it on "
      "its edge",
      "the count of an edge is over 4,095",
      "the area for the sides of the nodes has not 4,096 bytes",
      "the grid has no shading",
      "there is no such edge",
      "a later look has a pair that no edge of the bundle has",
      "the points are not three numbers each, or a number is not from -1,000,000 "
      "to 1,000,000",
      "the area is too short for the chains",
      "the cuts do not rise, or one is not above 0 and below the number of cells",
      "there is no such run"};
  return number < sizeof text / sizeof *text ? text[number] : "no such refusal";
}

/* An answer by value: how many numbers it has, and these. */
typedef struct citternblaze_answer {
  size_t len;
  uint64_t number[CITTERNBLAZE_ANSWER_WORDS];
} citternblaze_answer;

/* A grid as one argument: its lists and their lengths. The calls over it answer by
 * value, and else as those that take the lists one by one. */
typedef struct citternblaze_grid {
  const uint16_t *cells;
  size_t cells_len;
  const uint16_t *edges;
  size_t edges_len;
  uint16_t *counts;
  size_t counts_len;
  uint32_t *starts;
  size_t starts_len;
} citternblaze_grid;

/* The four lists of a grid, in the order in which every call takes them. */
#define CITTERNBLAZE_LISTS_(grid)                                              \
  (grid)->cells, (grid)->cells_len, (grid)->edges, (grid)->edges_len,          \
      (grid)->counts, (grid)->counts_len, (grid)->starts, (grid)->starts_len

static inline citternblaze_answer
citternblaze_grid_check(const citternblaze_grid *grid) {
  citternblaze_answer a;
  a.len = citternblaze_check(CITTERNBLAZE_LISTS_(grid), a.number,
                             CITTERNBLAZE_ANSWER_WORDS);
  return a;
}

static inline citternblaze_answer
citternblaze_grid_open(const citternblaze_grid *grid) {
  citternblaze_answer a;
  a.len = citternblaze_open(CITTERNBLAZE_LISTS_(grid), a.number,
                            CITTERNBLAZE_ANSWER_WORDS);
  return a;
}

static inline citternblaze_answer
citternblaze_grid_set_count(const citternblaze_grid *grid, size_t edge,
                            uint16_t count) {
  citternblaze_answer a;
  a.len = citternblaze_set_count(CITTERNBLAZE_LISTS_(grid), edge, count,
                                 a.number, CITTERNBLAZE_ANSWER_WORDS);
  return a;
}

static inline citternblaze_answer
citternblaze_grid_mesh(const citternblaze_grid *grid, uint32_t *area,
                       size_t area_len) {
  citternblaze_answer a;
  a.len = citternblaze_mesh(CITTERNBLAZE_LISTS_(grid), area, area_len, a.number,
                            CITTERNBLAZE_ANSWER_WORDS);
  return a;
}

/* How many triangles the mesh has, at CITTERNBLAZE_AT_TRIANGLES; or what refuses
 * the grid. The mesh call without an area tells it. */
static inline citternblaze_answer
citternblaze_grid_triangles(const citternblaze_grid *grid) {
  citternblaze_answer a = citternblaze_grid_mesh(grid, NULL, 0);
  a.len = 2;
  if (a.number[CITTERNBLAZE_AT_REFUSAL] == CITTERNBLAZE_REFUSED_MESH_AREA)
    a.number[CITTERNBLAZE_AT_REFUSAL] = CITTERNBLAZE_DONE;
  return a;
}

static inline citternblaze_answer
citternblaze_grid_mesh_run(const citternblaze_grid *grid, const uint16_t *cuts,
                           size_t cuts_len, size_t run, uint32_t *area,
                           size_t area_len) {
  citternblaze_answer a;
  a.len =
      citternblaze_mesh_run(CITTERNBLAZE_LISTS_(grid), cuts, cuts_len, run, area,
                            area_len, a.number, CITTERNBLAZE_ANSWER_WORDS);
  return a;
}

static inline citternblaze_answer
citternblaze_grid_mesh_joined(const citternblaze_grid *grid,
                              const uint16_t *cuts, size_t cuts_len,
                              uint32_t *area, size_t area_len) {
  citternblaze_answer a;
  a.len =
      citternblaze_mesh_joined(CITTERNBLAZE_LISTS_(grid), cuts, cuts_len, area,
                               area_len, a.number, CITTERNBLAZE_ANSWER_WORDS);
  return a;
}

static inline citternblaze_answer
citternblaze_grid_loops(const citternblaze_grid *grid, size_t cell,
                        size_t index) {
  citternblaze_answer a;
  a.len = citternblaze_loops(CITTERNBLAZE_LISTS_(grid), cell, index, a.number,
                             CITTERNBLAZE_ANSWER_WORDS);
  return a;
}

static inline citternblaze_answer
citternblaze_grid_places(const citternblaze_grid *grid, const double *nodes,
                         size_t nodes_len, const double *fractions,
                         size_t fractions_len, double *area, size_t area_len) {
  citternblaze_answer a;
  a.len = citternblaze_places(CITTERNBLAZE_LISTS_(grid), nodes, nodes_len,
                              fractions, fractions_len, area, area_len,
                              a.number, CITTERNBLAZE_ANSWER_WORDS);
  return a;
}

static inline citternblaze_answer
citternblaze_grid_shading(const citternblaze_grid *grid, uint8_t *area,
                          size_t area_len) {
  citternblaze_answer a;
  a.len = citternblaze_shading(CITTERNBLAZE_LISTS_(grid), area, area_len,
                               a.number, CITTERNBLAZE_ANSWER_WORDS);
  return a;
}

/* Reads a bundle into lists that are lent, and makes the grid of what it fills of
 * them: a grid of no cells where the bundle is refused. The starts are those of no
 * grid yet: citternblaze_grid_open fills them in. There are as many as counts. */
static inline citternblaze_answer citternblaze_grid_read(
    citternblaze_grid *grid, const uint8_t *bytes, size_t bytes_len,
    uint16_t *cells, size_t cells_len, uint16_t *edges, size_t edges_len,
    uint16_t *counts, uint32_t *starts, size_t counts_len) {
  citternblaze_answer a;
  a.len = citternblaze_bundle_read(bytes, bytes_len, cells, cells_len, edges,
                                   edges_len, counts, counts_len, a.number,
                                   CITTERNBLAZE_ANSWER_WORDS);
  const int read = a.number[CITTERNBLAZE_AT_REFUSAL] == CITTERNBLAZE_DONE;
  grid->cells = cells;
  grid->cells_len = read ? 4 * (size_t)a.number[CITTERNBLAZE_AT_CELLS] : 0;
  grid->counts = counts;
  grid->counts_len = read ? (size_t)a.number[CITTERNBLAZE_AT_EDGES] : 0;
  grid->edges = edges;
  grid->edges_len = 2 * grid->counts_len;
  grid->starts = starts;
  grid->starts_len = grid->counts_len;
  return a;
}

/* The cell of a triangle, and its sub-cell: 0 where the cell is not split, and for
 * the corner triangles of one that is. */
static inline uint32_t citternblaze_cell_of(const uint32_t *triangle) {
  return triangle[CITTERNBLAZE_TRIANGLE_CELL] % CITTERNBLAZE_MOST_CELLS;
}
static inline uint32_t citternblaze_part_of(const uint32_t *triangle) {
  return triangle[CITTERNBLAZE_TRIANGLE_CELL] / CITTERNBLAZE_MOST_CELLS;
}

/* Goes over the triangles of a mesh in their order and tells which of the points
 * that citternblaze_places writes its corners are. Start with
 * citternblaze_points_from, and call citternblaze_points_next for each triangle. */
typedef struct citternblaze_points {
  size_t inner;       /* the point of the first inner crossing of the cell */
  size_t behind;      /* the point behind its last */
  size_t middles;     /* the points before the first middle */
  size_t fans;        /* the fans begun */
  uint64_t cell, fan; /* the cell, and words 0 and 1 of the fan, gone over last */
  size_t corner[3];   /* the points of the corners of the triangle gone over last */
} citternblaze_points;

/* One triangle more. Inner crossings stand by cell, and a cell's triangles have all
 * of them; middles stand by fan, whose triangles share words 0 and 1 and have the
 * middle as their last corner. */
static inline void citternblaze_points_next(citternblaze_points *at,
                                            const uint32_t *triangle) {
  const uint32_t *corner = triangle + CITTERNBLAZE_TRIANGLE_CORNERS;
  const uint64_t fan = (uint64_t)triangle[CITTERNBLAZE_TRIANGLE_CELL] << 32 |
                       triangle[CITTERNBLAZE_TRIANGLE_P0];
  int k;
  if (citternblaze_cell_of(triangle) != at->cell) {
    at->cell = citternblaze_cell_of(triangle);
    at->inner = at->behind;
  }
  if (corner[2] == CITTERNBLAZE_MIDDLE && fan != at->fan) {
    at->fan = fan;
    at->fans++;
  }
  for (k = 0; k < 3; k++) {
    at->corner[k] = corner[k];
    if (corner[k] == CITTERNBLAZE_MIDDLE) {
      at->corner[k] = at->middles + at->fans - 1;
    } else if (corner[k] >= CITTERNBLAZE_INNER_CROSSING) {
      at->corner[k] = at->inner + (corner[k] - CITTERNBLAZE_INNER_CROSSING);
      if (at->behind <= at->corner[k])
        at->behind = at->corner[k] + 1;
    }
  }
}

/* Before the first triangle of a mesh with so many triangles, of a grid with so
 * many crossings: counts its inner crossings, behind which the middles stand. */
static inline citternblaze_points
citternblaze_points_from(const uint32_t *words, size_t triangles,
                         size_t crossings) {
  citternblaze_points at;
  size_t t;
  at.inner = at.behind = at.middles = crossings;
  at.fans = 0;
  at.cell = at.fan = UINT64_MAX;
  at.corner[0] = at.corner[1] = at.corner[2] = 0;
  for (t = 0; t < triangles; t++)
    citternblaze_points_next(&at, words + CITTERNBLAZE_TRIANGLE_WORDS * t);
  at.middles = at.behind;
  at.inner = at.behind = crossings;
  at.fans = 0;
  at.cell = at.fan = UINT64_MAX;
  return at;
}

#ifdef __cplusplus
}
#endif

#endif
