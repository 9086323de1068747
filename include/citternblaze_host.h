/* What a C program can ask about the bytes of a bundle: the crate `host`, built by `scripts/libraries.sh host` into libhost.a. docs/FORMAT.md says
 * what a bundle is. The calls that read and write bundles and mesh grids are in citternblaze.h.
 *
 * Each function takes the bytes and their number. It reads nothing outside of them, writes nothing that is the caller's, and keeps no pointer.
 * `bytes` may be NULL where `length` is 0. An input may have any length. A call goes over the records once, and over the edges
 * once more for every 12,288 later looks. So its time goes by the number of records, and beyond 12,288 looks by edges times
 * looks: 250,000 of each take 21 passes over the edges. In a pass an edge finds its look in 17 steps at most, whatever the
 * nodes are.
 *
 * The functions need a processor of the level x86-64-v2 and the System V calling convention, as Linux has it; up to 192 KB
 * of stack, a KB being 1,024 bytes; of C's functions memset, at most.
 * There is no state between calls: any number of threads may call at once.
 */
#ifndef CITTERNBLAZE_HOST_H
#define CITTERNBLAZE_HOST_H

#include <stddef.h>
#include <stdint.h>

#ifdef __cplusplus
extern "C" {
#endif

/* The number of the bundle's refusal, or 0: 13 for a record that is cut short or has a wrong length, kind or order, for a record of kind 4
 * with a count of 255 or less, for bytes after the end, and for no end; else 22 for a later look whose pair no edge has. */
uint32_t citternblaze_bundle_refusal(const uint8_t *bytes, size_t length);

/* The number of the bundle's cells; 0 for a broken bundle. */
uint64_t citternblaze_bundle_cells(const uint8_t *bytes, size_t length);

/* The number of the bundle's edges, of both kinds, later looks not counted; 0 for a broken bundle. */
uint64_t citternblaze_bundle_edges(const uint8_t *bytes, size_t length);

#ifdef __cplusplus
}
#endif

#endif
