/* Duottarok: the context table of the DPE, over a lent image of 4,624 bytes.
 *
 * Every call answers a word: 0 for success, else the outer number of the refusal in the high 32 bits
 * and the inner number in the low 32 bits. A refusal changes neither the image nor a lent place.
 *
 * What the caller must ensure of the pointers (nothing else is asked, and nothing else is assumed):
 *  - `image` points at `image_len` bytes, `candidates` at `candidates_len` bytes; a length of 0 still wants a
 *    pointer that is not null;
 *  - `handle` and `new_handle` point at 16 bytes, `slots` at 32 bytes, and `slot`, `marks`, `length` and
 *    `count` at a uint64_t that is aligned;
 *  - what is written (`image` where it is not const, `new_handle`, `slots` and the numbers) overlaps nothing
 *    else that is passed to the same call.
 *
 * A call works where the image lies and keeps no copy of it. The most stack that was measured is 4,360 bytes, in
 * dpe_validate; docs/DESIGN-PASS.md has each call's time against the Rust's, and its stack.
 *
 * Refusals, first one first. Every call begins with the reading refusals:
 *    0x04000000, 1  BadLength: image_len is not 4,624
 *    0x03000000, 4  BadContextState: a slot's state byte is above 2 (slots upward, state byte before type byte)
 *    0x03000000, 5  BadContextType: a slot's type byte is above 1
 * and goes on with its own, listed below.
 */
#ifndef DUOTTAROK_H
#define DUOTTAROK_H

#include <stddef.h>
#include <stdint.h>

#ifdef __cplusplus
extern "C" {
#endif

#define DPE_IMAGE_SIZE 4624
#define DPE_HANDLE_SIZE 16
#define DPE_SLOTS 32

/* Bits of the image's support word, at byte 4616, that the calls ask for. */
#define DPE_SUPPORT_SIMULATION 0x80000000u
#define DPE_SUPPORT_ROTATE_CONTEXT 0x08000000u
#define DPE_SUPPORT_X509 0x04000000u
#define DPE_SUPPORT_INTERNAL_INFO 0x00400000u
#define DPE_SUPPORT_INTERNAL_DICE 0x00200000u

/* Flags of dpe_initialize_context and of dpe_rotate_context. */
#define DPE_INIT_SIMULATION 0x80000000u
#define DPE_INIT_DEFAULT 0x40000000u
#define DPE_ROTATE_TARGET_IS_DEFAULT 0x80000000u

/* The two halves of an answer. */
static inline uint32_t dpe_outer(uint64_t answer) { return (uint32_t)(answer >> 32); }
static inline uint32_t dpe_inner(uint64_t answer) { return (uint32_t)answer; }

/* Whether the table meets the forest rule.
 *    0x03000000, n  the first fault: n is the number of the ValidationError (0 is a fault too) */
uint64_t dpe_validate(const uint8_t *image, size_t image_len);

/* The lowest active slot of the locality with the handle.
 *    0x81  InvalidLocality: no active context has the locality
 *    0x80  InvalidHandle */
uint64_t dpe_lookup(const uint8_t *image, size_t image_len, const uint8_t *handle, uint32_t locality,
                    uint64_t *slot);

/* Activates the lowest inactive slot: the default context, or a simulation context.
 *    0x83     ArgumentNotSupported: default a second time, or simulation without support
 *    3        InvalidArgument: both flags, or neither
 *    0x91     MaxTcis: no inactive slot
 *    1, 22    HandleGenerationExhausted: eight candidates, none usable (simulation only)
 *    0x04000000, 3  CandidatesShort: fewer than eight candidates, none usable (simulation only)
 * Candidates are bytes 0 to 15, 16 to 31 and so on; only eight are tried, and a shorter part is absent. */
uint64_t dpe_initialize_context(uint8_t *image, size_t image_len, uint32_t flags, uint32_t locality,
                                const uint8_t *candidates, size_t candidates_len, uint8_t *new_handle);

/* Gives the context with the handle in the locality a new handle: the default one, or a candidate.
 *    2        InvalidCommand: the table does not support it
 *    0x81, 0x80  as dpe_lookup
 *    3        InvalidArgument: to default, where the locality has an active default or another active context
 *    1, 22 and 0x04000000, 3  as dpe_initialize_context (not to default) */
uint64_t dpe_rotate_context(uint8_t *image, size_t image_len, const uint8_t *handle, uint32_t locality,
                            uint32_t flags, const uint8_t *candidates, size_t candidates_len,
                            uint8_t *new_handle);

/* Clears the context with the handle in the locality, all below it, and the run of retired contexts above it
 * that have one child each.
 *    0x81, 0x80  as dpe_lookup
 *    1, 35    DestroyParentIndexOob: the walk up meets a parent of 32 to 254
 *    0x04000000, 2  WalkLoops: the walk up or down would never end
 *    0x80     InvalidHandle: the walk down meets an inactive slot */
uint64_t dpe_destroy_context(uint8_t *image, size_t image_len, const uint8_t *handle, uint32_t locality);

/* All that is below a slot: every stored mark, joined with the descendants of each child.
 *    1, 30    ContextIndexOob: slot is 32 or more
 *    0x80     InvalidHandle: the slot, or one below it, is inactive
 *    0x04000000, 2  WalkLoops */
uint64_t dpe_descendants(const uint8_t *image, size_t image_len, size_t slot, uint64_t *marks);

/* The slots from the root down to a slot; `slots` gets 32 bytes, zeros after the path's own.
 *    1, 30    ContextIndexOob: slot is 32 or more
 *    0x80     InvalidHandle: a slot on the way up is inactive, or its parent is 32 to 254
 *    1, 34    TciNodeCountExceeded: the path would hold a 33rd slot */
uint64_t dpe_path(const uint8_t *image, size_t image_len, size_t slot, uint8_t *slots, uint64_t *length);

/* How many contexts are in a state: 0 inactive, 1 active, 2 retired.
 *    3        InvalidArgument: state is above 2 */
uint64_t dpe_count(const uint8_t *image, size_t image_len, uint8_t state, uint64_t *count);

#ifdef __cplusplus
}
#endif

#endif
