/* Escarpoll as a static library, libcapi.a, which `tests/build capi` writes to target/staticlib.
 *
 * Each function is proved to end and to do nothing undefined on any numbers and any bytes; what it gives is stated with it in
 * crates/capi/src/lib.rt. Nothing is kept from one call to the next. A caller owes this: a pointer is to as many places as the length
 * after it says, and is not null even where that is 0; `whole` is to one bool; and what is written through one pointer overlaps nothing
 * that another points to.
 */
#ifndef ESCARPOLL_H
#define ESCARPOLL_H

#include <stdbool.h>
#include <stddef.h>
#include <stdint.h>

#ifdef __cplusplus
extern "C" {
#endif

/* A longer script has the listing "bad input". */
#define ESCARPOLL_SCRIPT_MAX 65536

/* Writes the listing of a script into `out` from its start, and gives how many bytes were written. `whole` is set to whether that is all
 * of the listing: where `out_len` is too short for it, its first lines are written, as many as fit whole, perhaps none. What stands in
 * `out` behind them stays. No zero byte is needed or written. A bad script or a refused setup is no error: the listing says so. */
size_t escarpoll_listing(const uint8_t *script, size_t script_len, uint8_t *out, size_t out_len, bool *whole);

/* A run of so many mixed events on one bench from fresh, which the seed decides; gives a checksum over every answer, count and
 * delivered unit. The first tests the bench's state at each event, the second does not need to; both are proved to give one number. */
uint64_t escarpoll_soak_checked(uint64_t seed, uint64_t events);
uint64_t escarpoll_soak_unchecked(uint64_t seed, uint64_t events);

#ifdef __cplusplus
}
#endif

#endif
