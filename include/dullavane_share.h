/* dullavane_share.h: a total shared over weights, for firmware and for owners who check a split. A library of its own, libdullavane_share.a as tools/install
   puts it (libshare_c.a as rt staticlib builds it); it links beside libdullavane.a in either order. What dullavane.h says of lists, refusals, safety and
   interrupts holds here too: the library keeps nothing, allocates nothing, blocks on nothing, and every call ends.

   THE SHARE of a total T over weights that sum to W: each weight gets the whole part of T x weight / W; what is left over goes one each to the largest
   remainders, equal ones first to the larger weight, then to the earlier one. Where W is 0, all get 0 and T is unplaced. It is the split by which a
   requirement's payments, charges and factors are made: hand in the pool in cents and the performances' sizes on one side, and compare. The amounts sum to T
   where W is not 0, and no other split of T into whole numbers is closer to the exact shares, all distances added up.

   What is proved of the call, for any numbers and lists whatever: its return value, every amount and what is unplaced. What is outside the proof: this header,
   the caller, and the compiler's back end. */
#ifndef DULLAVANE_SHARE_H
#define DULLAVANE_SHARE_H

#include "dullavane.h"

#ifdef __cplusplus
extern "C" {
#endif

/* The largest total, and the largest sum of weights. There may be any number of weights. */
#define DULLAVANE_SHARE_MOST_TOTAL UINT64_C(1000000000000)
#define DULLAVANE_SHARE_MOST_WEIGHT UINT64_C(6010000000000000000)

/* Shares total over the weights: writes as many amounts as there are weights, none below 0 (numbers past them stay), and what is unplaced, 0 or the total.
   Unplaced is one uint64_t, never null. Amounts and weights do not overlap. Refuses 12 (fewer amounts than weights), then 5 (the total over
   DULLAVANE_SHARE_MOST_TOTAL, or the weights' sum over DULLAVANE_SHARE_MOST_WEIGHT); on a refusal nothing is written. */
uint32_t share_amounts(uint64_t total, const uint64_t *weights, uint64_t weights_length, int64_t *amounts, uint64_t amounts_length, uint64_t *unplaced);

#ifdef __cplusplus
}
#endif

#endif
