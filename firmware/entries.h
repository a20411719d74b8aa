/*
 * For the entries of include/snjofrask.h, by the calling convention of the processor that they are compiled for, over the
 * proved program's. There a length has 64 bits on every processor: in the entries, and nowhere else, it is widened, and
 * narrowed again.
 *
 * proved_NAME is the proved program's snjofrask_NAME. Its result is stored where the first argument points, because a
 * processor may return it otherwise than x86-64, for which the program was made: firmware/module writes these.
 */
#ifndef ENTRIES_H
#define ENTRIES_H

#include "snjofrask.h"

#ifdef __ARM_EABI__
/* No floating-point number is passed and no enum or wide character used, so linkers may put this beside code of either kind. */
__asm__(".eabi_attribute Tag_ABI_VFP_args, 3\n\t"
        ".eabi_attribute Tag_ABI_enum_size, 0\n\t"
        ".eabi_attribute Tag_ABI_PCS_wchar_t, 0");
#endif

/* as the proved program lays it out; the other structs are alike on every processor */
typedef struct proved_outcome {
    uint64_t len;
    uint32_t cid;
    uint8_t kind;
    uint8_t cmd;
    uint8_t refusal;
    uint8_t spare;
} proved_outcome;

SNJOFRASK_ASSERT(sizeof(proved_outcome) == 16);
SNJOFRASK_ASSERT(SNJOFRASK_ALIGNMENT(proved_outcome) == 8);
SNJOFRASK_ASSERT(offsetof(proved_outcome, len) == 0);
SNJOFRASK_ASSERT(offsetof(proved_outcome, cid) == 8);
SNJOFRASK_ASSERT(offsetof(proved_outcome, kind) == 12);
SNJOFRASK_ASSERT(offsetof(proved_outcome, cmd) == 13);
SNJOFRASK_ASSERT(offsetof(proved_outcome, refusal) == 14);
SNJOFRASK_ASSERT(offsetof(proved_outcome, spare) == 15);

/* no length is above 65,535, so none is cut */
static snjofrask_outcome narrowed(proved_outcome outcome)
{
    return (snjofrask_outcome){.len = (size_t)outcome.len,
                               .cid = outcome.cid,
                               .kind = outcome.kind,
                               .cmd = outcome.cmd,
                               .refusal = outcome.refusal,
                               .spare = outcome.spare};
}

#endif
