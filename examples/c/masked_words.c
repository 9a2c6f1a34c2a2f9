/* 32-bit registers: an index computed, masked and compared in 32 bits, then used in 64. */
#include "oauthd_hook.h"

int hook(struct record *record)
{
    volatile u64 words[16];
    u32 at = (u32)record->now * 2654435761u >> 28;
    u32 other = (at ^ 5) & 15;
#pragma unroll
    for (int i = 0; i < 16; i++)
        words[i] = record->scope;
    words[at] = record->asked;
    words[other] = record->allowed;
    u64 scope = words[at] & words[other] & words[(at + other) & 15];
    if (scope == 0)
        return DENY;
    record->scope = scope;
    return ALLOW;
}
