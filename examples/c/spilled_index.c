/* An index that is stored and read back before its use. */
#include "oauthd_hook.h"

int hook(struct record *record)
{
    volatile u8 table[8];
    volatile u64 kept;
    u64 at = record->client;
    if (at > 7)
        return DENY;
    kept = at;
#pragma unroll
    for (int i = 0; i < 8; i++)
        table[i] = (u8)(i * 20 + 20);
    u32 life = table[at];
    if (kept != at)
        return DENY;
    if (record->life > life)
        record->life = life;
    return ALLOW;
}
