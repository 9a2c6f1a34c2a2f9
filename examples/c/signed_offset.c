/* The sign and the upper bits of a byte of the moment pick a lifetime from a table around its middle. */
#include "oauthd_hook.h"

int hook(struct record *record)
{
    volatile u8 table[32];
    s64 at = (s64)(s8)record->now >> 3; /* -16 to 15 */
#pragma unroll
    for (int i = 0; i < 32; i++)
        table[i] = (u8)(8 * i + 7);
    u32 life = table[16 + at];
    if (record->life > life)
        record->life = life;
    return ALLOW;
}
