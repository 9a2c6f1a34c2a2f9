/* A record whose bytes are too even is denied: counts how often each low octal digit stands, in a table on the stack. */
#include "oauthd_hook.h"

int hook(struct record *record)
{
    const u8 *bytes = (const u8 *)record;
    volatile u8 seen[8];
#pragma unroll
    for (int i = 0; i < 8; i++)
        seen[i] = 0;
#pragma unroll
    for (int i = 16; i < 28; i++)
        seen[bytes[i] & 7]++;
    u32 most = 0;
#pragma unroll
    for (int i = 0; i < 8; i++)
        if (seen[i] > most)
            most = seen[i];
    return most >= 2 ? ALLOW : DENY;
}
