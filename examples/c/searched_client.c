/* A sorted list of clients on the stack, searched by halves in four steps. */
#include "oauthd_hook.h"

int hook(struct record *record)
{
    volatile u32 known[16];
#pragma unroll
    for (int i = 0; i < 16; i++)
        known[i] = (u32)(i * i + 3);
    u32 client = (u32)record->client;
    u32 low = 0;
    if (known[low + 8] <= client) low += 8;
    if (known[low + 4] <= client) low += 4;
    if (known[low + 2] <= client) low += 2;
    if (known[low + 1] <= client) low += 1;
    if (known[low & 15] != client || record->client >> 32 != 0)
        return DENY;
    return ALLOW;
}
