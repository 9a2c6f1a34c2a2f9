/* An index that is a sum of two small numbers, tested as a signed number. */
#include "oauthd_hook.h"

int hook(struct record *record)
{
    volatile u16 lives[12];
    int a = (int)(record->owner & 15);
    int b = (int)(record->client & 7);
    int x = a + b - 5;
    asm volatile("" : "+r"(x)); /* keeps the compiler from folding the 5 into the access */
#pragma unroll
    for (int i = 0; i < 12; i++)
        lives[i] = (u16)(60 + 30 * i);
    if (x < 0 || x > 11)
        return DENY;
    u32 life = lives[x];
    if (record->life > life)
        record->life = life;
    return ALLOW;
}
