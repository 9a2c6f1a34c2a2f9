/* The lifetime is shared among the first twelve scopes that are asked: the more names, the shorter the token lives. */
#include "oauthd_hook.h"

int hook(struct record *record)
{
    u32 names = 0;
    u64 scope = record->scope;
#pragma unroll
    for (int i = 0; i < 12; i++)
        names += (u32)(scope >> i) & 1;
    if (names == 0)
        return DENY;
    record->life = record->life / names;
    return ALLOW;
}
