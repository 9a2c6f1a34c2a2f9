/* The client's number in the order of bytes of a network, spread over the lifetime; also a signed division. */
#include "oauthd_hook.h"

int hook(struct record *record)
{
    u32 turned = __builtin_bswap32((u32)record->client);
    u16 half = __builtin_bswap16((u16)record->owner);
    s64 apart = (s64)record->now - (s64)(turned >> 16) - half;
    s32 part = (s32)(apart >> 32);
    if (part < -16 || part > 16)
        return DENY;
    u32 less = (u32)(part + 17);
    if (record->life / less > 3600)
        record->life = 3600;
    return ALLOW;
}
