/* Lifetimes by the owner's group, looked up in a table on the stack. The index is tested before its use. */
#include "oauthd_hook.h"

int hook(struct record *record)
{
    volatile u32 lives[8];
    u64 group = record->owner >> 8;
    lives[0] = 60;
    lives[1] = 120;
    lives[2] = 180;
    lives[3] = 240;
    lives[4] = 300;
    lives[5] = 600;
    lives[6] = 1800;
    lives[7] = 3600;
    if (group >= 8)
        return DENY;
    u32 life = lives[group];
    if (record->life > life)
        record->life = life;
    return ALLOW;
}
