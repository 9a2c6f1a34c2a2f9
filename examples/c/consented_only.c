/* Version 2: never more than the owner consented to, and half the configured lifetime for refreshed tokens. */
#include "oauthd_hook.h"

int hook(struct record2 *record)
{
    if (record->kind == GRANT_CLIENT_CREDENTIALS)
        return record->owner == 0 ? ALLOW : DENY;
    record->scope &= record->consented;
    u32 most = record->access_life;
    if (record->kind == GRANT_REFRESH)
        most /= 2;
    if (record->refresh_life < most)
        most = record->refresh_life;
    if (record->life > most)
        record->life = most;
    return ALLOW;
}
