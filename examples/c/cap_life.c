/* Access tokens live for at most two minutes for client 7, five for all others, and an hour for none. */
#include "oauthd_hook.h"

int hook(struct record *record)
{
    u32 most = record->client == 7 ? 120 : 300;
    if (record->life > most)
        record->life = most;
    return ALLOW;
}
