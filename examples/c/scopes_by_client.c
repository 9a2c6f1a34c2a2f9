/* A table of scopes by the client's number, as a switch. */
#include "oauthd_hook.h"

int hook(struct record *record)
{
    u64 most;
    switch (record->client) {
    case 1: most = 0x03; break;
    case 2: most = 0x01; break;
    case 3: most = 0x13; break;
    case 4: most = 0x7f; break;
    case 5: most = 0x21; break;
    case 6: most = 0x100000001; break;
    case 7: most = 0x40; break;
    case 8: most = 0x8000000000000000; break;
    default: return DENY;
    }
    record->scope &= most;
    return ALLOW;
}
