/* From Monday to Friday, 8 to 18 o'clock UTC, all is granted; else reading alone, and for ten minutes. */
#include "oauthd_hook.h"

#define READ 1

int hook(struct record *record)
{
    int day = (int)(record->now / 86400 % 7) - 3; /* 0 is the first of the epoch's Sundays */
    int hour = (int)(record->now % 86400 / 3600);
    if (day < 0)
        day += 7;
    if (day >= 1 && day <= 5 && hour >= 8 && hour < 18)
        return ALLOW;
    record->scope &= READ;
    if (record->life > 600)
        record->life = 600;
    return ALLOW;
}
