/* More values at once than there are registers, so that some are kept on the stack and read back. */
#include "oauthd_hook.h"

#define KEEP(x) asm volatile("" : "+r"(x))

int hook(struct record *record)
{
    u64 now = record->now, client = record->client, owner = record->owner, asked = record->asked;
    u64 scope = record->scope, allowed = record->allowed, life = record->life, kind = record->kind;
    u64 a = now & 31, b = client & 31, c = owner & 31, d = asked & 31, e = scope & 31, f = allowed & 31;
    KEEP(a); KEEP(b); KEEP(c); KEEP(d); KEEP(e); KEEP(f);
    KEEP(now); KEEP(client); KEEP(owner); KEEP(asked); KEEP(scope); KEEP(allowed);
    u64 sum = a * 3 + b * 5 + c * 7 + d * 11 + e * 13 + f * 17;
    u64 mixed = (now ^ client) + (owner ^ asked) + (scope ^ allowed) + kind;
    if ((sum + mixed) % 251 == 0)
        return DENY;
    if (a + b + c + d + e + f > 120)
        life = life / 2;
    record->scope = scope & allowed & asked;
    record->life = (u32)life;
    return ALLOW;
}
