/* What a token hook is given: a pointer to the record of one grant.
 *
 * A hook is one function, `hook`. It answers 1 to allow the grant with the scope and the lifetime that it leaves
 * in the record, and anything else to deny it. Whatever it writes, a grant is never widened: of the scope what was
 * asked stays at most, and the lesser lifetime counts.
 *
 * All fields may be read; only `scope` and `life` may be written, and all others are `const`.
 */
#ifndef OAUTHD_HOOK_H
#define OAUTHD_HOOK_H

typedef unsigned char u8;
typedef unsigned short u16;
typedef unsigned int u32;
typedef unsigned long long u64;
typedef signed char s8;
typedef short s16;
typedef int s32;
typedef long long s64;

enum grant_kind { GRANT_CODE = 1, GRANT_REFRESH = 2, GRANT_CLIENT_CREDENTIALS = 3 };

#define ALLOW 1
#define DENY 0

/* Version 1: 64 bytes. */
struct record {
    const u32 version; /* 1 */
    const u32 kind;    /* enum grant_kind */
    const u64 now;     /* the moment, in Unix seconds */
    const u64 client;  /* the client's place in the registry, from 1 */
    const u64 owner;   /* the owner's number, 1 to 4294967295; 0 where the grant has no owner */
    const u64 asked;   /* the scope that was asked: bit 0 is the first name of the registry's scopes */
    u64 scope;         /* the scope to grant; may be written */
    u32 life;          /* the lifetime of the access token in seconds; may be written */
    const u32 zero;
    const u64 allowed; /* the scope that the registry allows the client */
};

/* Version 2: 96 bytes, the first 64 as above with version 2. */
struct record2 {
    const u32 version; /* 2 */
    const u32 kind;
    const u64 now;
    const u64 client;
    const u64 owner;
    const u64 asked;
    u64 scope;
    u32 life;
    const u32 zero;
    const u64 allowed;
    const u64 consented;    /* the scope that the owner consented to the client's having; 0 without an owner */
    const u32 access_life;  /* the configured lifetime of access tokens, in seconds */
    const u32 refresh_life; /* the configured lifetime of refresh tokens, in seconds */
    const u64 reserved[2];
};

/* Writes into the record what may be written of it, from a copy: `*record = copy` would write all else, too. */
static inline __attribute__((always_inline)) void write_back(struct record *record, const struct record *copy)
{
    record->scope = copy->scope;
    record->life = copy->life;
}

static inline __attribute__((always_inline)) void write_back2(struct record2 *record, const struct record2 *copy)
{
    record->scope = copy->scope;
    record->life = copy->life;
}

_Static_assert(sizeof(struct record) == 64, "a record of version 1 has 64 bytes");
_Static_assert(sizeof(struct record2) == 96, "a record of version 2 has 96 bytes");

#endif
