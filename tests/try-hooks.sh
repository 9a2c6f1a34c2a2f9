#!/usr/bin/env bash
# Compiles hooks in C as docs/HOOKS.md says, and sees what becomes of each: which examples/c/build refuses, of which the
# program tells a fault, and what the others answer on records. Then it goes the way at the head of docs/HOOKS.md, line
# by line, on a server of its own, and compares what each line prints. It ends with 0 where all is as it should be.
# CLANG, OBJCOPY and READELF name other compilers than clang-19 and llvm-19.
. "$(dirname "$0")/lib.sh"
unset CPU
clang=${CLANG:-clang-19}
objcopy=${OBJCOPY:-llvm-objcopy-19}
for tool in "$clang" "$objcopy" "${READELF:-${objcopy/objcopy/readelf}}"; do
    needs "$tool" 'clang-19 llvm-19, or name others by CLANG, OBJCOPY and READELF'
done
needs curl
make_room
cd "$room" || exit 2
server=

# compiled: builds the hook of standard input, whose head is written before it, with what build says in built.err
compiled() {
    tried=$((tried + 1))
    { echo '#include "oauthd_hook.h"'; cat; } >my.c
    "$root/examples/c/build" my.c >built.out 2>built.err
}

# refused NAME TEXT: build refuses the hook of standard input, says that text, and leaves no bytes
refused() {
    echo old >my.bin
    echo old >my.hex
    compiled
    local status=$?
    [ $status = 1 ] || differs "$1: build ended with $status, and should refuse it"
    grep -qF -- "$2" built.err || { differs "$1: build should say: $2"; cat built.err; }
    [ ! -e my.bin ] && [ ! -e my.hex ] || differs "$1: it is refused, and there are bytes"
}

# faulty NAME FAULT: the hook of standard input is compiled, and the program does not take it
faulty() {
    compiled || { differs "$1: build refuses it"; cat built.err; return; }
    "$program" check my.hex >given 2>&1
    [ "$(sed 's/([0-9]*)$//' given)" = "oauthd: $2" ] || { differs "$1: wanted $2"; cat given; }
}

# taken NAME [VERSION]: the hook of standard input is compiled and taken
taken() {
    compiled || { differs "$1: build refuses it"; cat built.err; return; }
    "$program" "check${2:-}" my.hex >given 2>&1 || { differs "$1: it is not taken"; cat given; }
}

# answers KIND CLIENT OWNER WANTED: what the hook that was compiled last answers; scopes 7 and 300 seconds are asked for
answers() {
    local record
    tried=$((tried + 1))
    record=$(printf '01000000 %02x000000 e803000000000000 %02x00000000000000 %02x00000000000000' "$1" "$2" "$3")
    record="$record 0700000000000000 0700000000000000 2c010000 00000000 0700000000000000"
    "$program" run "$(cat my.hex)" "$record" >given 2>&1
    [ "$(sed -n '$p' given)" = "$4" ] || { differs "client $2, owner $3: wanted $4"; cat given; }
}

# functions: hook is the one that runs, wherever it stands, and it is whole
taken 'a function above hook' <<'C'
int is_known(struct record *record)
{
    return record->client == 1;
}

int hook(struct record *record)
{
    if (is_known(record))
        return DENY;
    return ALLOW;
}
C
answers 1 1 1 denied
answers 1 2 1 'allowed 7 300'
taken 'a function behind hook, that needs data of its own' <<'C'
extern const u32 lives[4];

int hook(struct record *record)
{
    return record->client == 1 ? DENY : ALLOW;
}

const u32 lives[4] = { 60, 120, 180, 240 };

u32 looked_up(u64 at)
{
    return lives[at & 3];
}
C
answers 1 1 1 denied
refused 'a function that is called' "'hook' calls 'is_known'" <<'C'
__attribute__((noinline)) int is_known(struct record *record)
{
    return record->client == 1;
}

int hook(struct record *record)
{
    return is_known(record) ? DENY : ALLOW;
}
C
refused 'a static function that is called' "'hook' calls 'is_known'" <<'C'
static __attribute__((noinline)) int is_known(struct record *record)
{
    return record->client == 1;
}

int hook(struct record *record)
{
    return is_known(record) ? DENY : ALLOW;
}
C
refused 'a function that is nowhere' "'hook' calls 'is_known'" <<'C'
int is_known(struct record *record);

int hook(struct record *record)
{
    return is_known(record) ? DENY : ALLOW;
}
C
refused 'a pointer to a function' "'hook' needs the address of" <<'C'
static int one(struct record *record) { return record->client == 1; }
static int two(struct record *record) { return record->owner == 1; }

int hook(struct record *record)
{
    int (*known)(struct record *) = record->kind == GRANT_CODE ? one : two;
    return known(record) ? DENY : ALLOW;
}
C
refused 'no hook' "it has no function 'hook'" <<'C'
int token_hook(struct record *record)
{
    return record->client == 1 ? DENY : ALLOW;
}
C
refused 'another section' "'hook' stands in section token" <<'C'
__attribute__((section("token"))) int hook(struct record *record)
{
    return record->client == 1 ? DENY : ALLOW;
}
C
refused 'another function in the section of hook' "section .text.hook has more than 'hook'" <<'C'
__attribute__((section(".text.hook"))) int is_known(struct record *record)
{
    return record->client == 1;
}

int hook(struct record *record)
{
    return is_known(record) ? DENY : ALLOW;
}
C
refused 'no answer on some way' 'Wreturn-type' <<'C'
int hook(struct record *record)
{
    if (record->client != 1)
        return ALLOW;
}
C
refused 'an answer that is unset on some way' 'uninitialized' <<'C'
int hook(struct record *record)
{
    int answer;
    if (record->client != 1)
        answer = ALLOW;
    return answer;
}
C

refused 'an answer that a switch leaves unset' 'uninitialized' <<'C'
int hook(struct record *record)
{
    int answer;
    switch (record->kind) {
    case GRANT_CODE: answer = ALLOW; break;
    case GRANT_REFRESH: answer = DENY; break;
    }
    return answer;
}
C
refused 'an answer that a loop leaves unset' 'may be uninitialized' <<'C'
int hook(struct record *record)
{
    int answer;
#pragma unroll
    for (int i = 0; i < 8; i++)
        if (record->owner == 3 * i)
            answer = ALLOW;
    return answer;
}
C
taken 'an answer whose upper half is left over' <<'C'
int hook(struct record *record)
{
    u64 wide = record->owner << 32 | record->client;
    asm volatile("" : "+r"(wide));
    return (int)wide;
}
C
answers 1 1 0 'allowed 7 300'
answers 1 1 1 denied
taken 'the same, compared' <<'C'
int hook(struct record *record)
{
    u64 wide = record->owner << 32 | record->client;
    asm volatile("" : "+r"(wide));
    return (int)wide == 1 ? ALLOW : DENY;
}
C
answers 1 1 1 'allowed 7 300'

# data and tables
refused 'a static table' "'hook' needs the address of '.rodata" <<'C'
static const u32 lives[4] = { 60, 120, 180, 240 };

int hook(struct record *record)
{
    record->life = lives[record->client & 3];
    return ALLOW;
}
C
refused 'a local table with its values' "'hook' needs the address of '.rodata" <<'C'
int hook(struct record *record)
{
    u32 lives[4] = { 60, 120, 180, 240 };
    record->life = lives[record->client & 3];
    return ALLOW;
}
C
refused 'a string' "'hook' needs the address of '.rodata" <<'C'
int hook(struct record *record)
{
    const char *grades = "abcdefg";
    record->life = (u32)grades[record->client & 7];
    return ALLOW;
}
C
refused 'a counter' "'hook' needs the address of 'asked_before'" <<'C'
u32 asked_before;

int hook(struct record *record)
{
    return ++asked_before < 100 ? ALLOW : DENY;
}
C
taken 'a table that is set element by element' <<'C'
int hook(struct record *record)
{
    u32 lives[4];
    lives[0] = 60;
    lives[1] = 120;
    lives[2] = 180;
    lives[3] = 240;
    record->life = lives[record->client & 3];
    return ALLOW;
}
C
answers 1 1 1 'allowed 7 120'
taken 'a table as a switch' <<'C'
int hook(struct record *record)
{
    u32 most;
    switch (record->client) {
    case 1: most = 60; break;
    case 2: most = 77; break;
    case 3: most = 199; break;
    case 4: most = 3; break;
    case 5: most = 60000; break;
    default: return DENY;
    }
    if (record->life > most)
        record->life = most;
    return ALLOW;
}
C
answers 1 3 1 'allowed 7 199'
answers 1 6 1 denied
taken 'a table of zeros' <<'C'
int hook(struct record *record)
{
    u8 seen[256] = { 0 };
    seen[record->client & 255] = 1;
    return seen[record->owner & 255] ? DENY : ALLOW;
}
C
answers 1 5 5 denied
taken 'memset of a constant number of bytes' <<'C'
int hook(struct record *record)
{
    u8 seen[128];
    __builtin_memset(seen, 0, sizeof seen);
    seen[record->client & 127] = 1;
    return seen[record->owner & 127] ? DENY : ALLOW;
}
C
answers 1 5 5 denied
taken 'memcpy of a constant number of bytes' <<'C'
int hook(struct record *record)
{
    u8 bytes[64];
    __builtin_memcpy(bytes, record, sizeof bytes);
    return bytes[record->owner & 63] ? ALLOW : DENY;
}
C
answers 1 5 16 'allowed 7 300'
answers 1 5 17 denied
refused 'a signed division for v3' 'signed division' <<'C'
int hook(struct record *record)
{
    s64 moment = (s64)record->now;
    return moment / (s64)record->client > 3 ? ALLOW : DENY;
}
C
refused 'memset of an uncertain number of bytes' "built-in function 'memset' is not supported" <<'C'
int hook(struct record *record)
{
    u8 seen[64] = { 0 };
    __builtin_memset(seen, 1, record->client & 63);
    return seen[record->owner & 63] ? DENY : ALLOW;
}
C
refused 'a table that is greater than the stack' 'BPF stack limit' <<'C'
int hook(struct record *record)
{
    u8 seen[600] = { 0 };
    seen[record->client & 511] = 1;
    return seen[record->owner & 511] ? DENY : ALLOW;
}
C
faulty 'a byte that is unset on one way' 'Verify UnsetByte' <<'C'
int hook(struct record *record)
{
    volatile u8 lives[4];
    lives[0] = 3;
    if (record->kind == GRANT_CODE)
        lives[1] = 2;
    lives[2] = 0;
    lives[3] = 0;
    return lives[record->owner & 3] ? ALLOW : DENY;
}
C
refused 'a variable that is set and read under the same condition' 'may be uninitialized' <<'C'
int hook(struct record *record)
{
    volatile u32 most;
    if (record->kind == GRANT_CODE)
        most = 60;
    else if (record->kind == GRANT_REFRESH)
        most = 30;
    if (record->kind != GRANT_CLIENT_CREDENTIALS && record->life > most)
        record->life = most;
    return ALLOW;
}
C
taken 'the same variable, set at first' <<'C'
int hook(struct record *record)
{
    volatile u32 most = 0;
    if (record->kind == GRANT_CODE)
        most = 60;
    else if (record->kind == GRANT_REFRESH)
        most = 30;
    if (record->kind != GRANT_CLIENT_CREDENTIALS && record->life > most)
        record->life = most;
    return ALLOW;
}
C
answers 1 1 1 'allowed 7 60'

# loops
refused 'a loop with a break at an uncertain turn' 'loop not unrolled' <<'C'
int hook(struct record *record)
{
    u32 turns = record->life / 60, names = 0;
#pragma unroll
    for (u32 i = 0; i < 32; i++) {
        if (i >= turns)
            break;
        names += (u32)(record->scope >> i) & 1;
    }
    return names ? ALLOW : DENY;
}
C
faulty 'a loop of an uncertain number of turns' 'Verify JumpBack' <<'C'
int hook(struct record *record)
{
    u32 names = 0;
#pragma unroll
    for (u32 i = 0; i < 32 && i < record->life; i++)
        names += (u32)(record->scope >> i) & 1;
    return names ? ALLOW : DENY;
}
C
faulty 'a loop that is not unrolled' 'Verify JumpBack' <<'C'
int hook(struct record *record)
{
    u8 seen[256];
    for (int i = 0; i < 256; i++)
        seen[i] = 0;
    seen[record->client & 255] = 1;
    return seen[record->owner & 255] ? DENY : ALLOW;
}
C
taken 'a condition in place of a break' <<'C'
int hook(struct record *record)
{
    u32 turns = record->life / 60, names = 0;
#pragma unroll
    for (u32 i = 0; i < 32; i++)
        if (i < turns)
            names += (u32)(record->scope >> i) & 1;
    return names == 3 ? ALLOW : DENY;
}
C
answers 1 1 1 'allowed 7 300'

# indices and pointers
faulty 'a constant that is taken from an index' 'Verify PointerRange' <<'C'
int hook(struct record *record)
{
    volatile u8 grades[16];
#pragma unroll
    for (int i = 0; i < 16; i++)
        grades[i] = i;
    u64 at = record->client;
    if (at < 10 || at > 20)
        return DENY;
    return grades[at - 10] == 3 ? ALLOW : DENY;
}
C
taken 'the same, out of sight of the compiler' <<'C'
int hook(struct record *record)
{
    volatile u8 grades[16];
#pragma unroll
    for (int i = 0; i < 16; i++)
        grades[i] = i;
    u64 at = record->client;
    if (at < 10 || at > 20)
        return DENY;
    at -= 10;
    asm volatile("" : "+r"(at));
    return grades[at] == 3 ? ALLOW : DENY;
}
C
answers 1 13 1 'allowed 7 300'
answers 1 14 1 denied
answers 1 1 1 denied
faulty 'an hour that is subtracted from behind its test' 'Verify UnsetByte' <<'C'
int hook(struct record *record)
{
    u8 grades[10];
    __builtin_memset(grades, 3, sizeof grades);
    u32 at = record->now % 86400 / 3600;
    if (at >= 8 && at < 18)
        record->life = grades[at - 8];
    return ALLOW;
}
C
taken 'the same before its test' <<'C'
int hook(struct record *record)
{
    u8 grades[10];
    __builtin_memset(grades, 3, sizeof grades);
    u32 at = record->now % 86400 / 3600;
    at -= 8;
    if (at < 10)
        record->life = grades[at];
    return ALLOW;
}
C
answers 1 1 1 'allowed 7 300'
faulty 'a signed test' 'Verify PointerRange' <<'C'
int hook(struct record *record)
{
    const u8 *bytes = (const u8 *)record;
    int at = (int)record->owner;
    if (at >= 64)
        return DENY;
    return bytes[at] ? ALLOW : DENY;
}
C
faulty 'a test of another variable' 'Verify PointerRange' <<'C'
int hook(struct record *record)
{
    u8 grades[8];
    __builtin_memset(grades, 3, sizeof grades);
    if ((u32)record->owner > 7)
        return DENY;
    return grades[record->owner] ? ALLOW : DENY;
}
C
taken 'an index of one byte, and a table of 16' <<'C'
int hook(struct record *record)
{
    u8 lives[16];
    __builtin_memset(lives, 3, sizeof lives);
    lives[5] = record->client;
    u8 at = record->owner;
    if (at < 16)
        record->life = lives[at];
    return ALLOW;
}
C
answers 1 9 5 'allowed 7 9'
answers 1 9 6 'allowed 7 3'
answers 1 9 16 'allowed 7 300'
taken 'the same, tested at both ends' <<'C'
int hook(struct record *record)
{
    u8 lives[16];
    __builtin_memset(lives, 3, sizeof lives);
    lives[5] = record->client;
    u8 at = record->owner;
    if (at >= 4 && at < 12)
        record->life = lives[at];
    return ALLOW;
}
C
answers 1 9 5 'allowed 7 9'
answers 1 9 3 'allowed 7 300'
taken 'the same, and a table of 10' <<'C'
int hook(struct record *record)
{
    u8 lives[10];
    __builtin_memset(lives, 3, sizeof lives);
    lives[5] = record->client;
    u8 at = record->owner;
    if (at < 10)
        record->life = lives[at];
    return ALLOW;
}
C
answers 1 9 5 'allowed 7 9'
answers 1 9 10 'allowed 7 300'
taken 'an index of two bytes, that is kept within a table of 20' <<'C'
int hook(struct record *record)
{
    u8 lives[20];
    __builtin_memset(lives, 3, sizeof lives);
    lives[19] = record->client;
    u16 at = record->owner;
    if (at > 19)
        at = 19;
    record->life = lives[at];
    return ALLOW;
}
C
answers 1 9 18 'allowed 7 3'
answers 1 9 77 'allowed 7 9'
faulty 'an index of one byte, past a table of 10' 'Verify UnsetByte' <<'C'
int hook(struct record *record)
{
    u8 lives[10];
    __builtin_memset(lives, 3, sizeof lives);
    lives[5] = record->client;
    u8 at = record->owner;
    if (at < 11)
        record->life = lives[at];
    return ALLOW;
}
C
taken 'a flag that guards an index' <<'C'
int hook(struct record *record)
{
    volatile u8 lives[16];
#pragma unroll
    for (int i = 0; i < 16; i++)
        lives[i] = i;
    u64 at = record->owner;
    int known = 0;
    if (at < 16)
        known = 1;
    asm volatile("" : "+r"(known));
    if (known)
        record->life = lives[at];
    return ALLOW;
}
C
answers 1 1 5 'allowed 7 5'
answers 1 1 16 'allowed 7 300'
taken 'the same, where the flag stands in the stack' <<'C'
int hook(struct record *record)
{
    volatile u8 lives[16];
#pragma unroll
    for (int i = 0; i < 16; i++)
        lives[i] = i;
    u64 at = record->owner;
    volatile int known = 0;
    if (at < 16)
        known = 1;
    record->scope &= 3;
    if (known)
        record->life = lives[at];
    return ALLOW;
}
C
answers 1 1 5 'allowed 3 5'
answers 1 1 16 'allowed 3 300'
taken 'the same, with an index that is good without the flag' <<'C'
int hook(struct record *record)
{
    volatile u8 lives[16];
#pragma unroll
    for (int i = 0; i < 16; i++)
        lives[i] = i;
    u64 at = record->owner;
    int known = 0;
    if (at < 16)
        known = 1;
    else
        at = 0;
    asm volatile("" : "+r"(known));
    if (known)
        record->life = lives[at];
    return ALLOW;
}
C
answers 1 1 5 'allowed 7 5'
answers 1 1 16 'allowed 7 300'
faulty 'a mask that clang joins with the address by or64' 'Verify PointerMisuse' <<'C'
int hook(struct record *record)
{
    u8 lives[8];
    __builtin_memset(lives, 3, sizeof lives);
    lives[record->client & 7] = 1;
    return lives[record->owner & 7] == 1 ? ALLOW : DENY;
}
C
taken 'the same mask, out of sight of the compiler' <<'C'
int hook(struct record *record)
{
    u8 lives[8];
    __builtin_memset(lives, 3, sizeof lives);
    u64 client = record->client & 7, owner = record->owner & 7;
    asm volatile("" : "+r"(client));
    asm volatile("" : "+r"(owner));
    lives[client] = 1;
    return lives[owner] == 1 ? ALLOW : DENY;
}
C
answers 1 5 13 'allowed 7 300'
answers 1 5 14 denied
taken 'a signed test of both ends' <<'C'
int hook(struct record *record)
{
    const u8 *bytes = (const u8 *)record;
    int at = (int)record->owner;
    if (at < 0 || at >= 64)
        return DENY;
    return bytes[at] ? ALLOW : DENY;
}
C
answers 1 5 16 'allowed 7 300'
answers 1 5 17 denied
taken 'a test of both ends in one' <<'C'
int hook(struct record *record)
{
    const u8 *bytes = (const u8 *)record;
    u64 at = record->owner;
    return 5 <= at && at <= 40 && bytes[at] ? ALLOW : DENY;
}
C
answers 1 5 16 'allowed 7 300'
answers 1 5 17 denied
answers 1 5 4 denied
taken 'the same in 32 bits' <<'C'
int hook(struct record *record)
{
    const u8 *bytes = (const u8 *)record;
    u32 at = (u32)record->owner;
    return 5 <= at && at <= 40 && bytes[at] ? ALLOW : DENY;
}
C
answers 1 5 16 'allowed 7 300'
answers 1 5 4 denied
taken 'a set of bits by 32' <<'C'
int hook(struct record *record)
{
    u32 set[8];
    __builtin_memset(set, 0, sizeof set);
    set[1] = 5;
    asm volatile("" : : "r"(set) : "memory");
    u32 at = (u32)record->owner;
    if (at >= 256)
        return DENY;
    return set[at / 32] >> (at % 32) & 1 ? ALLOW : DENY;
}
C
answers 1 1 34 'allowed 7 300'
answers 1 1 33 denied
taken 'the same, that is set' <<'C'
int hook(struct record *record)
{
    u32 set[8];
    __builtin_memset(set, 0, sizeof set);
    set[1] = 5;
    asm volatile("" : : "r"(set) : "memory");
    u32 at = (u32)record->owner;
    if (at < 256)
        set[at / 32] |= 1u << (at % 32);
    return set[1] == 7 ? ALLOW : DENY;
}
C
answers 1 1 33 'allowed 7 300'
answers 1 1 35 denied
faulty 'the same, past its end' 'Verify PointerRange' <<'C'
int hook(struct record *record)
{
    u32 set[8];
    __builtin_memset(set, 0, sizeof set);
    asm volatile("" : : "r"(set) : "memory");
    u32 at = (u32)record->owner;
    if (at >= 288)
        return DENY;
    return set[at / 32] >> (at % 32) & 1 ? ALLOW : DENY;
}
C
faulty 'a test of the record against null' 'Verify PointerMisuse' <<'C'
int hook(struct record *record)
{
    if (!record)
        return DENY;
    return ALLOW;
}
C
taken 'a pointer to the record or to the stack' <<'C'
int hook(struct record *record)
{
    u64 own = 7;
    asm volatile("" : : "r"(&own) : "memory");
    const u64 *client = record->kind == GRANT_CODE ? &record->client : &own;
    return *client == 7 ? ALLOW : DENY;
}
C
answers 1 7 1 'allowed 7 300'
answers 1 8 1 denied
answers 2 8 1 'allowed 7 300'
taken 'a number of the record or of the stack, of which clang makes the same' <<'C'
int hook(struct record *record)
{
    u64 own = 7;
    asm volatile("" : : "r"(&own) : "memory");
    u64 client = record->kind == GRANT_CODE ? record->client : own;
    return client == 7 ? ALLOW : DENY;
}
C
answers 1 7 1 'allowed 7 300'
answers 1 8 1 denied
taken 'a pointer to one field of the record or to another, each with its own bound' <<'C'
int hook(struct record *record)
{
    const u64 *from;
    u64 at = record->owner;
    if (record->kind == GRANT_CODE) {
        from = &record->asked;
        if (at > 3)
            return DENY;
        asm volatile("" : "+r"(from));
    } else {
        from = &record->client;
        if (at > 5)
            return DENY;
        asm volatile("" : "+r"(from));
    }
    return from[at] == 7 ? ALLOW : DENY;
}
C
answers 1 9 0 'allowed 7 300'
answers 1 9 2 denied
answers 2 9 3 'allowed 7 300'
answers 2 9 6 denied
faulty 'the same, and the bounds the other way round' 'Verify PointerRange' <<'C'
int hook(struct record *record)
{
    const u64 *from;
    u64 at = record->owner;
    if (record->kind == GRANT_CODE) {
        from = &record->asked;
        if (at > 5)
            return DENY;
        asm volatile("" : "+r"(from));
    } else {
        from = &record->client;
        if (at > 3)
            return DENY;
        asm volatile("" : "+r"(from));
    }
    return from[at] == 7 ? ALLOW : DENY;
}
C
faulty 'a pointer or none' 'Verify PointerMisuse' <<'C'
int hook(struct record *record)
{
    u8 lives[16];
    __builtin_memset(lives, 3, sizeof lives);
    asm volatile("" : : "r"(lives) : "memory");
    const u8 *life = 0;
    if (record->owner < 16)
        life = lives + record->owner;
    asm volatile("" : "+r"(life));
    return life && *life ? ALLOW : DENY;
}
C
taken 'an index or none' <<'C'
int hook(struct record *record)
{
    u8 lives[16];
    __builtin_memset(lives, 3, sizeof lives);
    asm volatile("" : : "r"(lives) : "memory");
    u64 index = 16;
    if (record->owner < 16)
        index = record->owner;
    asm volatile("" : "+r"(index));
    return index < 16 && lives[index] ? ALLOW : DENY;
}
C
answers 1 1 5 'allowed 7 300'
answers 1 1 16 denied
taken 'a number of the record that is loaded first' <<'C'
int hook(struct record *record)
{
    u64 own = 7;
    asm volatile("" : : "r"(&own) : "memory");
    u64 client = record->client;
    asm volatile("" : "+r"(client));
    if (record->kind != GRANT_CODE)
        client = own;
    return client == 7 ? ALLOW : DENY;
}
C
answers 2 1 1 'allowed 7 300'
answers 1 1 1 denied

# the record
refused 'a field that may not be written' 'const-qualified' <<'C'
int hook(struct record *record)
{
    record->client = 7;
    return ALLOW;
}
C
refused 'a whole record that is written' 'const-qualified' <<'C'
int hook(struct record *record)
{
    struct record copy = *record;
    copy.scope &= 1;
    *record = copy;
    return ALLOW;
}
C
faulty 'a field that is written by force' 'Verify ReadOnlyField' <<'C'
int hook(struct record *record)
{
    *(u64 *)&record->client = 7;
    return ALLOW;
}
C
taken 'a copy that is written back, and stdint.h' <<'C'
#include <stdint.h>

int hook(struct record *record)
{
    struct record copy = *record;
    uint64_t reading = 1;
    copy.scope &= reading;
    copy.life = 60;
    write_back(record, &copy);
    return ALLOW;
}
C
answers 1 5 1 'allowed 1 60'
taken 'a copy of a record of version 2 that is written back' 2 <<'C'
int hook(struct record2 *record)
{
    struct record2 copy = *record;
    copy.scope &= copy.consented;
    write_back2(record, &copy);
    return ALLOW;
}
C

# the hooks of examples/c, and their hex, which is that of clang 19
if "$clang" --version | grep -q 'version 19\.'; then
    cp -r "$root/examples/c" examples
    tried=$((tried + 1))
    ./examples/build || differs 'the hooks of examples/c are not compiled'
    diff -r "$root/examples/c/hex" examples/hex || differs 'the hooks of examples/c have other code'
else
    echo "the hex of examples/c is that of clang 19, and is not compared"
fi

# The way at the head of docs/HOOKS.md: its C is written to the file that it names, each line behind a $ is run, and
# what follows it is what it prints. Tokens are `..` there; a free port takes the place of 8080.

# plain FILE: the file, with .. for each token
plain() {
    sed -E 's/"[A-Za-z0-9_-]{43}"/".."/g' "$1"
}
awk '/^## / { here = /^## From an empty folder/ }
    here && /^```/ { fence = fence == "" ? $0 : ""; print "```" fence; next }
    here && fence != ""' "$root/docs/HOOKS.md" | sed 's/^``````/```/' >way
port=18080
while takes_connections $port; do port=$((port + 1)); done
at=127.0.0.1:$port
mkdir bin empty && ln -s "$program" bin/oauthd && PATH=$PWD/bin:$PATH && cd empty || exit 2
command=
: >../wanted

# step: runs the command that was read, and compares what it prints
step() {
    [ -n "$command" ] || return 0
    tried=$((tried + 1))
    case $command in
        root=*) ;;
        *'&')
            eval "${command%&} >../given 2>&1 &"
            server=$!
            awaits 10 has_begun ../given $server
            ;;
        'kill '*)
            [ "$!" = "$server" ] || { differs "docs/HOOKS.md: $command is not for the server"; exit 1; }
            eval "$command" >../given 2>&1
            wait "$server" 2>/dev/null
            server=
            ;;
        *) eval "$command" >../given 2>&1 ;;
    esac
    if [ "${command#root=}" = "$command" ]; then
        echo >>../given
        echo >>../wanted
        sed "s/:8080/:$port/" ../wanted >../wanted.here
        plain ../given >../given.here
        diff -B ../wanted.here ../given.here || differs "docs/HOOKS.md: $command"
    fi
    command=
    : >../wanted
}
while IFS= read -r line; do
    case $line in
        '```c') file=no-bot.c; : >"$file" ;;
        '```'*) step; file= ;;
        '$ '*) step; command=${line#'$ '} ;;
        *) if [ -n "$file" ]; then printf '%s\n' "$line" >>"$file"; else printf '%s\n' "$line" >>../wanted; fi ;;
    esac
done <../way
step
[ -s ../way ] || differs 'docs/HOOKS.md has no way at its head'
[ -z "$server" ] || differs 'docs/HOOKS.md does not stop the server'

end_with rows
