#!/usr/bin/env bash
# Runs the built program on each command, with files and with each status, and says what differs from what is written
# here. It also compares the hooks of examples/hooks and the code of examples/c with their copies in the rows.
. "$(dirname "$0")/lib.sh"
rows=$root/crates/rows/data
hooks=$root/examples/hooks
compiled=$root/examples/c
make_room
cd "$room" || exit 2

# ends NAME STATUS OUT ERR WORDS..: a command ends with this status, and writes this (printf's escapes count)
ends() {
    local name=$1 status=$2
    printf "$3" >wanted.out
    printf "$4" >wanted.err
    shift 4
    "$program" "$@" >given.out 2>given.err
    local given=$?
    tried=$((tried + 1))
    if [ "$given" != "$status" ] || ! cmp -s wanted.out given.out || ! cmp -s wanted.err given.err; then
        differs "$name (status $given, wanted $status)"
        diff wanted.out given.out
        diff wanted.err given.err
    fi
}

# begins NAME LINE WORDS..: a command is done, and its first line is this
begins() {
    local name=$1 line=$2
    shift 2
    "$program" "$@" >given.out 2>given.err
    local given=$?
    tried=$((tried + 1))
    if [ "$given" != 0 ] || [ -s given.err ] || [ "$(head -n 1 given.out)" != "$line" ]; then
        differs "$name (status $given)"
        cat given.out given.err
    fi
}

allow=b7000000010000009500000000000000
record='01000000 01000000 e803000000000000 0100000000000000 0100000000000000 0300000000000000 0300000000000000 2c010000 00000000 0300000000000000'

# what is done
ends 'run allows' 0 'r0 1\nsteps 2\nallowed 3 300\n' '' run $allow "$record"
ends 'run denies' 0 'r0 0\nsteps 2\ndenied\n' '' run b7000000000000009500000000000000 "$record"
ends 'a lifetime of 0 denies' 0 'r0 1\nsteps 3\ndenied\n' '' run b7000000010000006201300000000000"9500000000000000" "$record"
ends 'no scope is left' 0 'r0 1\nsteps 3\nempty scope\n' '' run b7000000010000007a01280000000000"9500000000000000" "$record"
printf 'mov64 r0 1\nexit\n' >hook.asm
ends asm 0 "$allow\n" '' asm hook.asm
printf "$allow\n" >hook.hex
ends list 0 'mov64 r0 1\nexit\n' '' list hook.hex
ends check 0 'accepted 2\n' '' check hook.hex
ends check2 0 'accepted 2\n' '' check2 hook.hex
ends 'list --slots' 0 '0: mov64 r0 1\n1: exit\n' '' list --slots hook.hex
ends 'check --why' 0 'accepted 2\n' '' check --why hook.hex
ends 'check2 --why' 0 'accepted 2\n' '' check2 --why hook.hex
ends ask 0 "$(echo "$record" | tr -d ' ')\n" '' ask 1 1000 1 1 3 300
ends ask2 0 "02$(echo "${record:2}" | tr -d ' ')0300000000000000""2c0100002c01000000000000000000000000000000000000\n" '' ask2 1 1000 1 1 3 300
ends 'run --trace' 0 '0: mov64 r0 1\n  r0: 1\n1: exit\nr0 1\nsteps 2\nallowed 3 300\n' '' run --trace $allow "$record"
ends --version 0 'oauthd 0.1.0\ncommit: that of a checkout\nkit: rattle-kit-13f logic dac8208d650f15bf\n' '' --version
for word in help --help -h; do
    begins "$word" 'oauthd: an OAuth 2.0 authorization server with verified token hooks.' "$word"
done
begins 'help of a command' 'asm FILE: turns the text of a hook into the hex of its code. docs/ASSEMBLY.md is the language.' help asm

# what is refused
printf 'mov64 r0 1\nfrob\n' >bad.asm
ends 'a text that says no program' 1 '' 'oauthd: line 2: UnknownWord "frob"\n' asm bad.asm
printf '8500000000000000\n' >call.hex
ends 'bytes that are no program' 1 '' 'oauthd: Insn Call(0)\n' list call.hex
printf '0500ffff000000009500000000000000\n' >back.hex
ends 'a program that is not accepted' 1 '' 'oauthd: Verify JumpBack(0)\n' check back.hex
printf '7110400000000000b7000000010000009500000000000000\n' >behind.hex
ends 'a load behind a record of version 1' 1 '' 'oauthd: Verify OutOfRegion(0)\n' check behind.hex
ends 'the same load in version 2' 0 'accepted 3\n' '' check2 behind.hex
printf '9500000000000000\n' >unset.hex
ends 'why a program is not accepted' 1 "refused UnsetRegister(0)\n0: exit\nr0: unset\nfrom slot 0: nothing writes r0\n\n$("$program" help UnsetRegister | sed 's/%/%%/g')\n" '' check --why unset.hex
ends 'a traced run that would be stuck' 1 '' 'oauthd: Verify UnsetRegister(0)\n' run --trace 9500000000000000 "$record"
ends 'a run that would be stuck' 1 '' 'oauthd: Verify UnsetRegister(0)\n' run 9500000000000000 "$record"
ends 'a run that is refused' 1 '' 'oauthd: Insn Empty\n' run '' "$record"

# what is used badly
ends 'no words' 2 '' 'oauthd: bad arguments; oauthd help lists the commands\n'
ends 'other words' 2 '' 'oauthd: bad arguments; oauthd help lists the commands\n' frob
ends 'a word too few' 2 '' 'oauthd: bad arguments for check; oauthd help check has its words\n' check
ends 'a name of nothing' 2 '' 'oauthd: nothing is known of nonsense; oauthd help lists the commands\n' help nonsense
start='oauthd: start wants ADDR and CONFIG before all options:'
ends 'no address' 2 '' "$start ADDR is missing; oauthd help start has its words\n" start
ends 'an option before the address' 2 '' "$start ADDR is missing; oauthd help start has its words\n" start --state x
ends 'no registry' 2 '' "$start CONFIG is missing; oauthd help start has its words\n" start 127.0.0.1:0 --state x
ends 'code that is no hex' 2 '' 'oauthd: bad arguments\n' run 9 "$record"
ends 'a kind that is none' 2 '' 'oauthd: bad arguments\n' ask 4 1000 1 1 3 300
ends 'a record that is none' 2 '' 'oauthd: bad record\n' run $allow 00
ends 'a file that is no hex' 2 '' 'oauthd: not hex: bad.asm\n' check bad.asm
ends 'a file that is no hex, told' 2 '' 'oauthd: not hex: bad.asm\n' check --why bad.asm
printf '\177ELF\2\1\1' >hook.o
ends 'an ELF file' 2 '' 'oauthd: ELF file: hook.o\n' list --slots hook.o
ends 'no such file' 2 '' 'oauthd: cannot read nowhere\n' list nowhere
printf 'exit\n\377' >bytes.asm
ends 'a text that is not UTF-8' 2 '' 'oauthd: cannot read bytes.asm\n' asm bytes.asm
registry=$root/examples/registry.json
for words in '127.0.0.1=wants a port' '127.0.0.1:0 c --frob 1=--frob is not known' '127.0.0.1:0 c 60 --full=--full wants a value' \
    '127.0.0.1:0 c --silence 0=--silence has a bad value' '127.0.0.1:0 c 60 --silence 5=--silence is given twice'; do
    why=${words##*=}
    [ "$why" = 'wants a port' ] && why='127.0.0.1 wants a port'
    ends "start ${words%=*}" 2 '' "oauthd: bad arguments: $why\n" start ${words%=*}
done
on='start 127.0.0.1:0 c --etcd http://127.0.0.1:1'
for words in "$on=--etcd wants --prefix" "$on --prefix p --state s=--etcd does not go with --state" 'start 127.0.0.1:0 c --prefix p=--prefix wants --etcd' \
    'start 127.0.0.1:0 c --lease 3=--lease wants --etcd' "$on --prefix p --lease 1=--lease has a bad value" \
    "$on --prefix p --etcd-user u=--etcd-user wants --etcd-password-file" "$on --prefix p --etcd-password-file f=--etcd-password-file wants --etcd-user" \
    'start 127.0.0.1:0 c --standby-answers=--standby-answers wants --etcd' "$on --prefix p --standby-answers --standby-answers=--standby-answers is given twice"; do
    ends "${words%=*}" 2 '' "oauthd: bad arguments: ${words##*=}\n" ${words%=*}
done
ends 'etcd over TLS' 2 '' 'oauthd: State NoMember: p\n' state --etcd https://127.0.0.1:1 --prefix p
ends 'a password that is not there' 2 '' 'oauthd: State NoPassword: p\n' state --etcd http://127.0.0.1:1 --prefix p --etcd-user u --etcd-password-file nowhere
ends 'a number by place that is none' 2 '' 'oauthd: bad arguments for start; oauthd help start has its words\n' start 127.0.0.1:0 "$registry" x
ends 'a hook that is not there' 2 '' 'oauthd: cannot read nowhere\n' start 127.0.0.1:0 "$registry" --hook a=nowhere
ends 'a hook that is refused' 2 '' 'oauthd: hook b: Verify JumpBack(0)\n' start 127.0.0.1:0 "$registry" --hook a=hook.hex --hook b=back.hex
ends 'two hooks of one name' 2 '' 'oauthd: hook a: NameTaken\n' start 127.0.0.1:0 "$registry" --hook a=hook.hex --hook2 a=hook.hex
install -m 640 "$registry" own.json
said='access_life 300\nrefresh_life 86400\nowners 2\nclients 2\nrecords 65536\nconsents 4096\nmemory 14 MB\nscopes read write admin\n'
ends 'a registry' 0 "$said" '' registry own.json
chmod 644 own.json
ends 'a registry that everybody may read' 0 "${said}warning: everybody may read the file\n" '' registry own.json

# filled LENGTH OWNERS MORE: a registry of this length with so many owners and these further members
filled() {
    local text
    text='{"access_life":300,"refresh_life":86400,"operator":"op-key","scopes":["read"],"clients":[],"owners":['
    text=$text$(seq -f '"u%.0f"' -s , "$2")]$3
    install -m 640 /dev/null own.json
    { printf %s "$text"; head -c $(($1 - ${#text} - 1)) /dev/zero | tr '\0' ' '; printf '}'; } >own.json
}
# has TITLE OWNERS: the registry is one with so many owners; lacks TITLE FAULT: it is none
has() {
    ends "$1" 0 "access_life 300\nrefresh_life 86400\nowners $2\nclients 0\nrecords 65536\nconsents 4096\nmemory 14 MB\nscopes read\n" '' registry own.json
}
lacks() {
    ends "$1" 2 '' "oauthd: Config $2\n" registry own.json
}
limits=,'"limits":{}'
filled 1048576 1 ''
has 'a registry of 1,048,576 bytes' 1
filled 1048577 1 ''
lacks 'one with a byte more' OutOfRange
filled 1048577 1 "$limits"
has 'one with limits' 1
filled 16777216 1 "$limits"
has 'one of 16,777,216 bytes' 1
filled 16777217 1 "$limits"
lacks 'one with limits and a byte more' OutOfRange
filled 1048576 4096 ''
has '4,096 owners' 4096
filled 1048576 4097 ''
lacks '4,097 owners' 'OutOfRange at owners'
filled 1048576 65536 "$limits"
has '65,536 owners with limits' 65536
filled 1048576 65537 "$limits"
lacks '65,537 owners' 'OutOfRange at owners'
head -c 1048577 /dev/zero | tr '\0' ' ' >own.json
lacks 'a long text of no JSON' OutOfRange
# state files: none, a new one, one of nobody's, two of older versions, and bytes of an unfinished write; the age is that of a
# moment that is told
lists() {
    tried=$((tried + 1))
    "$program" state "$2" >given.out 2>given.err
    grep -qE "^\{\"kind\":\"file\",\"bytes\":$3,\"batches\":0,\"torn\":$4,\"last\":0,\"age\":[0-9]+\}$" given.out || { differs "$1"; cat given.*; }
}
ends 'a state file that is not there' 2 '' 'oauthd: cannot read nowhere\n' state nowhere
ends 'a start on none' 2 '' 'oauthd: State Missing: nowhere; oauthd state --new FILE makes one\n' start 127.0.0.1:0 "$registry" --state nowhere
ends 'a new state file' 0 '' '' state --new own.state
ends 'the same once more' 2 '' 'oauthd: State Exists: own.state\n' state --new own.state
lists 'a new state file, listed' own.state 17 0
printf abc >>own.state
lists 'a torn state file' own.state 20 4
printf '{}' >other.state
ends 'a state file of another program' 2 '' 'oauthd: State NotState: other.state; oauthd state --new FILE makes one\n' state other.state
printf '\1\0\0\0\1\7' >old.state
ends 'one of the first kind' 2 '' 'oauthd: State Version 1: old.state; an older oauthd wrote it\n' state old.state
printf 'oauthd state v2\n\0' >second.state
ends 'one of version 2' 2 '' 'oauthd: State Version 2: second.state; an older oauthd wrote it\n' state second.state
if [ -w /dev/full ]; then
    "$program" list hook.hex >/dev/full 2>given.err
    given=$?
    tried=$((tried + 1))
    if [ $given != 2 ] || [ "$(cat given.err)" != 'oauthd: cannot write' ]; then
        differs "a full disk (status $given)"
        cat given.err
    fi
fi

# memory: the least address space in which the program is loaded, and a file that does not fit in it
head -c 300000000 /dev/zero | tr '\0' ' ' >long.hex
(ulimit -v 200000; "$program" check long.hex >given.out 2>given.err; echo $? >given.status)
tried=$((tried + 1))
if [ "$(cat given.status)" != 3 ] || [ -s given.out ] || [ "$(cat given.err)" != 'oauthd: out of memory' ]; then
    differs "no memory (status $(cat given.status))"
    cat given.out given.err
fi

# the example hooks, and their copies in the rows
for hook in "$hooks"/*.asm; do
    tried=$((tried + 1))
    awk -v file="-- file ${hook##*/}" '/^-- / { here = $0 == file; next } here' "$rows/examples.txt" >copy.asm
    if ! cmp -s "$hook" copy.asm; then
        differs "$hook and its copy in $rows/examples.txt"
        diff "$hook" copy.asm
    fi
    "$program" asm "$hook" >hook.hex || differs "$hook is not assembled"
    "$program" check hook.hex >given.out || differs "$hook is not accepted"
done

# the compiled hooks, and their copies in the rows: NAME_V3_V4 is the code of name.c for the versions 3 and 4
for code in "$compiled"/hex/*; do
    tried=$((tried + 1))
    file=${code##*/}
    name=${file%.*}
    awk -v name="^[$]${name^^}(_V[1-4])+$" -v version="_${file##*.}" '
        /^[$]/ { here = $0 ~ name && index($0 "_", toupper(version) "_"); next }
        here && /^$/ { exit }
        here { printf "%s", $0 }
        END { print "" }' "$rows/compiled.txt" >copy.hex
    cmp -s "$code" copy.hex || differs "$code and its copy in $rows/compiled.txt"
    command=check
    grep -q 'struct record2' "$compiled/$name.c" && command=check2
    "$program" $command "$code" >given.out 2>given.err || differs "$code is not accepted: $(cat given.err)"
done

end_with rows
