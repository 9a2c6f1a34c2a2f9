#!/usr/bin/env bash
# What a server does with few unexpired tokens and with millions: memory, requests a second, and how long replies take at
# 20,000 requests a second, also while as many tokens expire as were ever given in a second; and then how long replies take
# while a state file of some 200,000 unexpired tokens is shortened, and what users' grants take in memory and at a start.
# Takes ten minutes for ten million, and ends with 0 where every request was answered 200. Words: a folder on the disk that
# is to be measured (the current one), and the numbers of tokens (1000 100000 1000000 10000000).
# It wants Debian's packages wrk, curl, python3 and gcc, three cores, 4 GB of memory, and the program: (cd crates/oauthd &&
# rt run -- help). The variable OAUTHD names another program.
program=$(realpath -m "${OAUTHD:-$(dirname "$0")/../crates/oauthd/out/oauthd}")
folder=$(realpath -m "${1:-.}")
shift
sizes=${*:-1000 100000 1000000 10000000}
cd "$(dirname "$0")/.." || exit 2
[ -x "$program" ] || { echo "there is no $program: run 'rt run -- help' in crates/oauthd first"; exit 2; }
for tool in wrk curl python3 gcc; do
    command -v $tool >/dev/null || { echo "there is no $tool: apt-get install $tool"; exit 2; }
done
. benches/servers.sh
disk=$(mktemp -d "$folder/size.XXXXXX") || exit 2
trap '[ ${#started[@]} = 0 ] || kill "${started[@]}" 2>/dev/null; wait; rm -rf "$room" "$disk"' EXIT
gcc -O2 -o "$room/paced" benches/paced.c || exit 2
pace=20000
most=16777216

# kilobytes NAME PID: a line of its status
kilobytes() {
    awk -v name="$1:" '$1 == name { print $2 }' "/proc/$2/status"
}

# end PID: ends a server
end() {
    kill "$1"
    wait "$1" 2>/dev/null
}

# fill AT COUNT: asks for tokens until at least so many were given; $filled is how many
fill() {
    filled=0
    while [ "$filled" -lt "$2" ]; do
        seconds=$(python3 -c "print(max(0.02, min(5, ($2 - $filled) / 100000)))") load "$1" 16 8 /token $form
        filled=$((filled + $(sed -n 's/^ *\([0-9]*\) requests in .*/\1/p' "$room/wrk")))
    done
}

# paced AT PATH BODY SECONDS: at the pace; the 99.9 % and the longest of the replies' times, in milliseconds
paced() {
    local times
    times=$(printf 'POST %s HTTP/1.1\r\nHost: localhost\r\nAuthorization: Basic %s\r\nContent-Type: application/x-www-form-urlencoded\r\nContent-Length: %d\r\n\r\n%s' \
        "$2" "$bot" "${#3}" "$3" | "$room/paced" "${1##*:}" 16 $pace "$4") || faults=$((faults + 1))
    [ "${times##* }" = 0 ] || faults=$((faults + 1))
    python3 -c "
_, _, most, longest, _ = map(float, '$times'.split())
print(f'{most / 1000:8.2f}{longest / 1000:8.2f}')"
}

# expiring COUNT: the same of /introspect, while so many tokens expire as quickly as they were given
expiring() {
    local began life
    life=$((10 + $1 / 40000))
    records=$(($1 * 2 + 200000 < most ? $1 * 2 + 200000 : most)) start "expiring$1" $life
    began=$(date +%s)
    fill "$at" "$1"
    while [ $(($(date +%s) - began)) -lt "$life" ]; do sleep 0.2; done
    paced "$at" /introspect token=none 5
    end $pid
}

# size COUNT: a line of so many tokens
size() {
    local before after tokens asked told
    records=$(($1 + 1000000)) start "size$1" 86400
    before=$(kilobytes VmRSS $pid)
    fill "$at" "$1"
    after=$(kilobytes VmRSS $pid)
    load "$at" 16 1 /introspect token=none
    asked=$rate
    told=$(paced "$at" /introspect token=none 3)
    load "$at" 16 1 /token $form
    tokens=$rate
    told="$(paced "$at" /token $form 3)$told"
    end $pid
    printf '%10d%9d%9.0f%13.0f%s%s\n' "$filled" $(((after - before) * 1024 / filled)) "$tokens" "$asked" "$told" "$(expiring "$1")"
}

printf '%10s%9s%9s%13s%16s%16s%16s\n' '' 'bytes a' '/token' '/introspect' '/token: 99.9 %,' '/introspect' 'while'
printf '%10s%9s%9s%13s%16s%16s%16s\n' tokens token 'a second' 'a second' 'longest (ms)' '' 'they expire'
for count in $sizes; do
    size "$count"
done

"$program" state --new "$disk/state" >"$room/made" || exit 2
records=1000000 start kept 10 --state "$disk/state"
printf 'while a state file is written and shortened, /token at %d a second: 99.9 %%, longest (ms)%s\n' $pace "$(paced "$at" /token $form 40)"
end $pid

# users' grants: what a server takes that starts on a file of so many, each a spent code with an access and a refresh token
grants=300000
python3 benches/grants.py "$disk/grants" "$grants" || exit 2
none=$(records=1000000 start none 3600 && kilobytes VmRSS $pid)
began=$(date +%s%N)
records=1000000 start grants 3600 --state "$disk/grants"
printf '%d grants: %d bytes each, a start on them %d ms, with %d bytes each at most\n' "$grants" \
    $((($(kilobytes VmRSS $pid) - none) * 1024 / grants)) $((($(date +%s%N) - began) / 1000000)) \
    $((($(kilobytes VmHWM $pid) - none) * 1024 / grants))
[ $faults = 0 ]
