# What the scripts of this folder share. Each reads it first, and stands in the repository's folder, $root, from then on:
#
#     . "$(dirname "$0")/lib.sh"
#
# $program is the built program: (cd crates/oauthd && rt run -- help) builds it, and the variable OAUTHD names another one.
# A script ends with 0 where all is as wanted, with 1 where something differs, and with 2 where it cannot be tried here.
root=$(realpath "$(dirname "${BASH_SOURCE[0]}")/..")
program=$(realpath -m "${OAUTHD:-$root/crates/oauthd/out/oauthd}")
cd "$root" || exit 2
[ -x "$program" ] || { echo "there is no $program: run 'rt run -- help' in crates/oauthd first"; exit 2; }

# needs TOOL [PACKAGES]: ends the script where a tool is not installed
needs() {
    command -v "$1" >/dev/null || { echo "there is no $1: apt-get install ${2:-$1}"; exit 2; }
}

# make_room: makes a folder for this run, $room. It is gone when the script ends, and so is all that runs in the background.
make_room() {
    room=$(mktemp -d) || exit 2
    trap leave EXIT
}
leave() {
    local running
    running=$(jobs -pr)
    [ -z "$running" ] || kill $running 2>/dev/null
    wait
    rm -rf "$room"
}

# What was tried, and what came out otherwise than wanted.
tried=0
differing=0

# differs TEXT: something is not as it should be
differs() {
    differing=$((differing + 1))
    echo "DIFFERS: $1"
}

# end_with NOUN [TEXT]: tells how many things of a kind were tried, and ends the script
end_with() {
    echo "$tried $1, $differing differ${2:-}"
    [ "$differing" = 0 ]
    exit
}

# awaits SECONDS COMMAND..: waits until the command is done with status 0
awaits() {
    local end=$((SECONDS + $1))
    shift
    until "$@"; do
        [ $SECONDS -lt $end ] || return 1
        sleep 0.05
    done
}

# takes_connections PORT: whether somebody listens there
takes_connections() {
    (exec 3<>"/dev/tcp/127.0.0.1/$1") 2>/dev/null
}

# has_begun FILE PROCESS: whether a server has said in the file where it listens, or has ended
has_begun() {
    grep -q '^listening ' "$1" || ! kill -0 "$2" 2>/dev/null
}

# start ADDRESS REGISTRY OPTIONS..: starts a server, whose process is $server; it listens at $at, and its standard error
# goes to $room/server.err
start() {
    : >"$room/listening"
    "$program" start "$@" >"$room/listening" 2>"$room/server.err" &
    server=$!
    awaits 10 has_begun "$room/listening" $server
    at=$(sed -n 's/^listening //p' "$room/listening")
    [ -n "$at" ] || { echo "no server: $(cat "$room/server.err")"; exit 1; }
}

# stop: ends the server by SIGTERM, which leaves its status in $status; it has written nothing to standard error
stop() {
    kill "$server"
    wait "$server"
    status=$?
    [ ! -s "$room/server.err" ] || { differs 'wanted no line on the standard error of the server'; cat "$room/server.err"; }
}

# bytes_of HEX: writes the bytes that a hook's hex says
bytes_of() {
    printf "$(sed 's/../\\x&/g' "$1")"
}

# For what runs under tests/own-systemd.sh, and nowhere else, since it installs things:

# lines_of SECTION: the lines of docs/OPERATING.md in this section that are to be run
lines_of() {
    awk -v section="## $1" '/^## / { here = $0 == section }
        here && /^```/ { code = $0 == "```sh"; next }
        here && code' docs/OPERATING.md
}

# install_by_page: installs the server as docs/OPERATING.md says, line by line, with the packages that are here, and shows it
install_by_page() {
    echo 'APT::Get::Upgrade "false";' >/etc/apt/apt.conf.d/99offline
    lines_of 'From an empty machine to the first token' >/run/page
    bash -ev /run/page 2>&1 || {
        differs 'a line of docs/OPERATING.md failed'
        journalctl --no-pager -u 'oauthd*' | tail -n 20
        exit 1
    }
}

# registered MEMBER: what the installed registry has there, as '["owners"][0]'
registered() {
    python3 -c "import json; print(json.load(open('/etc/oauthd/registry.json'))$1)"
}

# password_of USER: the password that the installation gave this user
password_of() {
    sed -n "s/^$1 //p" /root/oauthd-passwords
}
