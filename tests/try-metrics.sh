#!/usr/bin/env bash
# Sees what a server tells Debian's Prometheus of itself: who is told, that `promtool check metrics` finds no fault with the text, that
# Prometheus reads it for ten seconds without a complaint, and that what it reads is what was asked meanwhile. Takes half a minute.
. "$(dirname "$0")/lib.sh"
for tool in curl jq python3 promtool prometheus; do
    needs $tool "curl jq python3 prometheus"
done
make_room
"$program" state --new "$room/state" >/dev/null
start 127.0.0.1:0 examples/registry.json --state "$room/state" --audit "$room/audit"
url=http://$at
key=op-key

# replies STATUS WORDS..: what curl is told with these words has the status
replies() {
    tried=$((tried + 1))
    local found
    found=$(curl -s -o "$room/body" -w '%{http_code}' "${@:2}")
    [ "$found" = "$1" ] || differs "${*:2}: $found, wanted $1"
}

# holds TEXT COMMAND..: the command is done with status 0
holds() {
    tried=$((tried + 1))
    "${@:2}" || differs "$1"
}

# told NAME: the number that has this name, with its labels, in the text
told() {
    awk -v name="$1" '$1 == name { print $2 }' "$room/text"
}

# read_text: reads the text, once a second has told the server what it did
read_text() {
    sleep 2
    curl -s -H "X-Operator-Key: $key" "$url/metrics" >"$room/text"
}

# is NAME NUMBER: it is this one
is() {
    tried=$((tried + 1))
    [ "$(told "$1")" = "$2" ] || differs "$1: $(told "$1"), wanted $2"
}

# WHO IS TOLD, AND HOW
replies 403 "$url/metrics"
holds 'a reply without the key' grep -q access_denied "$room/body"
replies 403 -H 'X-Operator-Key: other' "$url/metrics"
replies 403 -H 'Authorization: Bearer other' "$url/metrics"
replies 403 -u "bot:$key" "$url/metrics"
replies 200 -H "X-Operator-Key: $key" "$url/metrics"
replies 200 -H "Authorization: Bearer $key" "$url/metrics"
replies 200 -H "authorization: bearer $key" "$url/metrics"
replies 404 -H "X-Operator-Key: $key" -d x=y "$url/metrics"
replies 404 -H "X-Operator-Key: $key" "$url/metrics?x=y"
curl -si -H "X-Operator-Key: $key" "$url/metrics" | tr -d '\r' >"$room/whole"
for line in 'Content-Type: text/plain; version=0.0.4' 'Cache-Control: no-store' 'Connection: close'; do
    holds "no line $line" grep -qx "$line" "$room/whole"
done

# WHAT IS TOLD
for _ in 1 2 3 4 5; do
    curl -s -u bot:b0t -d grant_type=client_credentials "$url/token"
done | jq -r .access_token >"$room/tokens"
printf '\267\0\0\0\0\0\0\0\225\0\0\0\0\0\0\0' | curl -s -H "X-Operator-Key: $key" --data-binary @- "$url/hooks?name=night" >/dev/null
curl -s -u bot:b0t -d grant_type=client_credentials "$url/token" >/dev/null
curl -s -u bot:b0t -d grant_type=client_credentials "$url/token" >/dev/null
curl -s -H "X-Operator-Key: $key" -d name=night "$url/hooks/remove" >/dev/null
curl -s "$url/elsewhere"
read_text
is 'oauthd_requests_total{path="token"}' 7
is 'oauthd_requests_total{path="hooks"}' 1
is 'oauthd_requests_total{path="nowhere"}' 3
is 'oauthd_replies_total{status="404"}' 3
is oauthd_denied_total 2
is 'oauthd_denied_by_hook_total{hook="night"}' 2
is 'oauthd_denied_by_hook_total{hook="_others"}' 0
is oauthd_codes_and_tokens 5
is oauthd_hooks 0
is 'oauthd_request_seconds_count{path="token"}' 7
is 'oauthd_request_seconds_bucket{path="token",le="+Inf"}' 7
is 'oauthd_request_seconds_count{path="revoke"}' 0
holds 'no bytes of a state' test "$(told oauthd_state_bytes)" -gt 100 -a "$(told oauthd_state_bytes)" -le "$(stat -c %s "$room/state")"
holds 'it began otherwise' test $(($(date +%s) - $(told oauthd_start_time_seconds))) -lt 60
holds 'nothing was waited for' test "$(told oauthd_keep_seconds_count)" -gt 5
holds 'the disk was not waited for' test "$(told oauthd_sync_seconds_count)" -gt 5
promtool check metrics <"$room/text" >"$room/lint" 2>&1 || differs 'promtool ends with another status'
holds "promtool: $(cat "$room/lint")" test ! -s "$room/lint"

# PROMETHEUS ITSELF
port=$(python3 -c 'import socket; s = socket.socket(); s.bind(("127.0.0.1", 0)); print(s.getsockname()[1])')
printf %s "$key" >"$room/key"
cat >"$room/prometheus.yml" <<EOF
global: {scrape_interval: 1s, scrape_timeout: 1s}
scrape_configs:
  - job_name: oauthd
    authorization: {credentials_file: $room/key}
    static_configs: [{targets: ["$at"]}]
EOF
promtool check config "$room/prometheus.yml" >/dev/null || differs 'its configuration is refused'
prometheus --config.file="$room/prometheus.yml" --storage.tsdb.path="$room/data" --web.listen-address="127.0.0.1:$port" \
    >"$room/prometheus.log" 2>&1 &
prometheus=$!
awaits 20 takes_connections "$port" || differs 'prometheus does not listen'

# value QUERY: what it answers
value() {
    curl -s --data-urlencode "query=$1" "http://127.0.0.1:$port/api/v1/query" | jq -r '.data.result[0].value[1]'
}

token=$(head -n 1 "$room/tokens")
end=$((SECONDS + 12))
asked=0
while [ $SECONDS -lt $end ]; do
    curl -s -u bot:b0t -d "token=$token" "$url/introspect" >/dev/null
    asked=$((asked + 1))
    sleep 0.05
done
sleep 3
tried=$((tried + 4))
[ "$(value 'min_over_time(up[8s])')" = 1 ] || differs "up: $(value 'min_over_time(up[8s])')"
[ "$(value 'oauthd_requests_total{path="introspect"}')" = $asked ] || differs "wanted $asked: $(value 'oauthd_requests_total{path="introspect"}')"
[ "$(value 'oauthd_request_seconds_count{path="introspect"}')" = $asked ] || differs 'as many were not timed'
holds 'a quantile is none' python3 -c "import sys; sys.exit(not 0 < float('$(value 'histogram_quantile(0.9, sum by (le) (rate(oauthd_request_seconds_bucket[10s])))')') <= 1)"
if grep -E 'level=(warn|error)|lvl=(warn|error)' "$room/prometheus.log"; then
    differs 'prometheus complains'
fi
kill $prometheus
wait $prometheus

# OVER A RELOAD requests begin anew; times and denials go on
curl -s -H "X-Operator-Key: $key" -d '' "$url/reload" >/dev/null
read_text
is 'oauthd_requests_total{path="introspect"}' 0
is 'oauthd_request_seconds_count{path="introspect"}' $asked
is 'oauthd_denied_by_hook_total{hook="night"}' 2

stop

# WITHOUT AN AUDIT LOG denials are counted by hook as well
start 127.0.0.1:0 examples/registry.json --state "$room/state"
url=http://$at
printf '\267\0\0\0\0\0\0\0\225\0\0\0\0\0\0\0' | curl -s -H "X-Operator-Key: $key" --data-binary @- "$url/hooks?name=noon" >/dev/null
for _ in 1 2 3; do
    curl -s -u bot:b0t -d grant_type=client_credentials "$url/token" >/dev/null
done
read_text
is oauthd_denied_total 3
is 'oauthd_denied_by_hook_total{hook="noon"}' 3
is 'oauthd_denied_by_hook_total{hook="night"}' ''
is 'oauthd_denied_by_hook_total{hook="_others"}' 0

stop
end_with 'things that are told'
