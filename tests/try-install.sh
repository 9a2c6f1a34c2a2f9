#!/usr/bin/env bash
# Runs the lines of docs/OPERATING.md, "From an empty machine to the first token", as they stand there, under a systemd
# of its own (tests/own-systemd.sh), tries what the page says of the result, and runs those of backup and restore. Prints a line for each check,
# ends with 0 where all is as wanted, and leaves nothing behind. It takes half a minute, five where packages are slow. Needs
# root, and Debian's packages nginx, curl, openssl and python3.
. "$(dirname "$0")/lib.sh"
if [ "$1" != inside ]; then
    make_room
    tests/own-systemd.sh try-install.sh "$room"
    exit
fi
install_by_page
echo

# check NAME WANTED GOT: is this text what it should be? WANTED is a pattern of the shell.
check() {
    tried=$((tried + 1))
    case $3 in
        $2) echo "ok $1: $3" ;;
        *) differs "$1: $3, wanted: $2" ;;
    esac
}
web() { curl -s --cacert /etc/ssl/certs/auth.example.pem --max-time 20 "$@"; }
status() { web -o /dev/null -w '%{http_code}' "$@"; }
auth=https://auth.example
bot=bot:$(registered '["clients"][1]["secret"]')
ann=$(registered '["owners"][0]')
token() { web -u "$bot" -d grant_type=client_credentials $auth/token; }
opened() { awaits 10 test -e /run/oauthd/open || differs 'never opened'; }
request="/authorize?response_type=code&client_id=app&redirect_uri=https://app.example/cb&scope=read&state=a%26b"
request="$request&code_challenge=E9Melhoa2OwvFrEMTJguCHaoeK1t8URWbuGJSstw-cM&code_challenge_method=S256"

# The unit
process=$(systemctl show -p MainPID --value oauthd)
check user oauthd "$(stat -c %U /proc/"$process")"
check privileges '0000000000000000 1' "$(awk '/^CapEff|^NoNewPrivs/{print $2}' /proc/"$process"/status | xargs)"
check files-it-may-write '/run/oauthd/open /var/lib/oauthd/state /var/lib/oauthd/state.lock' "$(nsenter -t "$process" -m -- setpriv --reuid oauthd --regid oauthd --clear-groups \
    find /etc /run /srv /usr/local /var -maxdepth 3 -writable -type f 2>/dev/null | sort | head -n 3 | xargs)"
check others-read-no-registry 'cat: *Permission denied' "$(setpriv --reuid nobody --regid nogroup --clear-groups \
    cat /etc/oauthd/registry.json 2>&1)"
check login-reads-no-registry 'cat: *Permission denied' "$(setpriv --reuid oauthd-login --regid oauthd-login --clear-groups \
    cat /etc/oauthd/registry.json 2>&1)"
check exposure '0.* SAFE*' "$(systemd-analyze security oauthd --no-pager | sed -n 's/.*oauthd.service: //p')"

# TLS, and what the outside gets
for version in 1.0 1.1; do
    check "tls-$version" '*alert protocol version' "$(web -S --tls-max $version --ciphers DEFAULT:@SECLEVEL=0 $auth/ 2>&1)"
done
for version in 1.2 1.3; do check "tls-$version" 404 "$(status --tlsv$version --tls-max $version $auth/)"; done
check hsts '*trict-*ransport-*ecurity: max-age=31536000*' "$(web -si $auth/token | grep -i strict | tr -d '\r')"
check port-80 000 "$(status http://auth.example/)"
check metadata 'https://auth.example/token S256' "$(web $auth/.well-known/oauth-authorization-server | python3 -c \
    'import json, sys; m = json.load(sys.stdin); print(m["token_endpoint"], *m["code_challenge_methods_supported"])')"
for path in /hooks /hooks/list /reload /consent /owner /login/owner /%6fwner //owner /authorize/../owner; do
    check "outside$path" 404 "$(status --path-as-is -H "X-Operator-Key: $(cut -d' ' -f2 /etc/oauthd/operator)" -H "X-Owner-Key: $ann" "$auth$path")"
done
check not-logged-in "302 /login?back=$request" "$(web -o /dev/null -w '%{http_code} %header{location}' "$auth$request")"
check key-from-outside "302 /login?back=*" "$(web -H "X-Owner-Key: $ann" -o /dev/null -w '%{http_code} %header{location}' "$auth$request")"

# The login: passwords of its own
login_page() { web -c /run/cookies $auth/login | sed -n 's/.*name="token" value="\([0-9a-f]*\)".*/\1/p' | head -n 1; }
signed_in() { status -b /run/cookies -d do=enter -d "user=$1" --data-urlencode "password=$2" -d "token=$(login_page)" $auth/login; }
check password-of-the-example 403 "$(signed_in ann ann-password)"
check password-of-ann 303 "$(signed_in ann "$(password_of ann)")"
check password-of-bob 303 "$(signed_in bob "$(password_of bob)")"
begins() { rm -f /run/cookies; status "$auth$request"; signed_in "$1" "$2"; }
check office '40 302303' "$(for _ in $(seq 40); do begins bob "$(password_of bob)"; echo; done | sort | uniq -c | xargs)"
check guesses '[19]* 403 [23] 429' "$(for _ in $(seq 12); do signed_in ann guessed; echo; done | sort | uniq -c | xargs)"
check guesses-of-another-one 303 "$(signed_in bob "$(password_of bob)")"
check passwords-are-root-s '600 root' "$(stat -c '%a %U' /root/oauthd-passwords)"

# 60 users sign in at once, from an address of their own: the login keeps far below its MemoryMax
python3 - <<'PY'
import json
path = "/etc/oauthd-login/login.json"
config = json.load(open(path))
for number in range(60): config["users"][f"user{number}"] = {"password": config["users"]["bob"]["password"]}
json.dump(config, open(path, "w"))
PY
cat >/run/rush.py <<'PY'
import collections, http.client, re, ssl, sys, threading, urllib.parse
context = ssl.create_default_context(cafile="/etc/ssl/certs/auth.example.pem")
seen = collections.Counter()
begin = threading.Barrier(60)
def enter(number):
    connection = http.client.HTTPSConnection("auth.example", context=context, source_address=("127.0.0.4", 0))
    connection.request("GET", "/login")
    reply = connection.getresponse()
    token = re.search('name="token" value="([0-9a-f]*)"', reply.read().decode())[1]
    cookie = reply.getheader("Set-Cookie").split(";")[0]
    form = {"do": "enter", "user": f"user{number}", "password": sys.argv[1], "token": token}
    begin.wait()
    connection.request("POST", "/login", urllib.parse.urlencode(form), {"Cookie": cookie, "Content-Type": "application/x-www-form-urlencoded"})
    seen[connection.getresponse().status] += 1
threads = [threading.Thread(target=enter, args=(number,)) for number in range(60)]
for thread in threads: thread.start()
for thread in threads: thread.join()
print(*(f"{seen[status]} times {status}" for status in sorted(seen)))
PY
systemctl restart oauthd-login
awaits 10 takes_connections 9000
check 60-sign-in '60 times 303' "$(python3 /run/rush.py "$(password_of bob)")"
check memory-of-the-login 'below 128 MB' "$(awk '/^VmHWM/ { print ($2 < 131072 ? "below 128 MB" : $2) }' \
    /proc/"$(systemctl show -p MainPID --value oauthd-login)"/status)"

# Many connections at once: each is answered
cat >/run/many.py <<'PY'
import base64, collections, http.client, ssl, sys, threading
context = ssl.create_default_context(cafile="/etc/ssl/certs/auth.example.pem")
headers = {"Authorization": "Basic " + base64.b64encode(sys.argv[1].encode()).decode(),
           "Content-Type": "application/x-www-form-urlencoded"}
seen = collections.Counter()
begin = threading.Barrier(80)
def ask():
    connection = http.client.HTTPSConnection("auth.example", context=context)
    connection.connect()
    begin.wait()
    for _ in range(20):
        connection.request("POST", "/introspect", "token=none", headers)
        reply = connection.getresponse()
        reply.read()
        seen[reply.status] += 1
threads = [threading.Thread(target=ask) for _ in range(80)]
for thread in threads: thread.start()
for thread in threads: thread.join()
print(*(f"{seen[status]} times {status}" for status in sorted(seen)))
PY
check 80-connections '1600 times 200' "$(python3 /run/many.py "$bot")"

# Who asks without end
asked_often() { for _ in $(seq 150); do printf 'url=%s/token\noutput=/dev/null\n' $auth; done |
    web -Z --parallel-max 30 -K - "$@" -d grant_type=client_credentials -w '%{http_code}\n' 2>/dev/null | sort | uniq -c | xargs; }
check rate-of-a-client '* 401 * 429' "$(asked_often -u bot:wrong)"
check rate-of-another-one 200 "$(status -u "$bot" -d grant_type=client_credentials $auth/token)"
check rate-of-an-address '* 401 * 429' "$(asked_often --interface 127.0.0.3 -d client_id=bot -d client_secret=wrong)"
check introspection-from-elsewhere 403 "$(status --interface 127.0.0.3 -u "$bot" -d token=none $auth/introspect)"

# A reload: another registry in the same process. One that is refused changes nothing
with_registry() { python3 -c "import json; path = '/etc/oauthd/registry.json'; r = json.load(open(path)); $1; json.dump(r, open(path, 'w'))"; }
process=$(systemctl show -p MainPID --value oauthd)
with_registry "r['clients'].append(dict(r['clients'][1], id='late'))"
check unknown-client 401 "$(status -u "late:${bot#bot:}" -d grant_type=client_credentials $auth/token)"
check reload 0 "$(systemctl reload oauthd; echo $?)"
check known-client 200 "$(status -u "late:${bot#bot:}" -d grant_type=client_credentials $auth/token)"
with_registry "r['clients'][0]['scope'] = 'nothing'"
check reload-of-a-fault 1 "$(systemctl reload oauthd 2>/dev/null; echo $?)"
check its-fault 1 "$(journalctl --no-pager -o cat -u oauthd | grep -c '"at":"clients\[0\].scope","detail":"BadScope"')"
check same-process "$process 200" "$(systemctl show -p MainPID --value oauthd) $(status -u "late:${bot#bot:}" -d grant_type=client_credentials $auth/token)"
with_registry "r['clients'][0]['scope'] = 'read write'"
check reload-of-a-right-one 0 "$(systemctl reload oauthd; echo $?)"

# A restart forgets nothing, and nothing is let through before the hooks are there
hooks() { curl -s -H @/etc/oauthd/operator http://127.0.0.1:8080/hooks/list; }
check hooks '{"hooks":\["capped"\]}' "$(hooks)"
before=$(token | python3 -c 'import json, sys; print(json.load(sys.stdin)["access_token"])')
check before-a-restart '{"active":true*' "$(web -u "$bot" -d "token=$before" $auth/introspect)"
systemctl kill -s KILL oauthd
check just-killed '50[23]' "$(status -u "$bot" -d "token=$before" $auth/introspect)"
opened
check hooks-after-it '{"hooks":\["capped"\]}' "$(hooks)"
check after-a-restart '{"active":true*' "$(web -u "$bot" -d "token=$before" $auth/introspect)"
install -m 755 crates/oauthd/out/oauthd /usr/local/bin/oauthd
systemctl restart oauthd
check another-version 200 "$(status -u "$bot" -d grant_type=client_credentials $auth/token)"
systemctl stop oauthd
check stopped 503 "$(status -u "$bot" -d grant_type=client_credentials $auth/token)"

# Backup and restore, by the lines of the page: what was done since is undone
systemctl start oauthd
opened
lines_of 'Daily work' >/run/daily
kept=$(token | python3 -c 'import json, sys; print(json.load(sys.stdin)["access_token"])')
bash -e <(sed '/^systemctl stop/,$d' /run/daily)
web -u "$bot" -d "token=$kept" $auth/revoke
check revoked-after-the-backup '{"active":false}' "$(web -u "$bot" -d "token=$kept" $auth/introspect)"
bash -e <(sed -n '/^systemctl stop/,$p' /run/daily)
check restored '{"active":true*' "$(web -u "$bot" -d "token=$kept" $auth/introspect)"
check backup-is-root-s '600 root' "$(stat -c '%a %U' /var/backups/oauthd/state)"

# The folder of hooks: another file takes the place of a hook, a hook without a file is named, a refused one keeps nginx closed
said() { journalctl --no-pager -o cat -u oauthd | grep -cF -- "$1"; }
is_said() { [ "$(said "$1")" -gt 0 ]; }
install_hook() { printf "$1" | install -m 640 -g oauthd /dev/stdin "/etc/oauthd/hooks/$2"; }
deny='\xb7\0\0\0\0\0\0\0\x95\0\0\0\0\0\0\0'
mv /etc/oauthd/hooks/10.capped.bin /run/capped
install_hook "$deny" 10.capped.bin
systemctl restart oauthd
check another-file '{"error":"unauthorized_client"}' "$(token)"
mv /etc/oauthd/hooks/10.capped.bin /etc/oauthd/hooks/20.denied.bin
install -m 640 -g oauthd /run/capped /etc/oauthd/hooks/30.capped.bin
systemctl restart oauthd
check order-of-the-files '{"hooks":\["denied","capped"\]}' "$(hooks)"
rm /etc/oauthd/hooks/20.denied.bin
systemctl restart oauthd
check hook-without-a-file '1 {"hooks":\["denied","capped"\]}' "$(said 'the hook denied has no file') $(hooks)"
curl -s -o /dev/null -H @/etc/oauthd/operator -d name=denied http://127.0.0.1:8080/hooks/remove
install_hook 'no hook at all' 10.faulty.bin
systemctl restart oauthd 2>/dev/null
check refused-hook 503 "$(status -u "$bot" -d grant_type=client_credentials $auth/token)"
awaits 40 is_said 'the hook of /etc/oauthd/hooks/10.faulty.bin is refused'
check refused-hook-is-named '[1-9]*' "$(said 'the hook of /etc/oauthd/hooks/10.faulty.bin is refused')"
rm /etc/oauthd/hooks/10.faulty.bin
install_hook "$deny" 10.denied.hex
systemctl restart oauthd 2>/dev/null
awaits 40 is_said 'hooks/10.denied.hex is refused'
check file-that-is-no-bin '[1-9]* 503' "$(said 'hooks/10.denied.hex is refused') $(status -u "$bot" -d grant_type=client_credentials $auth/token)"
rm /etc/oauthd/hooks/10.denied.hex
check starts-without-end 0 "$(systemctl show -P StartLimitIntervalUSec oauthd)"
systemctl restart oauthd
check started-again '{"hooks":\["capped"\]}' "$(hooks)"
systemctl stop oauthd

# The state file: one that is gone is not made anew, one of another group is refused, and each is named
state=/var/lib/oauthd/state
not_started() {
    systemctl start oauthd 2>/dev/null
    awaits 40 is_said "$1" || differs 'never said'
    systemctl stop oauthd
}
mv $state /run/state
not_started "State Missing: $state"
check no-state-file '[1-9]* 0' "$(said "State Missing: $state") $(find $state 2>/dev/null | wc -l)"
mv /run/state $state
chgrp root $state
not_started "State Device: permission denied: $state"
check state-file-of-another-group '[1-9]* root' "$(said "State Device: permission denied: $state") $(stat -c %G $state)"
chgrp oauthd $state
systemctl start oauthd
check started-on-its-own '{"hooks":\["capped"\]}' "$(hooks)"
check state-file-s-owner '600 oauthd oauthd' "$(stat -c '%a %U %G' $state)"

# A full store: a browser is shown a page
cat >/run/fill.py <<'PY'
import base64, socket, sys
body = "grant_type=client_credentials"
request = ("POST /token HTTP/1.1\r\nHost: a\r\nContent-Type: application/x-www-form-urlencoded\r\n"
           f"Authorization: Basic {base64.b64encode(sys.argv[1].encode()).decode()}\r\nContent-Length: {len(body)}\r\n\r\n{body}")
with socket.create_connection(("127.0.0.1", 8080)) as connection:
    replies = connection.makefile("rb")
    for _ in range(1200):
        connection.sendall(request.encode() * 60)
        for _ in range(60):
            status, length = replies.readline().split()[1], 0
            while (line := replies.readline()) != b"\r\n":
                if line.lower().startswith(b"content-length:"): length = int(line.split(b":")[1])
            replies.read(length)
            if status == b"503": sys.exit("full")
PY
check filled full "$(python3 /run/fill.py "$bot" 2>&1)"
rm -f /run/cookies
form=$(login_page)
status -b /run/cookies -c /run/cookies -d do=enter -d user=bob --data-urlencode "password=$(password_of bob)" -d "token=$form" $auth/login >/dev/null
form=$(web -b /run/cookies "$auth/login?back=$request" | sed -n 's/.*name="token" value="\([0-9a-f]*\)".*/\1/p' | head -n 1)
check allowed 303 "$(status -b /run/cookies -d do=allow --data-urlencode "back=$request" -d "token=$form" $auth/login)"
check full-for-a-browser '503 text/html*<h1>Not now</h1>*' "$(web -b /run/cookies -w '%{http_code} %{content_type} ' -o /run/page "$auth$request"; cat /run/page)"
check full-for-a-client '503 ' "$(web -u "$bot" -d grant_type=client_credentials -w '%{http_code} ' $auth/token)"
systemctl stop oauthd

# Signals, and line feeds within a header's value: to the server itself, and through nginx
cat >/run/signals.py <<'PY'
import signal, socket, ssl, subprocess, sys
command = ["/usr/local/bin/oauthd", "start", "127.0.0.1:8080", "/etc/oauthd/registry.json"]
def server():
    begun = subprocess.Popen(command, stdout=subprocess.PIPE)
    begun.stdout.readline()
    return begun
def asked(stream, path, host, body):
    head = f"{path} HTTP/1.1\r\nHost: {host}\r\nX-Note: a\nX-Owner-Key: {sys.argv[1]}\r\nContent-Length: {len(body)}\r\n\r\n"
    stream.sendall((head + body).encode())
    return stream.recv(4096).decode()
for name in "TERM", "INT", "HUP", "USR1", "USR2":
    begun = server()
    begun.send_signal(signal.Signals["SIG" + name])
    try:
        print(f"SIG{name}: {-begun.wait(5) == signal.Signals['SIG' + name]}")
    except subprocess.TimeoutExpired:
        print(f"SIG{name}: goes on")
        begun.kill()
begun = server()
with socket.create_connection(("127.0.0.1", 8080)) as stream:
    print("line-feed:", asked(stream, "POST /consent", "a", "client_id=app&scope=read").split("\r\n\r\n")[-1])
open("/run/oauthd/open", "w").close()
context = ssl.create_default_context(cafile="/etc/ssl/certs/auth.example.pem")
with context.wrap_socket(socket.create_connection(("auth.example", 443)), server_hostname="auth.example") as stream:
    print("line-feed-through-nginx:", [line for line in asked(stream, "GET " + sys.argv[2], "auth.example", "").split("\r\n")
                                       if line.startswith("Location")][0][:23])
begun.kill()
PY
mkdir /run/oauthd
while IFS=': ' read -r name got; do
    case $name in
        SIG*) check "$name-ends-it" True "$got" ;;
        line-feed) check line-feed-makes-a-header '{"scope":"read"}' "$got" ;;
        *) check "$name" 'Location: /login?back=*' "$got" ;;
    esac
done < <(python3 /run/signals.py "$ann" "$request" 2>&1)

# No secret in a log
secrets=$(python3 - <<'PY'
import json
registry = json.load(open("/etc/oauthd/registry.json"))
print("\n".join([registry["operator"], *registry["owners"], *(client["secret"] for client in registry["clients"])]))
PY
cut -d ' ' -f 2 /root/oauthd-passwords)
check secrets-in-logs 0 "$( (journalctl --no-pager; cat /var/log/nginx/*) | grep -cF -e "$secrets")"
[ "$tried" = 79 ] || differs 'wanted 79 checks'
end_with checks
