#!/usr/bin/env bash
# Tries what people write clients with against a server behind nginx with TLS: a code with PKCE, a refresh, client
# credentials, introspection and revocation, each with a secret of base64url characters and with one that has `%` and `+`
# in it. Starts all it needs on ports of its own, in a folder of its own, prints a line for each way of each client, says
# what is not installed, and ends with 0 where all is as wanted. Words name the clients to try; without words all are. The
# variable PYTHON names another python3 for the libraries of Python. It takes half a minute of one processor.
. "$(dirname "$0")/lib.sh"
here=$root/examples/clients
wanted=" ${*:-curl requests-oauthlib authlib go perl ruby fetch openidc oauth2 hook raw} "
for tool in curl nginx openssl python3; do needs $tool; done
make_room
chmod 711 "$room"
missing=0

# lacks CLIENT PACKAGE..: a client that is not tried, and what to install for it
lacks() {
    missing=$((missing + 1))
    echo "not installed: $1 (apt-get install ${*:2})"
}

# is_wanted CLIENT: whether the client is to be tried
is_wanted() {
    [[ $wanted == *" $1 "* ]]
}

# placed FILE: the file, with the folder and the ports of this run
placed() {
    sed -e "s|ROOM|$room|g; s|SERVER|$at|g; s|TLS_PORT|$tls_port|g; s|LOGIN_PORT|$login_port|g" \
        -e "s|HTTPD_PORT|$httpd_port|g" "$1"
}

# the server, nginx in front of it, and a certificate for nginx
start 127.0.0.1:0 "$here/registry.json"
read -r tls_port login_port httpd_port < <(python3 -c '
import socket
held = [socket.socket() for _ in range(3)]
for each in held: each.bind(("127.0.0.1", 0))
print(*(each.getsockname()[1] for each in held))')
openssl req -x509 -newkey rsa:2048 -nodes -days 2 -subj /CN=localhost -addext subjectAltName=DNS:localhost,IP:127.0.0.1 \
    -keyout "$room/key.pem" -out "$room/cert.pem" 2>/dev/null || { echo 'openssl made no certificate'; exit 1; }
placed "$here/nginx.conf" >"$room/nginx.conf"
nginx -c "$room/nginx.conf" -e "$room/nginx.log" 2>"$room/nginx.err" &
awaits 10 takes_connections "$tls_port" || { echo "no nginx: $(cat "$room/nginx.err" "$room/nginx.log")"; exit 1; }
export AUTH=https://localhost:$tls_port CA=$room/cert.pem
# where each kind of client looks for certificates
export CURL_CA_BUNDLE=$CA REQUESTS_CA_BUNDLE=$CA SSL_CERT_FILE=$CA PERL_LWP_SSL_CA_FILE=$CA HTTPS_CA_FILE=$CA NODE_EXTRA_CA_CERTS=$CA

# the owner consents to what both clients may have
for id in plain signs; do
    curl -sS -o /dev/null -w '' -H 'X-Owner-Key: ann-key' -d client_id=$id -d 'scope=read write' "http://$at/consent" ||
        differs 'no consent'
done

plain=(plain mB3_xTqf0W-uY7hRkV9sN2cJzLp5aGdE8oHiQ4wKt1s)
signs=(signs '50%+tax%2Bmore/and=so:on&x')
all='code ok, refresh ok, credentials ok, introspect ok, revoke ok'
none='code 401 invalid_client, refresh 401 invalid_client, credentials 401 invalid_client, introspect 401 invalid_client, revoke 401 invalid_client'

# goes NAME WAY PLAIN SIGNS COMMAND..: runs the command with the way and with each of the two clients, and compares what
# came of the five requests
goes() {
    local name=$1 way=$2 client outcome wants
    for client in plain signs; do
        [ $client = plain ] && wants=$3 || wants=$4
        declare -n words=$client
        outcome=$(timeout 60 "${@:5}" "$way" "${words[@]}" 2>"$room/err")
        outcome=${outcome//$'\n'/, }
        tried=$((tried + 1))
        case $outcome in
            "$all") printf '%s, %s, secret of %s: all five\n' "$name" "$way" "$client" ;;
            "$none") printf '%s, %s, secret of %s: 401 invalid_client\n' "$name" "$way" "$client" ;;
            *) printf '%s, %s, secret of %s: %s\n' "$name" "$way" "$client" "$outcome" ;;
        esac
        if [ "$outcome" != "$wants" ]; then
            differs "wanted $wants"
            tail -n 3 "$room/err"
        fi
    done
}

# goes_once NAME WANTED COMMAND..: the same with the client plain alone
goes_once() {
    local outcome
    outcome=$(timeout 60 "${@:3}" "${plain[@]}" 2>"$room/err")
    outcome=${outcome//$'\n'/, }
    tried=$((tried + 1))
    printf '%s: %s\n' "$1" "${outcome/#"$all"/all five}"
    if [ "$outcome" != "$2" ]; then
        differs "wanted $2"
        tail -n 3 "$room/err"
    fi
}

if is_wanted curl; then
    curl --version | head -n 1 | cut -d ' ' -f 1,2
    goes curl -u "$all" "$none" bash "$here/curl.sh"
    goes curl -u-encoded "$all" "$all" bash "$here/curl.sh"
    goes curl --data-urlencode "$all" "$all" bash "$here/curl.sh"
fi

# python_with MODULE: the first python3 that has the module
python_with() {
    local each
    for each in ${PYTHON:-python3 /usr/bin/python3}; do
        "$each" -c "import $1" 2>/dev/null && { echo "$each"; return 0; }
    done
    return 1
}

if is_wanted requests-oauthlib; then
    if python=$(python_with requests_oauthlib); then
        "$python" -c 'import oauthlib, requests, requests_oauthlib
print("requests-oauthlib", requests_oauthlib.__version__, "on oauthlib", oauthlib.__version__, "and requests", requests.__version__)'
        goes requests-oauthlib basic "$all" "$none" "$python" "$here/requests_oauthlib_client.py"
        goes requests-oauthlib basic-encoded "$all" "$all" "$python" "$here/requests_oauthlib_client.py"
        goes requests-oauthlib parameters "$all" "$all" "$python" "$here/requests_oauthlib_client.py"
    else
        lacks requests-oauthlib python3-requests-oauthlib
    fi
fi

if is_wanted authlib; then
    if python=$(python_with authlib); then
        "$python" -c 'import authlib; print("Authlib", authlib.__version__)'
        goes Authlib client_secret_basic "$all" "$none" "$python" "$here/authlib_client.py"
        goes Authlib client_secret_basic-encoded "$all" "$all" "$python" "$here/authlib_client.py"
        goes Authlib client_secret_post "$all" "$all" "$python" "$here/authlib_client.py"
    else
        lacks Authlib python3-authlib
    fi
fi

if is_wanted go; then
    sources=/usr/share/gocode/src/golang.org/x/oauth2
    if command -v go >/dev/null && [ -d $sources ]; then
        echo "$(go version | cut -d ' ' -f 3), golang.org/x/oauth2 $(dpkg-query -W -f '${Version}' golang-golang-x-oauth2-dev)"
        if GO111MODULE=off GOPATH=/usr/share/gocode GOCACHE=$room/go-cache GOFLAGS=-p=1 \
            go build -o "$room/go-client" "$here/go_client.go" 2>"$room/err"; then
            goes Go in-header "$all" "$all" "$room/go-client"
            goes Go in-params "$all" "$all" "$room/go-client"
            goes Go auto-detect "$all" "$all" "$room/go-client"
        else
            differs "Go built nothing: $(cat "$room/err")"
        fi
    else
        lacks golang.org/x/oauth2 golang-go golang-golang-x-oauth2-dev
    fi
fi

if is_wanted perl; then
    if perl -MNet::OAuth2 -MLWP::Protocol::https -e '' 2>/dev/null; then
        perl -MNet::OAuth2 -e 'print "Net::OAuth2 $Net::OAuth2::VERSION\n"'
        goes Net::OAuth2 parameters "$all" "$all" perl "$here/perl_client.pl"
        goes Net::OAuth2 header "$all" "$none" perl "$here/perl_client.pl"
        goes Net::OAuth2 header-encoded "$all" "$all" perl "$here/perl_client.pl"
    else
        lacks Net::OAuth2 libnet-oauth2-perl liblwp-protocol-https-perl
    fi
fi

if is_wanted ruby; then
    if command -v ruby >/dev/null && ruby -e 'require "oauth2"' 2>/dev/null; then
        ruby -e 'require "oauth2"; require "oauth2/version"; puts "the gem oauth2 #{OAuth2::Version}"'
        goes 'gem oauth2' request_body "$all" "$all" ruby "$here/ruby_client.rb"
        goes 'gem oauth2' basic_auth "$all" "$none" ruby "$here/ruby_client.rb"
        goes 'gem oauth2' basic_auth-encoded "$all" "$all" ruby "$here/ruby_client.rb"
    else
        lacks 'the gem oauth2' ruby-oauth2
    fi
fi

if is_wanted fetch; then
    if command -v node >/dev/null; then
        echo "Node $(node --version)"
        goes fetch basic "$all" "$none" node "$here/fetch_client.mjs"
        goes fetch basic-encoded "$all" "$all" node "$here/fetch_client.mjs"
        goes fetch parameters "$all" "$all" node "$here/fetch_client.mjs"
    else
        lacks Node nodejs
    fi
fi

# asks NAME WAY WANTED LINES: Apache with the lines of one module lets a request with an access token through, and none
# with another one; WANTED is the two statuses, and the one that comes after the token was revoked
asks() {
    local httpd token statuses=()
    printf '%s\n' "$4" >"$room/asking.conf"
    placed "$here/httpd.conf" >"$room/httpd.conf"
    apache2 -f "$room/httpd.conf" -DFOREGROUND 2>"$room/err" &
    httpd=$!
    tried=$((tried + 1))
    if awaits 10 takes_connections "$httpd_port"; then
        token=$(curl -sS -u "${plain[0]}:${plain[1]}" -d grant_type=client_credentials "$AUTH/token" |
            sed -nE 's/.*"access_token":"([^"]*)".*/\1/p')
        statuses+=("$(shown_page "$token")" "$(shown_page none)")
        curl -sS -u "${plain[0]}:${plain[1]}" -d "token=$token" "$AUTH/revoke"
        statuses+=("$(shown_page "$token")")
    else
        statuses+=("no Apache: $(cat "$room/err")")
    fi
    echo "$1, $2: ${statuses[*]}"
    [ "${statuses[*]}" = "$3" ] || { differs "wanted $3"; tail -n 5 "$room/httpd.log"; }
    kill $httpd 2>/dev/null
    wait $httpd 2>/dev/null
}

# shown_page TOKEN: the status that a request for a page with the token gets
shown_page() {
    curl -sS --max-time 20 -o /dev/null -w '%{http_code}' -H "Authorization: Bearer $1" "http://127.0.0.1:$httpd_port/page.txt"
}

mkdir "$room/pages"
echo 'a page' >"$room/pages/page.txt"
modules=/usr/lib/apache2/modules
encoded_signs=$(python3 -c 'import sys, urllib.parse; print(urllib.parse.quote_plus(sys.argv[1]))' "${signs[1]}")

# openidc WAY CLIENT SECRET: the lines of mod_auth_openidc that ask of a token in the way, as the client
openidc() {
    echo "LoadModule auth_openidc_module $modules/mod_auth_openidc.so
OIDCOAuthIntrospectionEndpoint $AUTH/introspect
OIDCOAuthIntrospectionEndpointAuth $1
OIDCOAuthClientID $2
OIDCOAuthClientSecret \"$3\"
OIDCOAuthRemoteUserClaim client_id
OIDCOAuthTokenIntrospectionInterval ${4:--1}
OIDCOAuthAcceptTokenAs header
OIDCCABundlePath $CA
<Location />
    AuthType oauth20
    Require valid-user
</Location>"
}

if is_wanted openidc; then
    if command -v apache2 >/dev/null && [ -e $modules/mod_auth_openidc.so ]; then
        echo "mod_auth_openidc $(dpkg-query -W -f '${Version}' libapache2-mod-auth-openidc)"
        asks mod_auth_openidc 'client_secret_basic, secret of plain' '200 401 401' "$(openidc client_secret_basic "${plain[@]}")"
        asks mod_auth_openidc 'client_secret_basic, secret of signs' '200 401 401' "$(openidc client_secret_basic "${signs[@]}")"
        asks mod_auth_openidc 'client_secret_post, secret of signs' '200 401 401' "$(openidc client_secret_post "${signs[@]}")"
        asks mod_auth_openidc 'client_secret_post, what it was told is kept' '200 401 200' \
            "$(openidc client_secret_post "${signs[@]}" 0)"
    else
        lacks mod_auth_openidc libapache2-mod-auth-openidc apache2-bin
    fi
fi

# oauth2 WAY CLIENT SECRET: the same of mod_oauth2, whose words are form-encoded
oauth2() {
    echo "LoadModule oauth2_module $modules/mod_oauth2.so
<Location />
    AuthType oauth2
    OAuth2TokenVerify introspect $AUTH/introspect introspect.ssl_verify=false&introspect.auth=$1&client_id=$2&client_secret=$3&expiry=${4:-0}
    OAuth2TargetPass remote_user_claim=client_id
    Require valid-user
</Location>"
}

if is_wanted oauth2; then
    if command -v apache2 >/dev/null && [ -e $modules/mod_oauth2.so ]; then
        echo "mod_oauth2 $(dpkg-query -W -f '${Version}' libapache2-mod-oauth2) on liboauth2 $(dpkg-query -W -f '${Version}' liboauth2-0)"
        asks mod_oauth2 'client_secret_basic, secret of plain' '200 401 401' "$(oauth2 client_secret_basic "${plain[@]}")"
        asks mod_oauth2 'client_secret_basic, secret of signs' '200 401 401' "$(oauth2 client_secret_basic signs "$encoded_signs")"
        asks mod_oauth2 'client_secret_post, secret of signs' '200 401 401' "$(oauth2 client_secret_post signs "$encoded_signs")"
        asks mod_oauth2 'client_secret_post, what it was told is kept' '200 401 200' \
            "$(oauth2 client_secret_post signs "$encoded_signs" 300)"
    else
        lacks mod_oauth2 libapache2-mod-oauth2 apache2-bin
    fi
fi

# a hook that leaves the scope read alone of what this owner grants: what then becomes of clients that asked for more
if is_wanted hook; then
    "$program" asm examples/hooks/read-only-outside-an-owner-list.asm >"$room/hook.hex"
    bytes_of "$room/hook.hex" >"$room/hook.bin"
    curl -sS -o /dev/null -H 'X-Operator-Key: op-key' --data-binary "@$room/hook.bin" "http://$at/hooks?name=listed"
    goes_once 'curl, beside a hook' "$all" bash "$here/curl.sh" -u
    if python=$(python_with requests_oauthlib); then
        goes_once 'requests-oauthlib, beside a hook' \
            'code Warning: the scope has changed, refresh 400 invalid_grant, credentials ok, introspect not active, revoke ok' "$python" "$here/requests_oauthlib_client.py" basic
        OAUTHLIB_RELAX_TOKEN_SCOPE=1 goes_once 'requests-oauthlib with OAUTHLIB_RELAX_TOKEN_SCOPE, beside a hook' "$all" \
            "$python" "$here/requests_oauthlib_client.py" basic
    fi
    if python=$(python_with authlib); then
        goes_once 'Authlib, beside a hook' "$all" "$python" "$here/authlib_client.py" client_secret_basic
    fi
    [ ! -x "$room/go-client" ] || goes_once 'Go, beside a hook' "$all" "$room/go-client" in-header
    curl -sS -o /dev/null -H 'X-Operator-Key: op-key' -d name=listed "http://$at/hooks/remove"
fi

if is_wanted raw; then
    python3 "$here/raw.py" "$at" "${plain[@]}" "$tls_port" 2>"$room/err" | tee "$room/raw"
    tried=$((tried + $(grep -c '^raw, [^,]*, \|^raw, .*: ' "$room/raw")))
    differing=$((differing + $(grep -c '^DIFFERS' "$room/raw")))
    [ ! -s "$room/err" ] || { differs 'raw.py ended early'; cat "$room/err"; }
fi

stop
end_with ways ", $missing clients not installed"
