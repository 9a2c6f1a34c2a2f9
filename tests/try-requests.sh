#!/usr/bin/env bash
# Goes by curl the way of an owner, of two clients and of the operator: a consent, a code, tokens, introspection, a
# refresh, a revocation, and a hook that is installed, seen and removed. It starts a server of its own, prints each
# command and its answer, says which answers are not as docs/HTTP.md has them, and ends with 0 where all are.
# A word names the address to listen on; without one it is 127.0.0.1 and a free port.
. "$(dirname "$0")/lib.sh"
address=${1:-127.0.0.1:0}
needs curl
make_room

# step TEXT: what comes next
step() {
    printf '\n# %s\n' "$1"
}

# shown WORDS..: words as one would type them
shown() {
    local word
    for word; do
        case $word in
            *[!A-Za-z0-9_./:=@%+,-]*) printf " '%s'" "$word" ;;
            *) printf ' %s' "$word" ;;
        esac
    done
}

# wanted_head STATUS LENGTH LOCATION: the head of a reply with that status and so many bytes of JSON
wanted_head() {
    case $1 in
        200) echo 'HTTP/1.1 200 OK' ;;
        302) echo 'HTTP/1.1 302 Found' ;;
        400 | faulty) echo 'HTTP/1.1 400 Bad Request' ;;
        401) echo 'HTTP/1.1 401 Unauthorized' ;;
        403) echo 'HTTP/1.1 403 Forbidden' ;;
        404) echo 'HTTP/1.1 404 Not Found' ;;
        405) echo 'HTTP/1.1 405 Method Not Allowed' ;;
    esac
    [ "$2" = 0 ] || echo 'Content-Type: application/json'
    case $1 in
        404 | 405 | faulty) ;;
        *) printf 'Cache-Control: no-store\nPragma: no-cache\n' ;;
    esac
    [ -z "$3" ] || echo "Location: $3"
    [ "$1" != 401 ] || echo 'WWW-Authenticate: Basic realm="oauthd"'
    echo "Content-Length: $2"
    [ "$1" != faulty ] || echo 'Connection: close'
}

# answers STATUS WANTED WORDS..: makes a request by curl, and compares its whole answer. WANTED is the body, or where a
# redirect leads; TOKEN stands for a code or a token, N for a number of seconds. The status faulty is that of a faulty head.
answers() {
    local status=$1 wanted=$2 location=
    shift 2
    tried=$((tried + 1))
    printf '$ curl -i'
    shown "$@"
    echo
    : >"$room/head" >"$room/body"
    (cd "$room" && curl -sS --max-time 20 -D head -o body "$@") || differs "curl ended with $?"
    tr -d '\r' <"$room/head" | sed '/^$/d' >"$room/given"
    cat "$room/given"
    head=$(cat "$room/given")
    body=$(cat "$room/body")
    [ -z "$body" ] || printf '\n%s\n' "$body"
    if [ "$status" = 302 ]; then
        location=$(sed -n 's/^Location: //p' "$room/given")
        [ "$(plain "$location")" = "$wanted" ] || differs "wanted it to lead to $wanted"
        [ -z "$body" ] || differs 'wanted no body'
    else
        [ "$(plain "$body")" = "$wanted" ] || differs "wanted the body $wanted"
    fi
    wanted_head "$status" "$(stat -c %s "$room/body")" "$location" >"$room/wanted"
    if ! cmp -s "$room/wanted" "$room/given"; then
        differs 'wanted the head'
        cat "$room/wanted"
    fi
}

# plain TEXT: the text, with TOKEN for each code and token, and N for each moment
plain() {
    sed -E 's/"[A-Za-z0-9_-]{43}"/"TOKEN"/g; s/code=[A-Za-z0-9_-]{43}/code=TOKEN/; s/"(exp|iat)":[0-9]+/"\1":N/g' <<<"$1"
}

# member NAME: a member of the last body; code: the code that the last redirect has
member() {
    sed -nE 's/.*"'"$1"'":"?([^",}]*)"?[,}].*/\1/p' <<<"$body"
}
code() {
    sed -nE 's/^Location: .*[?&]code=([^&]*).*/\1/p' <<<"$head"
}

# serves OPTIONS..: a server, and where it listens
serves() {
    start "$address" examples/registry.json "$@"
    echo "\$ oauthd start $address examples/registry.json $*"
    echo "listening $at"
}
serves

# what is asked for: the proof key is that of RFC 7636, appendix B
verifier=dBjftJeZ4CVP-mB92K27uhbUJU1p1r_wW1gFWFOEjXk
challenge=E9Melhoa2OwvFrEMTJguCHaoeK1t8URWbuGJSstw-cM
back=https://app.example/cb
asked="response_type=code&client_id=app&redirect_uri=https%3A%2F%2Fapp.example%2Fcb&state=xyz&code_challenge=$challenge&code_challenge_method=S256"
app=(-u app:s3cret)
bot=(-u bot:b0t)
ann=(-H 'X-Owner-Key: ann-key')
bob=(-H 'X-Owner-Key: bob-key')
operator=(-H 'X-Operator-Key: op-key')
tokens='{"access_token":"TOKEN","expires_in":300,"refresh_token":"TOKEN","scope":"%s","token_type":"Bearer"}'
access='{"active":true,"client_id":"app","exp":N,"iat":N,"scope":"%s","token_type":"Bearer"}'
refresh='{"active":true,"client_id":"app","exp":N,"iat":N,"scope":"%s"}'
inactive='{"active":false}'
invalid_grant='{"error":"invalid_grant"}'

# code_for SCOPE OWNER..: a code for the client app
code_for() {
    local scope=$1
    shift
    answers 302 "$back?code=TOKEN&state=xyz" "$@" "http://$at/authorize?$asked&scope=$scope"
}

# redeem SCOPE: tokens for the last code
redeem() {
    answers 200 "$(printf "$tokens" "$1")" "${app[@]}" -d grant_type=authorization_code -d "code=$(code)" \
        -d "redirect_uri=$back" -d "code_verifier=$verifier" "http://$at/token"
    access_token=$(member access_token)
    refresh_token=$(member refresh_token)
}

# introspects WANTED TOKEN: what the client bot is told of a token
introspects() {
    answers 200 "$1" "${bot[@]}" -d "token=$2" "http://$at/introspect"
}

# lives SECONDS: the token that was introspected last lives so long, and was issued since the server started
lives() {
    local issued=$(member iat) ends=$(member exp)
    [ "$((ends - issued))" = "$1" ] || differs "wanted a life of $1 seconds"
    [ "$issued" -ge "$began" ] && [ "$issued" -le "$(date +%s)" ] || differs 'wanted it to be issued just now'
}
began=$(date +%s)

step 'no such path, and no such method'
answers 404 '' "http://$at/"
answers 405 '' "http://$at/token"

step 'an owner who has not consented yet'
answers 302 "$back?error=access_denied&state=xyz" "${ann[@]}" "http://$at/authorize?$asked&scope=read"

step 'she consents'
answers 200 '{"scope":"read write"}' "${ann[@]}" -d client_id=app -d 'scope=read write' "http://$at/consent"
answers 403 '{"error":"access_denied"}' -H 'X-Owner-Key: eve' -d client_id=app -d scope=read "http://$at/consent"

step 'a code, and refusals of one'
answers 302 "$back?error=invalid_request&state=xyz" "${ann[@]}" "http://$at/authorize?${asked%&*}&scope=read"
answers 302 "$back?error=invalid_scope&state=xyz" "${ann[@]}" "http://$at/authorize?$asked&scope=admin"
answers 400 '{"error":"invalid_request"}' "${ann[@]}" "http://$at/authorize?${asked/app.example/evil.example}&scope=read"
code_for read "${ann[@]}"
first=$(code)

step 'the code with a verifier that does not prove the challenge, with a wrong secret, and by another client'
answers 400 "$invalid_grant" "${app[@]}" -d grant_type=authorization_code -d "code=$first" -d "redirect_uri=$back" \
    -d "code_verifier=${verifier%k}l" "http://$at/token"
answers 401 '{"error":"invalid_client"}' -u app:wrong -d grant_type=authorization_code -d "code=$first" \
    -d "redirect_uri=$back" -d "code_verifier=$verifier" "http://$at/token"
answers 400 '{"error":"unauthorized_client"}' "${bot[@]}" -d grant_type=authorization_code -d "code=$first" \
    -d "redirect_uri=$back" -d "code_verifier=$verifier" "http://$at/token"

step 'the code, which is good still'
answers 200 "$(printf "$tokens" read)" "${app[@]}" -d grant_type=authorization_code -d "code=$first" \
    -d "redirect_uri=$back" -d "code_verifier=$verifier" "http://$at/token"
access_token=$(member access_token)
refresh_token=$(member refresh_token)

step 'what a resource server is told of the tokens'
introspects "$(printf "$access" read)" "$access_token"
lives 300
introspects "$(printf "$refresh" read)" "$refresh_token"
lives 86400
introspects "$inactive" "$first"

step 'a refresh: both tokens are new ones, and the old refresh token is used up'
answers 200 "$(printf "$tokens" read)" "${app[@]}" -d grant_type=refresh_token -d "refresh_token=$refresh_token" \
    "http://$at/token"
[ "$(member refresh_token)" != "$refresh_token" ] || differs 'wanted another refresh token'
newer=$(member access_token)
introspects "$(printf "$access" read)" "$newer"
introspects "$inactive" "$refresh_token"

step 'the old refresh token once more: somebody has stolen one of both, and the whole grant ends'
answers 400 "$invalid_grant" "${app[@]}" -d grant_type=refresh_token -d "refresh_token=$refresh_token" "http://$at/token"
introspects "$inactive" "$access_token"
introspects "$inactive" "$newer"

step 'a code twice: the second time its tokens end'
code_for read "${ann[@]}"
second=$(code)
redeem read
answers 400 "$invalid_grant" "${app[@]}" -d grant_type=authorization_code -d "code=$second" -d "redirect_uri=$back" \
    -d "code_verifier=$verifier" "http://$at/token"
introspects "$inactive" "$access_token"

step 'a revocation: by another client it is refused, by its own it ends the grant'
code_for read "${ann[@]}"
redeem read
answers 400 "$invalid_grant" "${bot[@]}" -d "token=$refresh_token" "http://$at/revoke"
introspects "$(printf "$access" read)" "$access_token"
answers 200 '' "${app[@]}" -d "token=$refresh_token" -d token_type_hint=refresh_token "http://$at/revoke"
introspects "$inactive" "$access_token"
answers 200 '' "${app[@]}" -d "token=$refresh_token" "http://$at/revoke"

step 'a client on its own, by Basic credentials and by parameters, and by both'
single='{"access_token":"TOKEN","expires_in":300,"scope":"read","token_type":"Bearer"}'
answers 200 "$single" "${bot[@]}" -d grant_type=client_credentials "http://$at/token"
answers 200 "$single" -d grant_type=client_credentials -d client_id=bot -d client_secret=b0t "http://$at/token"
introspects '{"active":true,"client_id":"bot","exp":N,"iat":N,"scope":"read","token_type":"Bearer"}' "$(member access_token)"
answers 400 '{"error":"invalid_request"}' "${bot[@]}" -d grant_type=client_credentials -d client_secret=b0t "http://$at/token"
answers 400 '{"error":"unsupported_grant_type"}' "${bot[@]}" -d grant_type=password "http://$at/token"

step 'she takes a part of her consent back: what has more than is left ends'
code_for 'read+write' "${ann[@]}"
redeem 'read write'
answers 200 '{"scope":"read"}' "${ann[@]}" -d client_id=app -d scope=read "http://$at/consent"
introspects "$inactive" "$access_token"

step 'a hook that leaves owners who are not listed the first scope alone'
hook=examples/hooks/read-only-outside-an-owner-list.asm
echo "\$ oauthd asm $hook >hook.hex"
"$program" asm "$hook" >"$room/hook.hex" || differs 'wanted the hook to be assembled'
cat "$room/hook.hex"
echo '$ printf "$(sed '"'s/../\\\\x&/g'"' hook.hex)" >hook.bin'
bytes_of "$room/hook.hex" >"$room/hook.bin"
answers 403 '{"error":"access_denied"}' -H 'X-Operator-Key: eve' --data-binary @hook.bin "http://$at/hooks?name=listed"
answers 200 '{"name":"listed"}' "${operator[@]}" --data-binary @hook.bin "http://$at/hooks?name=listed"
answers 400 '{"detail":"NameTaken","error":"hook_refused"}' "${operator[@]}" --data-binary @hook.bin \
    "http://$at/hooks?name=listed"
printf '\x95\0\0\0\0\0\0\0' >"$room/exit.bin"
answers 400 '{"detail":"Verify UnsetRegister(0)","error":"hook_refused"}' "${operator[@]}" --data-binary @exit.bin \
    "http://$at/hooks?name=exit"
answers 200 '{"hooks":["listed"]}' "${operator[@]}" "http://$at/hooks/list"

step 'its effect: owner 1 is listed, and owner 2 is not'
answers 200 '{"scope":"read write"}' "${ann[@]}" -d client_id=app -d 'scope=read write' "http://$at/consent"
answers 200 '{"scope":"read write"}' "${bob[@]}" -d client_id=app -d 'scope=read write' "http://$at/consent"
code_for 'read+write' "${ann[@]}"
redeem 'read write'
code_for 'read+write' "${bob[@]}"
redeem read
introspects "$(printf "$access" read)" "$access_token"

step 'without the hook the next code has both scopes again'
answers 200 '{"name":"listed"}' "${operator[@]}" -d name=listed "http://$at/hooks/remove"
answers 400 '{"detail":"Unknown","error":"hook_refused"}' "${operator[@]}" -d name=listed "http://$at/hooks/remove"
answers 200 '{"hooks":[]}' "${operator[@]}" "http://$at/hooks/list"
code_for 'read+write' "${bob[@]}"
redeem 'read write'

step 'a faulty head'
answers faulty '' -H 'Transfer-Encoding: chunked' "${bot[@]}" -d grant_type=client_credentials "http://$at/token"

step 'one connection for two requests'
tried=$((tried + 1))
connections=$(curl -sS --max-time 20 -o /dev/null -o /dev/null -w '%{num_connects} ' "http://$at/" "http://$at/")
echo "connections made for the first and for the second: $connections"
[ "$connections" = '1 0 ' ] || differs 'wanted the second request to go over the first connection'

step 'a signal ends the server'
stop
echo "ended with $status"
[ "$status" = 143 ] || differs 'wanted it to end by SIGTERM, which a shell calls 143'

step 'a server that has its hooks before the first request'
serves --hook "listed=$room/hook.hex" --silence 30 --hook "again=$room/hook.bin"
answers 200 '{"hooks":["listed","again"]}' "${operator[@]}" "http://$at/hooks/list"
stop

echo
end_with requests
