#!/usr/bin/env bash
# The five requests of a client by curl. Words: a way (-u, -u-encoded, --data-urlencode), a client's identifier and its
# secret. The variable AUTH has the server's address. Prints a line for each request: `ok`, or the status and the error.
way=$1
identifier=$2
secret=$3
back=https://app.example/cb
room=$(mktemp -d) || exit 2
trap 'rm -rf "$room"' EXIT

# encoded TEXT: the text, form-encoded (RFC 6749, appendix B), for a Basic header
encoded() {
    python3 -c 'import sys, urllib.parse; print(urllib.parse.quote_plus(sys.argv[1]))' "$1"
}

case $way in
    -u) client=(-u "$identifier:$secret") ;;
    -u-encoded) client=(-u "$identifier:$(encoded "$secret")") ;;
    --data-urlencode) client=(-d "client_id=$identifier" --data-urlencode "client_secret=$secret") ;;
esac

# post PATH WORDS..: makes a request as the client
post() {
    status=$(curl -sS --max-time 20 -o "$room/body" -w '%{http_code}' "${client[@]}" "${@:2}" "$AUTH$1")
    body=$(cat "$room/body")
}

# member NAME: a member of the last body
member() {
    sed -nE 's/.*"'"$1"'":"?([^",}]*)"?[,}].*/\1/p' <<<"$body"
}

# tell NAME STATUS BODY: what came of a request, where a reply with that status and a body like that is wanted
tell() {
    if [ "$status" = "$2" ] && [[ $body == $3 ]]; then
        echo "$1 ok"
    else
        echo "$1 $status $(member error)"
    fi
}

verifier=$(openssl rand -base64 32 | tr '+/' '-_' | tr -d '=')
challenge=$(printf %s "$verifier" | openssl dgst -sha256 -binary | base64 | tr '+/' '-_' | tr -d '=')
location=$(curl -sS --max-time 20 -o "$room/body" -w '%header{location}' -b session=of-ann -G -d response_type=code \
    -d "client_id=$identifier" --data-urlencode "redirect_uri=$back" --data-urlencode 'scope=read write' -d state=xyz \
    -d "code_challenge=$challenge" -d code_challenge_method=S256 "$AUTH/authorize")
code=$(sed -nE 's/.*[?&]code=([^&]*).*/\1/p' <<<"$location")
post /token -d grant_type=authorization_code -d "code=$code" --data-urlencode "redirect_uri=$back" -d "code_verifier=$verifier"
tell code 200 '{"access_token":*'
access_token=$(member access_token)
refresh_token=$(member refresh_token)

post /token -d grant_type=refresh_token -d "refresh_token=${refresh_token:-none}"
tell refresh 200 '{"access_token":*'
access_token=$(member access_token)
refresh_token=$(member refresh_token)

post /token -d grant_type=client_credentials -d scope=read
tell credentials 200 '{"access_token":*'

post /introspect -d "token=${access_token:-none}"
tell introspect 200 '{"active":true,*'

post /revoke -d "token=${refresh_token:-none}"
tell revoke 200 ''
post /introspect -d "token=${access_token:-none}"
[ "$status" != 200 ] || [ "$body" = '{"active":false}' ] || echo 'the token is still active'
