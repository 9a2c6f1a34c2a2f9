# Questions to an audit trail, a line of JSON for each request that was answered:
#
#   jq -c -L examples 'include "audit"; tokens_of(2)' FILE      who had tokens of this owner
#   jq -c -L examples 'include "audit"; denied' FILE            which hook denied what to whom
#   jq -c -L examples 'include "audit"; grant(17)' FILE         one grant, from its code to the last of its tokens

def tokens_of(number): select(.owner == number and .path == "/token" and .status == 200) | [.moment, .client, .scope];

def denied: select(.hooks[-1:][]?.did == "denied") | [.moment, .hooks[-1].hook, .client, .owner, .asked.scope];

def grant(number): select(.family == number) | [.moment, .path, .grant, .status, .error, .scope];
