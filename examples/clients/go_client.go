// The five requests of a client by golang.org/x/oauth2.
//
// Words: one of the ways in-header, in-params and auto-detect, a client's identifier and its secret. The variable AUTH has
// the server's address. Prints a line for each request: `ok`, or the status and the error that came instead.
package main

import (
	"context"
	"crypto/rand"
	"crypto/sha256"
	"encoding/base64"
	"encoding/json"
	"errors"
	"fmt"
	"io"
	"net/http"
	"net/url"
	"os"
	"strings"
	"time"

	"golang.org/x/oauth2"
	"golang.org/x/oauth2/clientcredentials"
)

var (
	auth       = os.Getenv("AUTH")
	identifier = os.Args[2]
	secret     = os.Args[3]
	styles     = map[string]oauth2.AuthStyle{
		"in-header":   oauth2.AuthStyleInHeader,
		"in-params":   oauth2.AuthStyleInParams,
		"auto-detect": oauth2.AuthStyleAutoDetect,
	}
	style  = styles[os.Args[1]]
	ctx    = context.Background()
	config = oauth2.Config{
		ClientID:     identifier,
		ClientSecret: secret,
		RedirectURL:  "https://app.example/cb",
		Scopes:       []string{"read", "write"},
		Endpoint:     oauth2.Endpoint{AuthURL: auth + "/authorize", TokenURL: auth + "/token", AuthStyle: style},
	}
	token = &oauth2.Token{AccessToken: "none", RefreshToken: "none"}
)

// refusal is an error reply to a request that the library has no call for.
type refusal struct {
	status int
	body   []byte
}

func (r refusal) Error() string { return fmt.Sprint(r.status) }

// tell prints what came of a request.
func tell(name string, err error) {
	var reply struct {
		Error string `json:"error"`
	}
	var failed *oauth2.RetrieveError
	var refused refusal
	switch {
	case err == nil:
		fmt.Println(name, "ok")
	case errors.As(err, &failed):
		json.Unmarshal(failed.Body, &reply)
		fmt.Println(name, failed.Response.StatusCode, reply.Error)
	case errors.As(err, &refused):
		json.Unmarshal(refused.body, &reply)
		fmt.Println(name, refused.status, reply.Error)
	default:
		fmt.Println(name, err)
	}
}

// post makes a request that the library has no call for. SetBasicAuth encodes nothing: the secret is encoded before.
func post(path string, text string) ([]byte, error) {
	form := url.Values{"token": {text}}
	if style == oauth2.AuthStyleInParams {
		form.Set("client_id", identifier)
		form.Set("client_secret", secret)
	}
	request, err := http.NewRequest("POST", auth+path, strings.NewReader(form.Encode()))
	if err != nil {
		return nil, err
	}
	request.Header.Set("Content-Type", "application/x-www-form-urlencoded")
	if style != oauth2.AuthStyleInParams {
		request.SetBasicAuth(identifier, url.QueryEscape(secret))
	}
	reply, err := http.DefaultClient.Do(request)
	if err != nil {
		return nil, err
	}
	defer reply.Body.Close()
	body, err := io.ReadAll(reply.Body)
	if err == nil && reply.StatusCode != 200 {
		err = refusal{reply.StatusCode, body}
	}
	return body, err
}

// code gets a code by the owner's user agent, and exchanges it.
func code() error {
	var drawn [32]byte
	rand.Read(drawn[:])
	verifier := base64.RawURLEncoding.EncodeToString(drawn[:])
	digest := sha256.Sum256([]byte(verifier))
	address := config.AuthCodeURL("xyz",
		oauth2.SetAuthURLParam("code_challenge", base64.RawURLEncoding.EncodeToString(digest[:])),
		oauth2.SetAuthURLParam("code_challenge_method", "S256"))
	agent := http.Client{CheckRedirect: func(*http.Request, []*http.Request) error { return http.ErrUseLastResponse }}
	request, err := http.NewRequest("GET", address, nil)
	if err != nil {
		return err
	}
	request.AddCookie(&http.Cookie{Name: "session", Value: "of-ann"})
	reply, err := agent.Do(request)
	if err != nil {
		return err
	}
	reply.Body.Close()
	back, err := reply.Location()
	if err != nil {
		return err
	}
	given, err := config.Exchange(ctx, back.Query().Get("code"), oauth2.SetAuthURLParam("code_verifier", verifier))
	if err == nil {
		token = given
	}
	return err
}

// refresh makes the token look expired, so that its source gets another one.
func refresh() error {
	expired := &oauth2.Token{AccessToken: token.AccessToken, RefreshToken: token.RefreshToken, Expiry: time.Unix(1, 0)}
	given, err := config.TokenSource(ctx, expired).Token()
	if err != nil {
		return err
	}
	if given.RefreshToken == token.RefreshToken {
		return errors.New("no new refresh token")
	}
	token = given
	return nil
}

func credentials() error {
	alone := clientcredentials.Config{ClientID: identifier, ClientSecret: secret, TokenURL: auth + "/token",
		Scopes: []string{"read"}, AuthStyle: style}
	_, err := alone.Token(ctx)
	return err
}

// isActive asks for the access token.
func isActive() (bool, error) {
	var told struct {
		Active bool `json:"active"`
	}
	body, err := post("/introspect", token.AccessToken)
	if err == nil {
		err = json.Unmarshal(body, &told)
	}
	return told.Active, err
}

func introspect() error {
	active, err := isActive()
	if err == nil && !active {
		return errors.New("the token is not active")
	}
	return err
}

func revoke() error {
	if _, err := post("/revoke", token.RefreshToken); err != nil {
		return err
	}
	active, err := isActive()
	if err == nil && active {
		return errors.New("the token is still active")
	}
	return err
}

func main() {
	tell("code", code())
	tell("refresh", refresh())
	tell("credentials", credentials())
	tell("introspect", introspect())
	tell("revoke", revoke())
}
