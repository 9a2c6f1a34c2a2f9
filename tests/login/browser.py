#!/usr/bin/env python3
"""Goes through login and consent in Chromium, for tests/try-login.sh: browser.py SCREENSHOT KEY PASSWORD GATEWAY OTHER

KEY is the key of ann's owner and GATEWAY the gateway's, which must not reach the browser. PASSWORD is ann's, and OTHER that
of carol, whose owner the gateway names. Drives chromedriver by HTTP, with the standard library alone."""
import base64
import http.client
import json
import socket
import subprocess
import sys
import time

screenshot, key, password, gateway, other = sys.argv[1:]
checks, differing = 0, 0
driver = subprocess.Popen(["chromedriver", "--port=9515", "--silent"], stdout=subprocess.DEVNULL, stderr=subprocess.DEVNULL)


def command(method, path, body=None):
    connection = http.client.HTTPConnection("127.0.0.1", 9515, timeout=100)
    connection.request(method, path, None if method == "GET" else json.dumps(body or {}))
    value = json.loads(connection.getresponse().read())["value"]
    connection.close()
    if isinstance(value, dict) and "error" in value:
        raise RuntimeError(value["error"] + ": " + value["message"].split("\n")[0])
    return value


def check(name, wanted, got):
    global checks, differing
    checks += 1
    good = wanted in got
    differing += not good
    print(f"ok {name}: {got}" if good else f"NOT AS WANTED {name}: {got}, wanted: {wanted}", flush=True)


for attempt in range(100):
    try:
        command("GET", "/status")
        break
    except OSError:
        time.sleep(0.2)
browser = "/session/" + command("POST", "/session", {"capabilities": {"alwaysMatch": {
    "acceptInsecureCerts": True, "goog:loggingPrefs": {"performance": "ALL"},
    "goog:chromeOptions": {"args": ["--headless", "--no-sandbox", "--disable-dev-shm-usage", "--disable-gpu",
                                    "--window-size=700,640"]}}}})["sessionId"]


def visit(address):
    command("POST", browser + "/url", {"url": address})


def element(selector):
    found = command("POST", browser + "/element", {"using": "css selector", "value": selector})
    return browser + "/element/" + next(iter(found.values()))


def text(selector):
    return command("GET", element(selector) + "/text")


def fill(selector, value):
    command("POST", element(selector) + "/clear")
    command("POST", element(selector) + "/value", {"text": value})


def press(value):
    before = element("html")
    command("POST", element(f"button[value={value}]") + "/click")
    for _ in range(200):            # until the page is another one
        try:
            command("GET", before + "/name")
        except RuntimeError:
            return
        time.sleep(0.05)


def restart_login():
    subprocess.run(["systemctl", "restart", "oauthd-login"], check=True)
    for _ in range(100):
        try:
            socket.create_connection(("127.0.0.1", 9000)).close()
            return
        except OSError:
            time.sleep(0.1)


def sign_in(user, password):
    fill("[name=user]", user)
    fill("[name=password]", password)
    press("enter")


def change(password, new):
    fill("[name=password]", password)
    fill("[name=new]", new)
    fill("[name=again]", new)
    press("change")


def address():
    return command("GET", browser + "/url")


def seen():
    """Title and host of the page, and what its body begins with."""
    return f"{command('GET', browser + '/title')} | {address().split('/')[2]} | {text('body').split(chr(10))[0]}"


try:
    visit("https://app.example/begin?read")
    check("not-signed-in", "Who are you? | auth.example", seen())
    sign_in("ann", "guessed")
    check("wrong-password", "do not belong together", text(".wrong"))
    sign_in("ann", password)
    check("consent", "The example's app asks | auth.example", seen())
    check("consent-scopes", "read what you have written (read)", text("ul"))
    with open(screenshot, "wb") as file:
        file.write(base64.b64decode(command("GET", browser + "/screenshot")))
    cookie = command("GET", browser + "/cookie")[0]
    check("cookie", "__Host-login True True Lax",
          f"{cookie['name']} {cookie['secure']} {cookie['httpOnly']} {cookie['sameSite']}")
    press("deny")
    check("denied", "app.example", seen())
    check("denied-tells", "access_denied", text("#told"))
    visit("https://app.example/begin?read")
    check("asked-again", "The example's app asks", seen())
    press("allow")
    check("allowed", "scope read, active True, refreshed True", text("#told"))
    visit("https://app.example/begin?read")
    check("allowed-before", "scope read, active True, refreshed True", text("#told"))
    check("allowed-before-at", "https://app.example/cb?code=", address()[:28])
    visit("https://app.example/begin?read+write")
    check("more-is-asked", "The example's app asks", seen())
    press("allow")
    check("more-is-allowed", "scope read write, active True, refreshed True", text("#told"))
    subprocess.run(["systemctl", "restart", "oauthd"], check=True)
    visit("https://app.example/begin?read+write")
    check("after-a-restart-of-the-server", "scope read write, active True, refreshed True", text("#told"))
    restart_login()
    visit("https://app.example/begin?read+write")
    check("after-a-restart-of-the-login", "scope read write, active True, refreshed True", text("#told"))
    visit("https://app.example/begin?admin")
    check("too-much-scope", "invalid_scope", text("#told"))
    visit("https://auth.example/authorize?response_type=code&client_id=app&redirect_uri=https://evil.example/")
    check("wrong-redirect", "invalid_request", text("body"))
    visit("https://auth.example/login?back=https://evil.example/")
    check("link-elsewhere", "What you have allowed | auth.example", seen())
    check("listed", "The example's app: read, write", text("body"))
    command("POST", browser + "/execute/sync", {"script": "document.forms[0].token.value = 'guessed'", "args": []})
    press("withdraw")
    check("form-of-another-site", "Again, please", seen())
    visit("https://auth.example/login")
    press("withdraw")
    check("withdrawn", "Nothing.", text("body"))
    change("guessed", "of-my-own-choice")
    check("change-without-the-password", "This is not your password.", text(".wrong"))
    change(password, "short")
    check("change-to-a-short-one", "12 characters or more", text(".wrong"))
    before = command("GET", browser + "/cookie")[0]
    change(password, "of-my-own-choice")
    check("changed", "What you have allowed", seen())
    del before["domain"]
    command("POST", browser + "/cookie", {"cookie": before})
    visit("https://auth.example/login")
    check("changed-with-the-old-cookie", "Who are you?", seen())
    restart_login()
    visit("https://auth.example/login")
    sign_in("ann", password)
    check("old-password", "do not belong together", text(".wrong"))
    sign_in("ann", "of-my-own-choice")
    check("new-password", "What you have allowed", seen())
    visit("https://app.example/begin?read")
    check("asked-after-it", "The example's app asks", seen())
    left = command("GET", browser + "/cookie")[0]
    press("leave")
    check("signed-out", "Who are you?", seen())
    del left["domain"]
    command("POST", browser + "/cookie", {"cookie": left})
    visit("https://auth.example/login")
    check("signed-out-with-the-old-cookie", "Who are you?", seen())
    visit("https://app.example/begin?read")
    check("not-signed-in-again", "Who are you?", seen())
    sign_in("carol", other)
    check("another-user", "The example's app asks", seen())
    press("allow")
    with open("/var/lib/oauthd-login/allowed.json.numbers", encoding="utf-8") as file:
        number = json.load(file)["carol"]
    check("another-user-by-number", f"scope read, active True, refreshed True, sub {number}", text("#told"))
    restart_login()
    visit("https://app.example/begin?read")
    check("the-same-number-after-a-restart", f"scope read, active True, refreshed True, sub {number}", text("#told"))
    log = json.dumps(command("POST", browser + "/se/log", {"type": "performance"}))
    check("log-of-the-network", "True", str("app.example" in log and "X-Frame-Options" in log))
    check("key-in-the-browser", "False", str(key in log or gateway in log))
finally:
    try:
        command("DELETE", browser)
    finally:
        driver.terminate()
print(f"{checks} checks, {differing} not as wanted")
sys.exit(differing != 0)
