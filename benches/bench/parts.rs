//! Parts of a request: what each costs by itself.

use crate::draw::{digest, drawn};
use crate::report::{self, Least, Rounds};
use authentication::authenticate;
use clients::Registry;
use consent::{ScopeSet, TokenKind};
use heads::{Front, lend, read_front};
use messages::{ActiveToken, active, tokens};
use params::Params;
use pkce::{read_token, token_text};
use std::alloc::Global;
use std::io;
use std::time::Instant;

/// How often one round does a part.
const TIMES: u32 = 1000;

/// A request for a token of the client's own.
const REQUEST: &[u8] =
    b"POST /token HTTP/1.1\r\nHost: 127.0.0.1:45678\r\nAuthorization: Basic Ym90OmIwdA==\r\nContent-Type: application/x-www-form-urlencoded\r\nContent-Length: 29\r\n\r\ngrant_type=client_credentials";

/// Its credentials, and its form.
const CREDENTIALS: &[u8] = b"Basic Ym90OmIwdA==";

const FORM: &[u8] = b"grant_type=client_credentials";

/// The text of a token.
const TOKEN: &str = "BAQEBAQEBAQEBAQEBAQEBAQEBAQEBAQEBAQEBAQEBAQ";

/// A part of a request.
#[derive(Clone, Copy)]
enum Part {
    Head,
    MediaType,
    Form,
    Authentication,
    Digest,
    TokenRead,
    TokenText,
    ScopeText,
    TokensBody,
    ActiveBody,
}

const PARTS: [Part; 10] = [
    Part::Head,
    Part::MediaType,
    Part::Form,
    Part::Authentication,
    Part::Digest,
    Part::TokenRead,
    Part::TokenText,
    Part::ScopeText,
    Part::TokensBody,
    Part::ActiveBody,
];

/// What the parts are done with.
#[derive(Clone, Copy)]
struct Things<'a> {
    alloc: Global,
    request: &'a [u8],
    rules: &'a Registry,
    params: &'a Params<'static>,
}

fn name(part: Part) -> &'static str {
    match part {
        Part::Head => "a head read",
        Part::MediaType => "a head read, and its media type looked at",
        Part::Form => "a form of one pair read",
        Part::Authentication => "a client authenticated by its header, digest and all",
        Part::Digest => "a digest of 32 bytes",
        Part::TokenRead => "the text of a token read",
        Part::TokenText => "the text of a token written",
        Part::ScopeText => "the text of a scope written",
        Part::TokensBody => "the JSON of a token reply",
        Part::ActiveBody => "the JSON of an introspection",
    }
}

fn one_if(done: bool) -> u32 {
    if done { 1 } else { 0 }
}

// Whether a head is read, and is that of a form where that is looked at.
fn head(bytes: &[u8], looks: bool) -> bool {
    match read_front(bytes) {
        Front::Whole(found) => {
            let request = lend(bytes, &found);
            !looks || request.is_form()
        }
        Front::More { .. } | Front::Faulty => false,
    }
}

fn live() -> ActiveToken<'static> {
    ActiveToken {
        client: "bot",
        issued: 1_795_408_741,
        expires: 1_795_409_041,
        scope: "read",
        sub: None,
        kind: TokenKind::Access,
    }
}

fn is_done(things: &Things<'_>, part: Part) -> bool {
    let alloc = things.alloc;
    match part {
        Part::Head => head(things.request, false),
        Part::MediaType => head(things.request, true),
        Part::Form => Params::read(alloc, FORM).is_ok(),
        Part::Authentication => {
            authenticate(alloc, things.rules, Some(CREDENTIALS), things.params).is_ok()
        }
        Part::Digest => digest(7).bytes()[0] != 0,
        Part::TokenRead => read_token(TOKEN).is_some(),
        Part::TokenText => token_text(alloc, &drawn(7)).is_ok(),
        Part::ScopeText => {
            let scope = ScopeSet::new(1);
            things.rules.catalogue().scope_text(alloc, scope).is_ok()
        }
        Part::TokensBody => tokens(alloc, TOKEN, 300, None, "read").is_ok(),
        Part::ActiveBody => active(alloc, live()).is_ok(),
    }
}

// Does a part many times: how often it was done.
fn done(things: &Things<'_>, part: Part) -> u32 {
    let mut done: u32 = 0;
    for _ in 0..TIMES {
        done = done.saturating_add(one_if(is_done(things, part)));
    }
    done
}

fn report_part(
    rt: &HostRuntime,
    rounds: Rounds,
    things: &Things<'_>,
    part: Part,
) -> io::Result<()> {
    let mut least = Least::new();
    let mut times = 0;
    for _ in 0..rounds.count() {
        let start = Instant::now(rt)?;
        times = done(things, part);
        least.since(rt, &start)?;
    }
    let came = format!(in rt.alloc(); "{times} times")?;
    report::print(rt, rounds, name(part), &came, least, TIMES as u128)
}

/// Each part, many times.
pub fn report_all(rt: &HostRuntime, rounds: Rounds, rules: &Registry) -> io::Result<()> {
    let Ok(params) = Params::read(rt.alloc(), FORM) else {
        return println!(rt; "no form");
    };
    let things = Things {
        alloc: rt.alloc(),
        request: REQUEST,
        rules,
        params: &params,
    };
    for part in PARTS {
        report_part(rt, rounds, &things, part)?;
    }
    Ok(())
}
