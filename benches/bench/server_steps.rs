//! Replies: what their parts cost, and a token and an introspection beside the records of other tokens.

use crate::draw::drawn;
use crate::parts;
use crate::report::{self, Least, Rounds};
use clients::Registry;
use endpoints::{Moment, Server};
use hook_chain::Chain;
use http::StatusCode;
use messages::{Draws, Request};
use pkce::token_text;
use std::alloc::{AllocError, Global};
use std::io;
use std::time::Instant;

/// Two clients: one that obtains tokens for itself, and one that asks of them.
const REGISTRY: &str =
    "{\"access_life\":300,\"refresh_life\":86400,\"operator\":\"op-key\",\"owners\":[\"ann-key\"],\"scopes\":[\"read\",\"write\",\"admin\"],\"clients\":[{\"id\":\"app\",\"secret\":\"s3cret\",\"redirects\":[\"https://app.example/cb\"],\"scope\":\"read write\",\"grants\":[\"authorization_code\",\"refresh_token\"]},{\"id\":\"bot\",\"secret\":\"b0t\",\"redirects\":[],\"scope\":\"read\",\"grants\":[\"client_credentials\"]}]}";

/// The seconds for which an access token is good.
const LIFE: u32 = 300;

/// How many requests one round makes.
const REQUESTS: u32 = 1000;

/// The request for a token of the client's own.
const TOKEN: Request<'static> = Request {
    method: b"POST",
    target: b"/token",
    body: b"grant_type=client_credentials",
    authorization: Some(b"Basic Ym90OmIwdA=="),
    content_type: Some(b"application/x-www-form-urlencoded"),
    owner_key: None,
    operator_key: None,
};

/// The request that asks of a token.
fn introspection(body: &[u8]) -> Request<'_> {
    Request {
        method: b"POST",
        target: b"/introspect",
        body,
        authorization: Some(b"Basic YXBwOnMzY3JldA=="),
        content_type: Some(b"application/x-www-form-urlencoded"),
        owner_key: None,
        operator_key: None,
    }
}

/// A server in use: in the long run as many tokens expire as it issues.
#[derive(Drop)]
struct Busy {
    server: Server<Chain>,
    issued: u32,
    /// How many tokens are issued in the life of one.
    live: u32,
}

impl Busy {
    /// A server that has as many live tokens as it will have.
    fn new(alloc: Global, rules: Registry, live: u32) -> Busy {
        let mut busy = Busy {
            server: Server::new(alloc, rules, Chain::new(alloc)),
            issued: 0,
            live,
        };
        busy.issue(live);
        busy
    }

    /// The moment at which the next token is issued.
    fn moment(&self) -> Moment {
        let seconds = self.issued.saturating_mul(LIFE) / self.live.max(1);
        Moment::new(seconds as u64)
    }

    /// Sends a request: 1 where it is answered by 200, and else 0.
    fn send(&mut self, request: &Request<'_>, draws: &Draws) -> u32 {
        let moment = self.moment();
        let reply = self.server.step(request, moment, draws);
        if reply.status() == StatusCode::OK {
            1
        } else {
            0
        }
    }

    /// Asks for so many tokens, each drawn anew: how many are given.
    fn issue(&mut self, times: u32) -> u32 {
        let mut given: u32 = 0;
        for _ in 0..times {
            let draws = Draws {
                first: drawn(self.issued),
                second: [0; 32],
            };
            given = given.saturating_add(self.send(&TOKEN, &draws));
            self.issued = self.issued.saturating_add(1);
        }
        given
    }

    /// The bodies that ask of live tokens, each time of others.
    fn questions(&self, alloc: Global, first: u32) -> Result<Vec<String>, AllocError> {
        let mut questions = Vec::new(alloc);
        for i in 0..REQUESTS {
            let back = first.wrapping_add(i).wrapping_mul(7919) % self.live.max(1);
            let number = self.issued.saturating_sub(1).saturating_sub(back);
            let text = token_text(alloc, &drawn(number))?;
            questions.push(format!(in alloc; "token={text}")?)?;
        }
        Ok(questions)
    }

    /// Asks of tokens: how many questions are answered.
    fn introspect(&mut self, questions: &[String]) -> u32 {
        let draws = Draws {
            first: [0; 32],
            second: [0; 32],
        };
        let mut answered: u32 = 0;
        for question in questions {
            let request = introspection(question.as_bytes());
            answered = answered.saturating_add(self.send(&request, &draws));
        }
        answered
    }
}

/// Obtains tokens in rounds, and prints how many.
fn report_tokens(rt: &HostRuntime, rounds: Rounds, busy: &mut Busy) -> io::Result<()> {
    let mut least = Least::new();
    let mut given = 0;
    for _ in 0..rounds.count() {
        let start = Instant::now(rt)?;
        given = busy.issue(REQUESTS);
        least.since(rt, &start)?;
    }
    let work = format!(in rt.alloc(); "POST /token beside {} live ones", busy.live)?;
    let came = format!(in rt.alloc(); "{given} tokens")?;
    report::print(rt, rounds, &work, &came, least, REQUESTS as u128)
}

/// Asks of tokens in rounds, and prints how many questions are answered.
fn report_introspections(rt: &HostRuntime, rounds: Rounds, busy: &mut Busy) -> io::Result<()> {
    let mut least = Least::new();
    let mut answered = 0;
    for round in 0..rounds.count() {
        let questions = busy.questions(rt.alloc(), round.wrapping_mul(REQUESTS))?;
        let start = Instant::now(rt)?;
        answered = busy.introspect(&questions);
        least.since(rt, &start)?;
    }
    let work = format!(in rt.alloc(); "POST /introspect beside {} live tokens", busy.live)?;
    let came = format!(in rt.alloc(); "{answered} answers")?;
    report::print(rt, rounds, &work, &came, least, REQUESTS as u128)
}

/// The parts of a request, and then tokens and introspections beside few live tokens, and in rounds also beside many.
pub fn report_all(rt: &HostRuntime, rounds: Rounds) -> io::Result<()> {
    let Ok(rules) = Registry::read(rt.alloc(), REGISTRY.as_bytes()) else {
        return println!(rt; "no registry");
    };
    parts::report_all(rt, rounds, &rules)?;
    let beside: &[u32] = match rounds {
        Rounds::Once => &[100],
        Rounds::Timed => &[100, 1000, 65_000],
    };
    for live in beside {
        let Ok(rules) = Registry::read(rt.alloc(), REGISTRY.as_bytes()) else {
            return println!(rt; "no registry");
        };
        let mut busy = Busy::new(rt.alloc(), rules, *live);
        report_tokens(rt, rounds, &mut busy)?;
        report_introspections(rt, rounds, &mut busy)?;
    }
    Ok(())
}
