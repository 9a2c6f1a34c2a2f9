//! The store of grants: what its calls cost beside as many records as it may have, a third of them codes.

use crate::draw::digest;
use crate::report::{self, Least, Rounds};
use consent::{
    Change, Changes, ClientNo, CodeFacts, Digest, Home, Moment, NewToken, OwnerNo, ScopeSet,
    TokenKind,
};
use std::alloc::{AllocError, Global};
use std::io;
use std::time::Instant;
use token_store::{Quota, Store};

/// How much may be kept.
fn quota() -> Quota {
    Quota {
        records: 65536,
        client: ClientNo::new(1),
        of_client: None,
    }
}

/// A code of an owner's own with two tokens.
#[derive(Clone, Copy)]
struct Trio {
    family: u64,
    owner: OwnerNo,
    code: Digest,
    access: Digest,
    refresh: Digest,
}

/// What is done with each of the trios.
#[derive(Clone, Copy)]
enum Work {
    Give,
    UseCode,
    Access,
    Code,
    Refresh,
    SpendRefresh,
    End,
    Lower,
}

/// The works, in the order in which each store meets them.
const WORKS: [Work; 8] = [
    Work::Give,
    Work::UseCode,
    Work::Access,
    Work::Code,
    Work::Refresh,
    Work::SpendRefresh,
    Work::End,
    Work::Lower,
];

// Makes room for the changes, and makes them.
fn make(store: &mut Store, changes: &Changes<'_>, moment: Moment) -> bool {
    let Ok(()) = store.reserve(changes) else {
        return false;
    };
    store.apply(changes, moment);
    true
}

impl Trio {
    fn new(number: u32) -> Trio {
        let first = number.wrapping_mul(3);
        Trio {
            family: u64::from(number) + 1,
            owner: OwnerNo::new(number.saturating_add(1)),
            code: digest(first),
            access: digest(first.wrapping_add(1)),
            refresh: digest(first.wrapping_add(2)),
        }
    }

    /// Where its tokens are issued.
    fn home(&self) -> Home {
        Home {
            family: self.family,
            client: ClientNo::new(1),
            owner: Some(self.owner),
        }
    }

    /// Gives the code.
    fn give(&self, store: &mut Store, moment: Moment) -> bool {
        let digest = self.code;
        if store.refusal(&[digest], &quota(), moment).is_some() {
            return false;
        }
        let facts = CodeFacts {
            client: ClientNo::new(1),
            owner: self.owner,
            scope: ScopeSet::new(3),
            redirect: "https://app.example/cb",
            challenge: "E9Melhoa2OwvFrEMTJguCHaoeK1t8URWbuGJSstw-cM",
        };
        make(
            store,
            &Changes::One(Change::CodeGiven {
                family: self.family,
                facts,
                digest,
            }),
            moment,
        )
    }

    /// Uses the code for both tokens.
    fn use_code(&self, store: &mut Store, moment: Moment) -> bool {
        let of = self.code;
        if store.at(&of, moment).is_none() {
            return false;
        }
        if store
            .refusal(&[self.access, self.refresh], &quota(), moment)
            .is_some()
        {
            return false;
        }
        let access = NewToken {
            kind: TokenKind::Access,
            digest: self.access,
            scope: ScopeSet::new(3),
            life: 300,
        };
        let refresh = NewToken {
            kind: TokenKind::Refresh,
            digest: self.refresh,
            scope: ScopeSet::new(3),
            life: 86_400,
        };
        make(
            store,
            &Changes::Used {
                of,
                home: self.home(),
                access,
                refresh: Some(refresh),
            },
            moment,
        )
    }

    /// Spends the refresh token.
    fn spend(&self, store: &mut Store, moment: Moment) -> bool {
        let digest = self.refresh;
        make(store, &Changes::One(Change::Spent { digest }), moment)
    }

    /// Ends the family of the access token.
    fn end(&self, store: &mut Store, moment: Moment) -> bool {
        let family = self.family;
        store.at(&self.access, moment).is_some()
            && make(store, &Changes::One(Change::FamilyEnded { family }), moment)
    }

    /// The owner consents to less than the code has.
    fn lower(&self, store: &mut Store, moment: Moment) -> bool {
        let owner = self.owner;
        make(
            store,
            &Changes::One(Change::Consented {
                owner,
                client: ClientNo::new(1),
                mask: ScopeSet::new(1),
            }),
            moment,
        )
    }
}

impl Work {
    fn name(self) -> &'static str {
        match self {
            Work::Give => "give a code",
            Work::UseCode => "look up a code and use it for two tokens",
            Work::Access => "look up an access token",
            Work::Code => "look up a code",
            Work::Refresh => "look up a refresh token",
            Work::SpendRefresh => "spend a refresh token",
            Work::End => "look up a token and end its family",
            Work::Lower => "lower a consent with one family",
        }
    }

    /// Does the work with a trio: whether there is an answer.
    fn does(self, store: &mut Store, trio: &Trio, moment: Moment) -> bool {
        match self {
            Work::Give => trio.give(store, moment),
            Work::UseCode => trio.use_code(store, moment),
            Work::Access => store.at(&trio.access, moment).is_some(),
            Work::Code => store.at(&trio.code, moment).is_some(),
            Work::Refresh => store.at(&trio.refresh, moment).is_some(),
            Work::SpendRefresh => trio.spend(store, moment),
            Work::End => trio.end(store, moment),
            Work::Lower => trio.lower(store, moment),
        }
    }

    /// Does the work with each trio: how many times there is an answer.
    fn does_all(self, store: &mut Store, trios: &[Trio]) -> u32 {
        let moment = Moment::new(1000);
        let mut answers: u32 = 0;
        for trio in trios {
            if self.does(store, trio, moment) {
                answers = answers.saturating_add(1);
            }
        }
        answers
    }
}

/// A work with its least time and how many times there was an answer.
#[derive(Clone, Copy)]
struct Row {
    work: Work,
    least: Least,
    answers: u32,
}

/// A row for each work.
fn rows(alloc: Global) -> Result<Vec<Row>, AllocError> {
    let mut rows = Vec::new(alloc);
    for work in WORKS {
        rows.push(Row {
            work,
            least: Least::new(),
            answers: 0,
        })?;
    }
    Ok(rows)
}

/// So many trios.
fn trios(alloc: Global, count: u32) -> Result<Vec<Trio>, AllocError> {
    let mut trios = Vec::new(alloc);
    for number in 0..count {
        trios.push(Trio::new(number))?;
    }
    Ok(trios)
}

/// Does each work with the trios in one store.
fn work_through(
    rt: &HostRuntime,
    store: &mut Store,
    rows: &mut [Row],
    trios: &[Trio],
) -> io::Result<()> {
    for row in rows {
        let start = Instant::now(rt)?;
        row.answers = row.work.does_all(store, trios);
        row.least.since(rt, &start)?;
    }
    Ok(())
}

/// Each work with a new store in each round, at whose end all records expire.
pub fn report_all(rt: &HostRuntime, rounds: Rounds) -> io::Result<()> {
    let (count, stores) = match rounds {
        Rounds::Once => (100, 1),
        Rounds::Timed => (21_845, 10),
    };
    let trios = trios(rt.alloc(), count)?;
    let mut rows = rows(rt.alloc())?;
    let mut least = Least::new();
    let mut kept = 0;
    for _ in 0..stores {
        let mut store = Store::new(rt.alloc(), 65536);
        work_through(rt, &mut store, &mut rows, &trios)?;
        kept = store.kept();
        let start = Instant::now(rt)?;
        store.drop_expired(Moment::new(100_000));
        least.since(rt, &start)?;
    }
    for row in &rows {
        let came = format!(in rt.alloc(); "{} answers", row.answers)?;
        report::print(rt, rounds, row.work.name(), &came, row.least, count as u128)?;
    }
    let came = format!(in rt.alloc(); "{kept} records")?;
    report::print(rt, rounds, "drop_expired", &came, least, kept as u128)
}
