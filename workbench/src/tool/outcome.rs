//! What becomes of one file: the verdict by the proved library, the explanation
//! by the reference.

use std::fs::File;
use std::io::{self, Read};
use std::path::Path;

use crate::checker::{Counts, Reason, Refusal, Store, Verdict};
use crate::explain::{explain, explain_judged, Explanation};
use crate::layout::decode;
use crate::reference::document::{Document, Name, Word, MAX_FILE_BYTES};
use crate::reference::print::print;
use crate::reference::refusal;
use crate::reference::verdict::word_holds;
use crate::text::lines;

/// A channel of a file whose tables keep the flow rules.
pub struct Channel {
    pub row: usize,
    pub name: Option<Name>,
    pub claim: Option<Claimed>,
    pub verdict: Verdict,
}

/// A claim on a channel: its word and its line.
#[derive(Clone, Copy)]
pub struct Claimed {
    pub word: Word,
    pub line: usize,
}

impl Channel {
    /// The claim, if it fails.
    pub fn failing(&self) -> Option<Claimed> {
        self.claim
            .filter(|claim| !word_holds(claim.word, self.verdict))
    }

    /// The words that hold.
    pub fn holding(&self) -> Vec<Word> {
        let words = Word::ALL.into_iter();
        words
            .filter(|word| word_holds(*word, self.verdict))
            .collect()
    }
}

/// What becomes of one file.
pub enum Outcome {
    Accepted {
        claims: usize,
        channels: Vec<Channel>,
    },
    Refused {
        refusal: Refusal,
        /// The line at fault, without its byte 10.
        line: Vec<u8>,
        /// None if the reference answers otherwise.
        explanation: Option<Box<Explanation>>,
        /// All channels, where it is a claim that fails; none else.
        channels: Vec<Channel>,
    },
    Unreadable(String),
}

/// Checks a file.
pub fn check(path: &Path) -> Outcome {
    match load(path) {
        Ok((store, counts)) => judged(&store, counts, store.judge()),
        Err(outcome) => outcome,
    }
}

/// Loads a file, with the counts of its lines; the outcome of one that cannot be
/// read or loaded.
pub fn load(path: &Path) -> Result<(Store, Counts), Outcome> {
    let file = read_file(path)?;
    let mut store = Store::new();
    let counts = store
        .load(&file)
        .map_err(|refusal| refused(&file, refusal))?;
    Ok((store, counts))
}

/// The bytes of a file, or the outcome of one that cannot be read.
pub fn read_file(path: &Path) -> Result<Vec<u8>, Outcome> {
    try_read(path).map_err(|error| Outcome::Unreadable(trouble("file", &error)))
}

/// Why something of a kind cannot be read.
pub fn trouble(kind: &str, error: &io::Error) -> String {
    match error.kind() {
        io::ErrorKind::NotFound => format!("there is no such {kind}"),
        io::ErrorKind::IsADirectory => format!("this is a folder, not a {kind}"),
        io::ErrorKind::PermissionDenied => format!("the {kind} may not be read"),
        _ => format!("the {kind} cannot be read: {error}"),
    }
}

/// Of a file that is too long no more bytes are read than show it.
fn try_read(path: &Path) -> io::Result<Vec<u8>> {
    let enough = MAX_FILE_BYTES as u64 + 1;
    let mut bytes = vec![];
    if path == Path::new("-") {
        io::stdin().lock().take(enough).read_to_end(&mut bytes)?;
    } else {
        File::open(path)?.take(enough).read_to_end(&mut bytes)?;
    }
    Ok(bytes)
}

/// The outcome of a file that the library does not load.
pub fn refused(file: &[u8], refusal: Refusal) -> Outcome {
    let explanation = explain(file, told(refusal));
    refused_at(file, refusal, explanation)
}

/// A refusal as the reference tells it.
pub fn told(refusal: Refusal) -> refusal::Refusal {
    refusal::refusal(u16::from(refusal.reason.number()), refusal.line)
}

/// The outcome of a text that is refused, maybe at one of its lines.
pub fn refused_at(text: &[u8], refusal: Refusal, explanation: Option<Explanation>) -> Outcome {
    let line = refusal.line.checked_sub(1);
    let line = line.and_then(|line| lines(text).get(line).copied());
    let line = line.unwrap_or_default();
    Outcome::Refused {
        refusal,
        line: line.strip_suffix(b"\n").unwrap_or(line).to_vec(),
        explanation: explanation.map(Box::new),
        channels: vec![],
    }
}

/// The document in a loaded store.
pub fn document(store: &Store) -> Document {
    decode(store.bytes()).unwrap_or_default()
}

/// The outcome of a store, given what judge answers on it. Lines are those of its
/// text, which may be too long for a file.
pub fn judged(store: &Store, counts: Counts, answer: Result<usize, Refusal>) -> Outcome {
    let document = document(store);
    let all = || channels(store, counts.rows, &document);
    let accepted = answer.and_then(|claims| {
        let channels = all()?;
        Ok(Outcome::Accepted { claims, channels })
    });
    accepted.unwrap_or_else(|refusal| {
        let explanation = explain_judged(&document, told(refusal));
        let mut outcome = refused_at(&print(&document), refusal, explanation);
        if let (Outcome::Refused { channels, .. }, Reason::Claim) = (&mut outcome, refusal.reason) {
            *channels = all().unwrap_or_default();
        }
        outcome
    })
}

/// The channels with their verdicts, by the library; their names and claims are
/// read from the document.
fn channels(store: &Store, rows: usize, document: &Document) -> Result<Vec<Channel>, Refusal> {
    let mut channels = vec![];
    for row in 0..rows {
        let verdict = match store.verdict(row) {
            Ok(verdict) => verdict,
            Err(refusal) if refusal.reason == Reason::NotAChannel => continue,
            Err(refusal) => return Err(refusal),
        };
        let mut claims = document.claims.iter().enumerate();
        let claim = claims.find(|(_, claim)| claim.channel == row);
        channels.push(Channel {
            row,
            name: document.bind(row).map(|bind| bind.name),
            claim: claim.map(|(index, claim)| Claimed {
                word: claim.word,
                line: document.claim_line(index),
            }),
            verdict,
        });
    }
    Ok(channels)
}
