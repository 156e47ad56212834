//! The words of bridge's command line, and the texts that it prints.
pub mod commands;
pub mod note_texts;
pub mod rows;
pub mod rows_of_drain;
pub mod rows_of_move;
pub mod rows_of_replay;
pub mod rows_of_serve;
pub mod token_lists;

use crate::spelling::spell;
use bridge_words::{Command, Need, WordsFault, need_of, wrong_words};
use std::alloc::Global;
use std::process::Abort;

// The two tokens as they are spelt.
const T: &str = "11111111-2222-3333-4444-555555555555";

const A: &str = "aaaaaaaa-2222-3333-4444-555555555555";

// The word that a row writes so.
fn word_of(rt: &impl Abort, alloc: Global, written: &str) -> String {
    let (before, token) = match (written.strip_suffix("$T"), written.strip_suffix("$A")) {
        (Some(before), _) => (before, T),
        (_, Some(before)) => (before, A),
        _ => (written, ""),
    };
    let before = if before == "''" { "" } else { before };
    let mut word = String::from_str(alloc, before).expect(rt, "memory");
    word.push_str(token).expect(rt, "memory");
    word
}

// The words of a row.
fn words_of(rt: &impl Abort, alloc: Global, text: &str) -> Vec<String> {
    let mut words = Vec::new(alloc);
    if !text.is_empty() {
        for written in text.split(' ') {
            words.push(word_of(rt, alloc, written)).expect(rt, "memory");
        }
    }
    words
}

// A move: its target and its tag.
fn move_told(rt: &impl Abort, alloc: Global, need: Need) -> String {
    match need {
        Need::Pair { target, tag } => {
            let target = target.as_str();
            format!(in alloc; "two devices, ({target}), tag {tag}").expect(rt, "memory")
        }
        _ => String::new(alloc),
    }
}

// What the words are: a command and which device it wants, a move, or why they are neither.
fn told(rt: &impl Abort, alloc: Global, words: &[String]) -> String {
    let need = need_of(alloc, words).expect(rt, "memory");
    let fault = wrong_words(alloc, words).expect(rt, "memory");
    match Command::of(alloc, words).expect(rt, "memory") {
        Some(command) => {
            assert!(rt; fault == None);
            commands::told(rt, alloc, &command, need)
        }
        None => match fault {
            Some(fault) => {
                assert!(rt; matches!(&need, Need::NoCommand));
                String::from_str(alloc, fault.text()).expect(rt, "memory")
            }
            None => move_told(rt, alloc, need),
        },
    }
}

/// Each row has words, `=>`, and what they are. The words stand as a shell reads them: with a space between them, `''` for an
/// empty word, and `$T` and `$A` for the two tokens as they are spelt.
pub fn check(rt: &impl Abort, alloc: Global, table: &str) {
    for row in table.lines() {
        let (spelt, want) = row.split_once("=>").expect(rt, "what the words are");
        let words = words_of(rt, alloc, spelt.trim());
        assert!(rt; told(rt, alloc, &words).as_str() == want.trim(), "{row}");
    }
}

// What the words of a server are that has the list of tokens that a row spells.
fn told_of_list(rt: &impl Abort, alloc: Global, spelt: &str) -> String {
    let mut list = Vec::new(alloc);
    spell(rt, spelt, &mut list);
    let list = String::from_utf8(list).expect(rt, "a text");
    let mut words = Vec::new(alloc);
    for word in ["serve", "--hec=h", "--tokens"] {
        let word = String::from_str(alloc, word).expect(rt, "memory");
        words.push(word).expect(rt, "memory");
    }
    words.push(list).expect(rt, "memory");
    told(rt, alloc, &words)
}

/// Each row has a list, `=>`, and its tokens as [`check`] has them, or `wrong`.
pub fn check_lists(rt: &impl Abort, alloc: Global, table: &str) {
    for row in table.lines() {
        let (spelt, want) = row.split_once("=>").expect(rt, "what the list is");
        let want = match want.trim() {
            "wrong" => String::from_str(alloc, WordsFault::Tokens.text()),
            tokens => { format!(in alloc; "serve - - (h) 4 67108864 - - {tokens} -, a device") }
        };
        let want = want.expect(rt, "memory");
        let told = told_of_list(rt, alloc, spelt.trim());
        assert!(rt; told.as_str() == want.as_str(), "{row}");
    }
}

// What is wrong with words, and the text for it.
const FAULTS: [(WordsFault, &str); 31] = [
    (WordsFault::NoCommand, "no command is named"),
    (WordsFault::UnknownWord, "unknown word or option"),
    (WordsFault::MissingWord, "a word is missing"),
    (WordsFault::MissingValue, "an option has no value"),
    (WordsFault::ExtraValue, "an option takes no value"),
    (WordsFault::GivenTwice, "an option is given twice"),
    (WordsFault::Slots, "SLOTS: 1 to 1024"),
    (WordsFault::Size, "SIZE: 4096 to 1073741824"),
    (WordsFault::Proto, "PROTO: relp, lumberjack or hec"),
    (WordsFault::Place, "PLACE: empty"),
    (WordsFault::Number, "NUMBER: 0 to 2147483647"),
    (WordsFault::Count, "COUNT: 0 to 100000"),
    (WordsFault::Tag, "TAG: 0 to 4294967295"),
    (WordsFault::Form, "--as: relp, json or hec"),
    (WordsFault::Token, "--token: no GUID"),
    (WordsFault::AckToken, "--ack-token: no GUID"),
    (
        WordsFault::Tokens,
        "--tokens: 1 to 1000 lines, each a GUID or a GUID and ack",
    ),
    (
        WordsFault::BothTokens,
        "--tokens: not beside --token or --ack-token",
    ),
    (WordsFault::OutToken, "--out-token: no GUID"),
    (WordsFault::OutChannel, "--out-channel: no GUID"),
    (WordsFault::Polls, "--polls: 1 to 1000"),
    (WordsFault::NoOutToken, "hec: --out-token is needed"),
    (WordsFault::NoOutChannel, "hec: --out-channel is needed"),
    (WordsFault::Workers, "--workers: 1 to 16"),
    (WordsFault::Connections, "--connections: 1 to 1024"),
    (
        WordsFault::BothCounts,
        "--connections: not beside --workers",
    ),
    (WordsFault::Talks, "--talks: 1 to 67108864"),
    (
        WordsFault::TalksOfConnections,
        "--talks: 1 to 1048576 with --connections",
    ),
    (
        WordsFault::NoDoor,
        "serve: --relp, --lumberjack or --hec is needed",
    ),
    (WordsFault::NoTo, "--forward: --to is needed"),
    (WordsFault::NoForward, "--to: --forward is needed"),
];

// The rows. A test's proof sees none of them this way, so that it stays short.
fn faults() -> &'static [(WordsFault, &'static str)] {
    &FAULTS
}

/// Each fault has its text, so the text in a row says which fault it is.
pub fn fault_texts(rt: &impl Abort) {
    for (fault, text) in faults() {
        assert!(rt; fault.text() == *text, "{text}");
    }
}
