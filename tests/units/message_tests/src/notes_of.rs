//! Faults beside the notes that the program ends with, and beside the replies and the lines that it writes.
use body_faults::{AckFault, BodyFault};
use bridge_rescue::{SlotFault as Unsound, Why as Unsoundness};
use cli_parts::NoArguments;
use disk_cell::{LoadFault, SetFault};
use edge_disk::DiskFault;
use edge_file::{OpenFault, PairFault};
use edge_io::{AcceptFault, NetFault, ReadFault, Stopped, WriteFault};
use event_form::{EntryFault, FeedFault, Talk, Why};
use forward_core::Sent;
use hec_ids::IssueFault;
use hec_session::{HecCode, HecSay, say_body};
use http_edge::{HttpFault, HttpWhy};
use json_span::JsonFault;
use load_run::LoadFault as Unloaded;
use lumber_frame::{LumberFault, LumberWhy};
use notes::{Note, note_text};
use relp_frame::{RelpFault, RelpWhy};
use spool_faults::{ConfirmFault, PendFault, TakeFault};
use spool_log::{FormatFault, RecoverFault};
use spool_move::MoveFault;
use spool_slots::{ScanFault, SlotFault};
use std::alloc::Global;
use std::fmt::Display;
use std::process::Abort;
use words_faults::WordsFault;

// The message is the note's text.
fn is_said<F: Display + Drop>(rt: &impl Abort, alloc: Global, fault: F, note: Note) {
    let message = format!(in alloc; "{fault}").expect(rt, "memory");
    let text = note_text(alloc, &note).expect(rt, "memory");
    assert_eq!(rt; message.as_bytes(), text.bytes());
}

pub fn faults_of_spools(rt: &impl Abort, alloc: Global) {
    is_said(
        rt,
        alloc,
        TakeFault::TooLarge { need: 7, most: 5 },
        Note::TooLarge { need: 7, most: 5 },
    );
    is_said(
        rt,
        alloc,
        TakeFault::Spent { end: 9 },
        Note::Spent { end: 9 },
    );
    is_said(
        rt,
        alloc,
        TakeFault::Full { need: 7, room: 5 },
        Note::Full { need: 7, room: 5 },
    );
    is_said(
        rt,
        alloc,
        TakeFault::NotSpool { at: 3 },
        Note::NotSpool { at: 3 },
    );
    is_said(rt, alloc, TakeFault::NoMemory, Note::NoMemory);
    is_said(rt, alloc, TakeFault::DiskFault, Note::DiskFault);
    is_said(
        rt,
        alloc,
        PendFault::NotSpool { at: 3 },
        Note::NotSpool { at: 3 },
    );
    is_said(rt, alloc, PendFault::DiskFault, Note::DiskFault);
    is_said(rt, alloc, PendFault::NoMemory, Note::NoMemory);
    is_said(
        rt,
        alloc,
        ConfirmFault::Worn { ordinal: 11 },
        Note::Worn { ordinal: 11 },
    );
    is_said(
        rt,
        alloc,
        ConfirmFault::NotSpool { at: 3 },
        Note::NotSpool { at: 3 },
    );
    is_said(rt, alloc, ConfirmFault::DiskFault, Note::DiskFault);
    is_said(rt, alloc, ConfirmFault::NoMemory, Note::NoMemory);
    is_said(
        rt,
        alloc,
        RecoverFault::NotSpool { at: 3 },
        Note::NotSpool { at: 3 },
    );
    is_said(
        rt,
        alloc,
        RecoverFault::RunsSpent { run: 13 },
        Note::RunsSpent { run: 13 },
    );
    is_said(
        rt,
        alloc,
        RecoverFault::Worn { ordinal: 11 },
        Note::Worn { ordinal: 11 },
    );
    is_said(rt, alloc, RecoverFault::DiskFault, Note::DiskFault);
    is_said(rt, alloc, RecoverFault::NoMemory, Note::NoMemory);
    is_said(
        rt,
        alloc,
        MoveFault::Strange { number: 17 },
        Note::Strange { number: 17 },
    );
    is_said(
        rt,
        alloc,
        MoveFault::TooLarge { need: 7, most: 5 },
        Note::TooLarge { need: 7, most: 5 },
    );
    is_said(
        rt,
        alloc,
        MoveFault::Spent { end: 9 },
        Note::Spent { end: 9 },
    );
    is_said(
        rt,
        alloc,
        MoveFault::Full { need: 7, room: 5 },
        Note::Full { need: 7, room: 5 },
    );
    is_said(
        rt,
        alloc,
        MoveFault::Worn { ordinal: 11 },
        Note::Worn { ordinal: 11 },
    );
    is_said(
        rt,
        alloc,
        MoveFault::NotSpool { at: 3 },
        Note::NotSpool { at: 3 },
    );
    is_said(rt, alloc, MoveFault::SourceFault, Note::DiskFault);
    is_said(rt, alloc, MoveFault::TargetFault, Note::DiskFault);
    is_said(rt, alloc, MoveFault::NoMemory, Note::NoMemory);
}

pub fn faults_of_disks(rt: &impl Abort, alloc: Global) {
    is_said(
        rt,
        alloc,
        FormatFault::WrongLength { have: 19, want: 23 },
        Note::WrongLength { have: 19, want: 23 },
    );
    is_said(rt, alloc, FormatFault::DiskFault, Note::DiskFault);
    is_said(
        rt,
        alloc,
        LoadFault::NotSpool { at: 3 },
        Note::NotSpool { at: 3 },
    );
    is_said(rt, alloc, LoadFault::NoMemory, Note::NoMemory);
    is_said(rt, alloc, LoadFault::DiskFault, Note::DiskFault);
    is_said(
        rt,
        alloc,
        SetFault::Worn { ordinal: 11 },
        Note::Worn { ordinal: 11 },
    );
    is_said(rt, alloc, SetFault::DiskFault, Note::DiskFault);
    is_said(
        rt,
        alloc,
        SlotFault::NoRoom { need: 7, room: 5 },
        Note::Full { need: 7, room: 5 },
    );
    is_said(rt, alloc, SlotFault::DiskFault, Note::DiskFault);
    is_said(
        rt,
        alloc,
        ScanFault::NotSpool { at: 3 },
        Note::NotSpool { at: 3 },
    );
    is_said(rt, alloc, ScanFault::DiskFault, Note::DiskFault);
    is_said(rt, alloc, ScanFault::NoMemory, Note::NoMemory);
}

pub fn faults_of_ids(rt: &impl Abort, alloc: Global) {
    is_said(
        rt,
        alloc,
        IssueFault::NoMore { run: 13 },
        Note::NoMore { run: 13 },
    );
    is_said(
        rt,
        alloc,
        IssueFault::Busy { held: 10_000 },
        Note::Busy { held: 10_000 },
    );
    is_said(rt, alloc, IssueFault::NoMemory, Note::NoMemory);
}

pub fn faults_of_frames(rt: &impl Abort, alloc: Global) {
    for (why, same) in [
        (RelpWhy::Digits, Why::Digits),
        (RelpWhy::Space, Why::Space),
        (RelpWhy::Command, Why::Command),
        (RelpWhy::TooLong, Why::TooLong),
        (RelpWhy::Trailer, Why::Trailer),
    ] {
        is_said(
            rt,
            alloc,
            RelpFault { at: 29, why },
            Note::Fault { at: 29, why: same },
        );
    }
    for (why, same) in [
        (LumberWhy::Version, Why::Version),
        (LumberWhy::Kind, Why::Kind),
        (LumberWhy::Compressed, Why::Compressed),
        (LumberWhy::AckFromWriter, Why::AckFromWriter),
        (LumberWhy::TooLong, Why::TooLong),
        (LumberWhy::TooMany, Why::TooMany),
    ] {
        is_said(
            rt,
            alloc,
            LumberFault { at: 29, why },
            Note::Fault { at: 29, why: same },
        );
    }
    for (why, same) in [
        (HttpWhy::BadHead, Why::BadHead),
        (HttpWhy::BadLength, Why::BadLength),
        (HttpWhy::TooLong, Why::TooLong),
        (HttpWhy::BadChunk, Why::BadChunk),
    ] {
        is_said(
            rt,
            alloc,
            HttpFault { at: 29, why },
            Note::Fault { at: 29, why: same },
        );
    }
}

// The message is this text.
fn says<F: Display + Drop>(rt: &impl Abort, alloc: Global, fault: F, text: &str) {
    let message = format!(in alloc; "{fault}").expect(rt, "memory");
    assert!(rt; message.as_str() == text, "{text}");
}

// The message is the text of the reply with this code, and after it what of the body is at fault.
fn is_replied<F: Display + Drop>(
    rt: &impl Abort,
    alloc: Global,
    fault: F,
    code: HecCode,
    rest: &str,
) {
    let message = format!(in alloc; "{fault}").expect(rt, "memory");
    let text = message
        .as_str()
        .strip_suffix(rest)
        .expect(rt, "what is at fault");
    let body = say_body(alloc, &HecSay::of(code, None)).expect(rt, "memory");
    let number = code.number();
    let due = format!(in alloc; "{{\"text\":\"{text}\",\"code\":{number}}}").expect(rt, "memory");
    assert_eq!(rt; due.as_bytes(), body.bytes());
}

pub fn faults_of_bodies(rt: &impl Abort, alloc: Global) {
    let event = 31;
    is_replied(rt, alloc, BodyFault::NoData, HecCode::EmptyBody, "");
    is_replied(
        rt,
        alloc,
        BodyFault::Format { event },
        HecCode::InvalidFormat,
        ": event 31",
    );
    is_replied(
        rt,
        alloc,
        BodyFault::NoEvent { event },
        HecCode::EventRequired,
        ": event 31",
    );
    is_replied(
        rt,
        alloc,
        BodyFault::Blank { event },
        HecCode::EventBlank,
        ": event 31",
    );
    is_replied(
        rt,
        alloc,
        BodyFault::TooMany,
        HecCode::InvalidFormat,
        ": more than 10000 events",
    );
    is_said(rt, alloc, BodyFault::NoMemory, Note::NoMemory);
    is_replied(rt, alloc, AckFault::Format, HecCode::InvalidFormat, "");
    is_said(rt, alloc, AckFault::NoMemory, Note::NoMemory);
}

pub fn faults_of_words(rt: &impl Abort, alloc: Global) {
    says(rt, alloc, WordsFault::NoCommand, "no command is named");
    says(rt, alloc, WordsFault::Slots, "SLOTS: 1 to 1024");
    says(
        rt,
        alloc,
        WordsFault::Tokens,
        "--tokens: 1 to 1000 lines, each a GUID or a GUID and ack",
    );
    says(
        rt,
        alloc,
        WordsFault::NoForward,
        "--to: --forward is needed",
    );
}

pub fn faults_of_files(rt: &impl Abort, alloc: Global) {
    says(rt, alloc, OpenFault::NotFound, "not found");
    says(rt, alloc, OpenFault::Mounted, "its file system is mounted");
    says(rt, alloc, PairFault::First(OpenFault::InUse), "in use");
    says(
        rt,
        alloc,
        PairFault::Second(OpenFault::IsFolder),
        "a folder",
    );
    says(rt, alloc, PairFault::OneFile, "both names are of one file");
    is_said(rt, alloc, OpenFault::NoMemory, Note::NoMemory);
}

pub fn faults_of_edges(rt: &impl Abort, alloc: Global) {
    is_said(rt, alloc, DiskFault, Note::DiskFault);
    is_said(rt, alloc, ReadFault, Note::ReadFault);
    is_said(rt, alloc, WriteFault, Note::WriteFault);
    is_said(rt, alloc, Stopped { sent: 37 }, Note::WriteFault);
    is_said(rt, alloc, AcceptFault, Note::NetFault);
    is_said(rt, alloc, NetFault::Fault, Note::NetFault);
    is_said(rt, alloc, NetFault::NoMemory, Note::NoMemory);
}

pub fn faults_of_json(rt: &impl Abort, alloc: Global) {
    says(rt, alloc, JsonFault::Cut, "JSON ends too early");
    says(rt, alloc, JsonFault::NotJson { at: 41 }, "no JSON at 41");
    says(
        rt,
        alloc,
        JsonFault::TooDeep { at: 43 },
        "JSON too deep at 43",
    );
}

pub fn faults_of_readers(rt: &impl Abort, alloc: Global) {
    let at = 29;
    says(rt, alloc, EntryFault::BadEntry { at: 25 }, "no entry at 25");
    is_said(rt, alloc, EntryFault::NoMemory, Note::NoMemory);
    is_said(
        rt,
        alloc,
        FeedFault::Fault(RelpFault {
            at,
            why: RelpWhy::Trailer,
        }),
        Note::Fault {
            at,
            why: Why::Trailer,
        },
    );
    is_said(rt, alloc, FeedFault::<HttpFault>::NoMemory, Note::NoMemory);
}

pub fn faults_of_loads(rt: &impl Abort, alloc: Global) {
    let talk = Talk::WriteFault;
    says(rt, alloc, Unloaded::Replayed { talk }, "the replay failed");
    let sent = Sent::PeerClosed;
    says(rt, alloc, Unloaded::Drained { sent }, "the drain failed");
    is_said(rt, alloc, Unloaded::NoMemory, Note::NoMemory);
}

pub fn faults_of_slots(rt: &impl Abort, alloc: Global) {
    for (why, text) in [
        (Unsoundness::Cut, "slot 5: FILE ends at byte 16401"),
        (
            Unsoundness::Broken { before: 7 },
            "slot 5: no whole group at byte 16401; entries before it: 7",
        ),
        (
            Unsoundness::Unheld,
            "slot 5: no whole group at byte 16401; no memory for the entries before it",
        ),
        (
            Unsoundness::TooHigh,
            "slot 5: numbers above 2^63 at byte 16401",
        ),
        (
            Unsoundness::Unread,
            "slot 5: a read failed, from byte 16401 on",
        ),
    ] {
        let fault = Unsound {
            place: 5,
            at: 16401,
            why,
        };
        says(rt, alloc, fault, text);
    }
}

pub fn faults_of_arguments(rt: &impl Abort, alloc: Global) {
    says(rt, alloc, NoArguments::NoText, "a word is no UTF-8");
    is_said(rt, alloc, NoArguments::NoMemory, Note::NoMemory);
}
