//! Scripts: steps one after another, each with what it says.
use crate::calls::spool_says;
use crate::many::makes_many;
use crate::play::{Play, compares, lays, makes_spool};
use crate::slots::registers::set_stops;
use crate::slots::slot_says;
use crate::stops::{alternates, format_stops, leaves_all_or_none};
use crate::words::word;
use std::alloc::Global;
use std::process::Abort;

/// A step: its name, what stands after that, and what it says.
#[derive(Clone, Copy)]
pub(crate) struct Step<'a> {
    pub name: &'a str,
    pub rest: &'a str,
    pub want: &'a str,
}

/// The step of a line.
pub(crate) fn step_of(line: &str) -> Step<'_> {
    let (spelled, want) = line.split_once(" = ").unwrap_or((line, ""));
    let (name, rest) = word(spelled);
    Step { name, rest, want }
}

// Whether the change or the format on the device can be stopped anywhere. `None`: the step is none of these.
fn stops(rt: &impl Abort, alloc: Global, device: &[u8], step: Step<'_>) -> Option<bool> {
    let rest = step.rest;
    match step.name {
        "stops" => Some(
            leaves_all_or_none(rt, alloc, device, rest) && alternates(rt, alloc, device, rest),
        ),
        "set_stops" => Some(set_stops(rt, alloc, device, rest)),
        "format_stops" => Some(format_stops(rt, alloc, device, rest)),
        _ => None,
    }
}

// Does one step, and answers whether it says what it has to.
fn follow(rt: &impl Abort, alloc: Global, play: &mut Play, line: &str) -> bool {
    let step = step_of(line);
    if step.name.is_empty() || step.name == "-" {
        return true;
    }
    if lays(rt, alloc, play, step) {
        return step.want.is_empty();
    }
    if let Some(is_well) = stops(rt, alloc, &play.device, step) {
        return is_well;
    }
    if let Some(is_well) = makes_spool(rt, alloc, play, step) {
        return is_well;
    }
    if let Some(is_well) = compares(rt, alloc, play, step) {
        return is_well;
    }
    if let Some(is_well) = slot_says(rt, alloc, play, step) {
        return is_well;
    }
    let Some(spool) = &mut play.spool else {
        return false;
    };
    if let Some(is_well) = makes_many(rt, alloc, spool, step) {
        return is_well;
    }
    spool_says(rt, alloc, spool, step)
}

/// Follows a script, whose steps these functions tell: [`lays`], [`makes_spool`], [`compares`], [`slot_says`],
/// [`makes_many`] and [`spool_says`]; each with what it says after ` = `. And these:
///
/// - `- TEXT`: what comes next;
/// - `stops CALLS | OLD | NEW | STEP`: the change on the device makes so many calls of the disk, writes and
///   syncs in turn. Wherever it is stopped, a crash leaves the old state or the new one: cursor, end and
///   what is pending;
/// - `set_stops CALLS | OLD | NEW | CHANGE`: the same of the register alone, whose calls with those of reading it
///   are so many; the state is what `register` says;
/// - `format_stops OLD`: a format of two slots leaves the old spool, none, or the empty one.
pub(crate) fn run_script(rt: &impl Abort, alloc: Global, script: &str) {
    let mut play = Play::new(alloc);
    for line in script.split('\n') {
        assert!(rt; follow(rt, alloc, &mut play, line), "{line}");
    }
}
