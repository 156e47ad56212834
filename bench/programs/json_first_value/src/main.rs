//! How fast json_span's `first_value` passes over an array of log objects, beside `serde_json` over the
//! same bytes: once where it passes over the members too, and once where it builds the whole value.
#![tactic(auto)]

use anyhow::bail;
use json_span::first_value;
use serde::Deserialize;
use serde_json::Value;
use std::alloc::{AllocError, Global};
use std::hint::black_box;
use std::num::nearest_usize_to_f64;
use std::time::{Duration, Instant};

// How many objects an array has, and how often it is read: one of about 64 MiB, and one of 1 MiB, whose
// short runs say more where other work goes on beside.
const LONG: (u32, u32) = (315_000, 5);

const SHORT: (u32, u32) = (5_000, 200);

/// An object of a log of which no member is kept.
#[derive(Debug, Drop, Deserialize)]
struct Passed {}

/// A log object of about 200 bytes.
fn log_object(alloc: Global, number: u16) -> Result<String, AllocError> {
    let number = u32::from(number);
    let seconds = number % 60;
    let millis = number * 37 % 1000;
    let client = number * 7 % 256;
    let level = match number % 8 {
        0 => "error",
        1 | 2 => "warning",
        _ => "info",
    };
    let message = match number % 4 {
        0 => r#"GET \"/api/v1/items?limit=50\" took too long"#,
        1 => r"connection reset by peer\n\tat net.read",
        2 => "user déjà connecté, session renewed",
        _ => "request completed and answered in time",
    };
    format!(in alloc;
        r#"{{"time":"2026-11-27T01:02:{seconds:02}.{millis:03}Z","level":"{level}","message":"{message}","host":{{"name":"web-{client}.example.org","pid":{number}}},"status":200,"seconds":0.{millis:03},"tags":["http",null,true]}}"#
    )
}

/// An array of so many of these objects.
fn log_array(alloc: Global, objects: u32) -> Result<Vec<u8>, AllocError> {
    let mut bytes = Vec::from_slice(alloc, b"[")?;
    for number in 0..objects {
        if number > 0 {
            bytes.push(b',')?;
        }
        let object = log_object(alloc, (number % 10_000) as u16)?;
        bytes.extend_from_slice(object.as_bytes())?;
    }
    bytes.push(b']')?;
    Ok(bytes)
}

/// Millions of bytes a second.
fn rate(bytes: &[u8], taken: Duration) -> f64 {
    nearest_usize_to_f64(bytes.len()) / taken.as_secs_f64() / 1e6
}

/// The best rate of `first_value` over the bytes, and that of `serde_json` passing over them.
fn measure(rt: &HostRuntime, bytes: &[u8], rounds: u32) -> anyhow::Result<(f64, f64)> {
    let mut ours = Duration::MAX;
    let mut passing = Duration::MAX;
    for _ in 0..rounds {
        let start = Instant::now(rt)?;
        let span = black_box(first_value(bytes, 0));
        ours = ours.min(start.elapsed(rt)?);
        if span.map(|span| span.end) != Ok(bytes.len()) {
            bail!("first_value: another span");
        }
        let start = Instant::now(rt)?;
        let objects: Vec<Passed> = serde_json::from_slice(rt.alloc(), bytes)?;
        passing = passing.min(start.elapsed(rt)?);
        black_box(objects.len());
    }
    Ok((rate(bytes, ours), rate(bytes, passing)))
}

fn main(rt: HostRuntime) -> anyhow::Result<()> {
    let alloc = rt.alloc();
    for (objects, rounds) in [SHORT, LONG] {
        let bytes = log_array(alloc, objects)?;
        let (ours, passing) = measure(&rt, &bytes, rounds)?;
        println!(rt;
            "{objects} log objects of {} bytes, the best of {rounds} runs each",
            bytes.len()
        )?;
        println!(rt; "    first_value: {ours:.0} MB/s")?;
        println!(rt;
            "    serde_json, members passed over: {passing:.0} MB/s, ratio {:.2}",
            ours / passing
        )?;
        let start = Instant::now(&rt)?;
        let value = Value::from_slice(alloc, &bytes)?;
        let building = rate(&bytes, start.elapsed(&rt)?);
        black_box(value.is_array());
        println!(rt;
            "    serde_json, the value built, one run: {building:.0} MB/s, ratio {:.2}",
            ours / building
        )?;
    }
    Ok(())
}
