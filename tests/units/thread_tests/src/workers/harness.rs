//! Workers over a spool in memory.
ghost use Rattle.std.specs.Prelude.{◌≡◌, ◌+◌, ◌^◌, ◌≤◌, vec_len};
ghost use Rattle.desk_access.specs.declared.division.Division.TheVariants.{Workers};
ghost use Rattle.desk_access.specs.Division.{callers_of, each_of};
ghost use Rattle.spool_turns.specs.Named.{IsName};

use crate::desks::{formatted, named, to_share};
use crate::workers::alone::{Served, serve_alone};
use crate::workers::door::TestDoor;
use edge_memory::MemDisk;
use serve_workers::Post;
use spool_turns::{Naming, Unnamed};
use std::alloc::Global;
use std::marker::Brand;
use std::process::Abort;
use std::sync::Wait;
use std::thread::Threads;

// Serves at the doors, over the desk under its name, which has one pass more. With `group` takes of several workers may be stored as one group.
fn serve_named<J: Naming + Send + Sync, R: Abort + Threads + Wait + Sync>(
    rt: &R,
    alloc: Global,
    unnamed: Unnamed<MemDisk>,
    group: bool,
    posts: Vec<Post<TestDoor>>,
    talks: u32,
) -> Served<TestDoor, MemDisk>
    requires seats { vec_len posts + 1 ≡ J.seats }
    requires divided { J.run.division ≡ Workers }
    requires few { vec_len posts ≤ callers_of J.run.division }
    requires talks { talks ≤ each_of J.run.division }
    requires group { group ≡ J.began.grouped }
    requires name { IsName J.table J.run J.start J.began unnamed }
{
    let seats = posts.len() as u32 + 1;
    let opened = named::<MemDisk, J, R>(rt, alloc, unnamed, seats, group);
    let served = serve_alone(rt, alloc, opened, posts, talks).ok();
    served.expect(rt, "memory")
}

/// Serves at the doors, over an empty spool that was opened once. With `group` takes of several workers may be stored as one group.
pub(crate) fn served<R: Abort + Threads + Wait + Sync>(
    rt: &R,
    alloc: Global,
    group: bool,
    posts: Vec<Post<TestDoor>>,
    talks: u32,
) -> Served<TestDoor, MemDisk>
    requires few { vec_len posts ≤ 64 }
    requires talks { talks ≤ 2 ^ 26 }
{
    let unnamed = to_share(rt, alloc, formatted(rt, alloc, 65_536));
    serve_named::<Brand, R>(rt, alloc, unnamed, group, posts, talks)
}
