//! Workers that have a desk to themselves.
ghost use Rattle.std.specs.Prelude.{◌≡◌, ℕ, ◌+◌, ◌^◌, ◌≤◌, [], ◌∷◌, ◌++◌, List, Some, map, slice_get, IfOk, vec_len};
ghost use Rattle.std.specs.Vec.{vec_capacity};
ghost use Rattle.desk_access.specs.Call.{Record};
ghost use Rattle.desk_seats.specs.Passes.{Known};
ghost use Rattle.spool_turns.specs.Replays.{Closes, IsReal, desk_at};
ghost use Rattle.desk_access.specs.Division.{callers_of, each_of};
ghost use Rattle.serve_workers.specs.Crews.{AreNew, HaveWorked, returned_as, roster_as};
ghost use Rattle.serve_workers.specs.Answering.{MayAnswer};

use desk_seats::Seat;
use edge_disk::Disk;
use edge_io::Door;
use serve_workers::{Crew, NoCrew, Post, WorkerReport, hire};
use spool_desk::Desk;
use spool_turns::{Naming, Opened, Seated};
use std::alloc::Global;
use std::sync::Wait;
use std::thread::Threads;

/// What workers leave: the desk, and the door and the report of each, in their order.
#[derive(Drop)]
pub struct Served<P: Door, D: Disk> {
    pub desk: Desk<D>,
    pub doors: Vec<P>,
    pub reports: Vec<WorkerReport>,
}

// What workers leave once all have given up their seats: the doors, the passes in their order, and a report of each. It names no seat, so
// that the desk isn't borrowed any more.
struct Left<P, Q> {
    doors: Vec<P>,
    passes: Vec<Q>,
    reports: Vec<WorkerReport>,
}

// Hires workers beside a seat, and has them work. That seat's pass comes back after theirs. The error is the passes as they were given, and
// that of the seat after them.
fn crew_of<P: Door + Drop + Send, S: Seat + Send, R: Threads + Sync>(
    rt: &R,
    alloc: Global,
    seat: S,
    posts: Vec<Post<P>>,
    passes: Vec<S::Pass>,
    talks: u32,
) -> Result<Left<P, S::Pass>, Vec<S::Pass>>
where
    P::L: Send,
    S::Pass: Send,
    requires many { (vec_len passes ≡ vec_len posts) × (vec_len posts ≤ callers_of S.of_run.division) }
    requires room { vec_len passes + 1 ≤ vec_capacity passes }
    requires new { AreNew 0 (map S.pass_knows passes.items) }
    requires talks { talks ≤ each_of S.of_run.division }
    requires says { (i : ℕ) (post : _) → slice_get posts.items i ≡ Some post
        → MayAnswer S.is_real S.start S.of_run i (P.permits post.door) post.rules }

    ensures each { IfOk result (λ left. (workers : List Known) × (map S.pass_knows left.passes.items ≡ workers ++ S.knows seat ∷ [])
        × HaveWorked S.start S.of_run talks
        (roster_as (map (λ (post : _). post.rules) posts.items) (map (λ (post : _). P.told post.door) posts.items) (map S.pass_knows passes.items))
        (returned_as (map (λ (door : _). P.told door) left.doors.items) workers left.reports.items)) }
{
    match hire(alloc, &seat, posts, passes) {
        Ok(hired) => {
            let Crew {
                doors,
                mut passes,
                reports,
            } = hired.work(rt, alloc, talks);
            passes.push_reserved(seat.into_pass());
            Ok(Left {
                doors,
                passes,
                reports,
            })
        }
        Err(NoCrew { mut passes, .. }) => {
            passes.push_reserved(seat.into_pass());
            Err(passes)
        }
    }
}

/// Has a worker serve at each of the doors, with the passes of a desk that nobody else calls, and closes the desk. There is one pass more,
/// which makes no call. One journal left the desk, and each worker's part of it is the calls of the links that it served. The error is
/// want of memory, and the desk then.
pub fn serve_alone<
    P: Door + Drop + Send,
    D: Disk + Drop + Send,
    J: Naming + Send + Sync,
    R: Threads + Wait + Sync,
>(
    rt: &R,
    alloc: Global,
    opened: Opened<D, J>,
    posts: Vec<Post<P>>,
    talks: u32,
) -> Result<Served<P, D>, Desk<D>>
where
    P::L: Send,
    requires many { (vec_len opened.passes ≡ vec_len posts + 1) × (vec_len posts ≤ callers_of J.run.division) }
    requires new { AreNew 0 opened.passes.items }
    requires talks { talks ≤ each_of J.run.division }
    requires says { (i : ℕ) (post : _) → slice_get posts.items i ≡ Some post
        → MayAnswer (IsReal D.Disk J.start J.run J.seats J.began) J.start J.run i (P.permits post.door) post.rules }

    ensures journal { IfOk result (λ served. (log : List Record) × (old new : List Known) × (last : Known)
        × (opened.passes.items ≡ old ++ last ∷ []) × Closes D.tells J.start J.run J.seats J.began log (new ++ last ∷ []) (desk_at served.desk)
        × HaveWorked J.start J.run talks
        (roster_as (map (λ (post : _). post.rules) posts.items) (map (λ (post : _). P.told post.door) posts.items) old)
        (returned_as (map (λ (door : _). P.told door) served.doors.items) new served.reports.items)) }
{
    let Opened { shared, mut passes } = opened;
    let Some(pass) = passes.pop() else {
        unreachable!()
    };
    let seat = Seated {
        shared: &shared,
        pass,
        rt,
    };
    match crew_of(rt, alloc, seat, posts, passes, talks) {
        Ok(
            Left {
                doors,
                passes,
                reports,
            },
        ) => Ok(Served {
            desk: shared.close(passes),
            doors,
            reports,
        }),
        Err(passes) => Err(shared.close(passes)),
    }
}
