//! All that holds of whole sessions and of loads.
use crate::forwarding::sessions::{check_faults, check_rows, check_scattered};
use crate::forwarding::{hec_rows as hec, lumberjack_rows as lumberjack, relp_rows as relp};
use crate::loads::apart::check_apart;
use crate::loads::rows::{HEC, LUMBERJACK, RELP, check_lines};
use edge_io::Proto;

#[test]
fn sessions(rt: HostRuntime) {
    let alloc = rt.alloc();
    check_rows(&rt, alloc, Proto::Relp, relp::ROWS, 10);
    check_rows(&rt, alloc, Proto::Relp, relp::FAULTS, 7);
    check_rows(&rt, alloc, Proto::Relp, relp::CUTS, 4);
    check_rows(&rt, alloc, Proto::Lumberjack, lumberjack::ROWS, 7);
    check_rows(&rt, alloc, Proto::Hec, hec::ROWS, 18);
    check_scattered(&rt, alloc, relp::SCATTERED);
}

#[test]
fn disks_that_fail(rt: HostRuntime) {
    let alloc = rt.alloc();
    check_faults(&rt, alloc, Proto::Relp, relp::DISK);
    check_faults(&rt, alloc, Proto::Hec, hec::DISK);
}

#[test]
fn loads_by_relp(rt: HostRuntime) {
    check_apart(&rt, rt.alloc());
    check_lines(&rt, rt.alloc(), Proto::Relp, RELP);
}

#[test]
fn loads_by_lumberjack(rt: HostRuntime) {
    check_lines(&rt, rt.alloc(), Proto::Lumberjack, LUMBERJACK);
}

#[test]
fn loads_by_the_collectors_protocol(rt: HostRuntime) {
    check_lines(&rt, rt.alloc(), Proto::Hec, HEC);
}
