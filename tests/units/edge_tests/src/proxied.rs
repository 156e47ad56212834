//! Senders that come through proxies.
use crate::sockets::{bound, free_place, pair};
use edge_io::{ReadFault, Sink, Source};
use edge_net::{MOST_PROXIES, Proxies, Reports, TcpLink, TcpNet};
use std::net::{IpAddr, Ipv4Addr, Ipv6Addr};
use std::process::Abort;

// An address of a network for documentation (RFC 5737).
fn v4(last: u8) -> IpAddr {
    IpAddr::V4(Ipv4Addr::new(192, 0, 2, last))
}

// The same as IPv6 writes it (RFC 4291, 2.5.5.2).
fn mapped(last: u8) -> IpAddr {
    IpAddr::V6(Ipv6Addr::new(0, 0, 0, 0, 0, 0xffff, 0xc000, 0x0200 + u16::from(last)))
}

// One proxy more.
fn more(rt: &impl Abort, proxies: Proxies, address: IpAddr) -> Proxies {
    proxies.with(address).expect(rt, "room for it")
}

/// Eight addresses may be named, and one of IPv4 is the same however it is written.
pub(crate) fn proxies_are_named(rt: &impl Abort) {
    let none = Proxies::none();
    assert!(rt; none.is_none() && !none.have(v4(1)));
    let one = more(rt, none, mapped(1));
    assert!(rt; !one.is_none() && one.have(v4(1)) && one.have(mapped(1)) && !one.have(v4(2)));
    let six = IpAddr::V6(Ipv6Addr::new(0x2001, 0xdb8, 0, 0, 0, 0, 0, 1));
    let two = more(rt, one, six);
    assert!(rt; two.have(six) && two.have(v4(1)) && !two.have(mapped(2)));
    let mut all = Proxies::none();
    for last in 0..MOST_PROXIES as u8 {
        all = more(rt, all, v4(last));
    }
    assert!(rt; all.with(v4(9)).is_none());
    assert!(rt; all.have(v4(0)) && all.have(v4(7)) && !all.have(v4(8)));
}

// The two ends of a connection from this machine, where these proxies are named.
fn ends<'a>(
    rt: &(impl Abort + AllocGlobal),
    host: &'a HostRuntime,
    reports: &'a Reports,
) -> (TcpLink<'a, HostRuntime>, TcpLink<'a, HostRuntime>) {
    let mut net = TcpNet::new(rt.alloc(), host, reports);
    let place = free_place(rt, host);
    let mut door = bound(rt, &mut net, &place);
    pair(rt, &mut net, &mut door, &place)
}

// What is read after these bytes were sent by the proxy that is this machine, or a fault.
fn read_after(
    rt: &(impl Abort + AllocGlobal),
    host: &HostRuntime,
    proxy: IpAddr,
    bytes: &[u8],
) -> Result<(usize, [u8; 8]), ReadFault> {
    let reports = Reports::quiet().with_proxies(more(rt, Proxies::none(), proxy));
    let (mut near, mut far) = ends(rt, host, &reports);
    assert!(rt; near.write(bytes) == Ok(bytes.len()));
    let mut buf = [0; 8];
    let count = far.read(&mut buf)?;
    Ok((count, buf))
}

/// What follows a head is read, and nothing of a connection without one or past the proxies.
pub(crate) fn heads_come_first(rt: &(impl Abort + AllocGlobal), host: &HostRuntime) {
    let own = IpAddr::V4(Ipv4Addr::LOCALHOST);
    let line = b"PROXY TCP4 192.0.2.7 192.0.2.8 4711 2514\r\nfirst";
    let read = read_after(rt, host, own, line).expect(rt, "a head");
    assert!(rt; read == (5, *b"first\0\0\0"));
    let block = b"\r\n\r\n\0\r\nQUIT\n\x20\x00\x00\x03abcnext";
    let read = read_after(rt, host, own, block).expect(rt, "a head");
    assert!(rt; read == (4, *b"next\0\0\0\0"));
    assert!(rt; read_after(rt, host, own, b"1 open 0 \n").is_err());
    assert!(rt; read_after(rt, host, v4(1), line).is_err());
}

/// A link of which no head came is never read again.
pub(crate) fn what_has_no_head_is_never_read(rt: &(impl Abort + AllocGlobal), host: &HostRuntime) {
    let own = IpAddr::V4(Ipv4Addr::LOCALHOST);
    let reports = Reports::quiet().with_proxies(more(rt, Proxies::none(), own));
    let (mut near, mut far) = ends(rt, host, &reports);
    let bytes = b"XPROXY UNKNOWN\r\nlater";
    assert!(rt; near.write(bytes) == Ok(bytes.len()));
    assert!(rt; far.read(&mut [0; 8]) == Err(ReadFault));
    assert!(rt; far.read(&mut [0; 8]) == Err(ReadFault));
    let (near, mut far) = ends(rt, host, &reports);
    drop(near);
    assert!(rt; far.read(&mut [0; 8]) == Ok(0));
}
