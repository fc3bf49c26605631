//! The joined gate for C, `threadwicket_gate_raw`: kind 56, against the plain gate of `oracle/plain`. The body is the length of the reading,
//! `room` (u8); the lengths of the configuration and the current record (u8 each), the attachment number, the socket (family, address,
//! port), cookie and boot time; a filler record and how often it stands before and after the table's own bytes (u16 each); the length
//! of those (u16); then configuration, current record, the table's own bytes, and the packet. The reading holds a5 throughout before the
//! call. The answer is a number (u16), then all of the reading. Where `room` is 8 or more, the number is the verdict's slot, or 255 where
//! it has none, and the reading begins with the number of extension headers passed (u64); where it is less, the number is 256 and nothing
//! is written.

use super::packet::{self, ipv6, Endpoint};
use super::sound::edge;
use super::{lent, verdict, Amount, Sink, Suite};
use crate::rng::Rng;
use opc_egress_fence_common::*;
use plain::{gate_with_headers, Call, Socket};

const KIND: u8 = 56;

pub const SUITE: Suite = Suite {
    name: "gate",
    what: "the joined gate for C, against a plain one made of the original's parts",
    outcomes: &[
        "rule 1",
        "rule 2",
        "rule 3",
        "rule 4",
        "rule 5",
        "rule 6",
        "rule 7",
        "rule 8",
        "rule 9",
        "rule 10",
        "rule 11",
        "rule 12",
        "rule 13",
        lent::NO_READING,
    ],
    run,
};

/// A call of the gate. Its table is bytes of its own, with a record repeated before and after them.
#[derive(Clone)]
pub struct Asked {
    pub config: Vec<u8>,
    pub attachment: u64,
    pub socket: Endpoint,
    pub packet: Vec<u8>,
    pub cookie: u64,
    pub current: Vec<u8>,
    filler: [u8; 40],
    before: u16,
    own: Vec<u8>,
    after: u16,
    pub now: u64,
}

impl Asked {
    /// The whole table.
    pub fn table(&self) -> Vec<u8> {
        let mut table = self.filler.repeat(self.before.into());
        table.extend(&self.own);
        table.extend(self.filler.repeat(self.after.into()));
        table
    }

    /// The body of a query with `room` bytes for the reading.
    fn body(&self, room: u8) -> Vec<u8> {
        let mut body = vec![room, self.config.len() as u8, self.current.len() as u8];
        body.extend(self.attachment.to_le_bytes());
        body.extend(self.socket.bytes());
        body.extend(self.cookie.to_le_bytes());
        body.extend(self.now.to_le_bytes());
        body.extend(self.filler);
        body.extend(self.before.to_le_bytes());
        body.extend(self.after.to_le_bytes());
        body.extend((self.own.len() as u16).to_le_bytes());
        body.extend(&self.config);
        body.extend(&self.current);
        body.extend(&self.own);
        body.extend(&self.packet);
        body
    }
}

/// Asks with just the room that a reading takes.
fn ask(sink: &mut dyn Sink, it: &Asked) {
    ask_in(sink, it, lent::READING);
}

/// Asks with `room` bytes for the reading.
fn ask_in(sink: &mut dyn Sink, it: &Asked, room: u8) {
    let table = it.table();
    let socket = Socket {
        family: it.socket.family,
        address: it.socket.address,
        port: it.socket.port,
    };
    let (judged, headers) = gate_with_headers(&Call {
        config: &it.config,
        attachment: it.attachment,
        socket,
        packet: &it.packet,
        cookie: it.cookie,
        current: &it.current,
        table: &table,
        now: it.now,
    });
    let outcome = SUITE.outcomes[usize::from(judged.rule) - 1];
    let (answer, outcome) = lent::reading(room, verdict::slot(judged.verdict), headers, outcome);
    sink.push(KIND, &it.body(room), &answer, outcome);
}

/// A call with something altered.
fn altered(base: &Asked, alter: impl Fn(&mut Asked)) -> Asked {
    let mut it = base.clone();
    alter(&mut it);
    it
}

/// A cookie value that is Active until a deadline.
fn value(cookie: u64, token: u64, deadline: u64) -> [u8; 40] {
    let key = FenceCookieKey::new(cookie, token).expect("neither is 0");
    let entry = FenceEntry::active(token, deadline, 2).expect("the entry is sound");
    FenceCookieValue::new(key, entry).expect("the tokens agree").encode()
}

/// The socket's own record in one of the three closed states.
fn closed(state: usize) -> [u8; 40] {
    let entry = [
        FenceEntry::initial_closed(3),
        FenceEntry::terminal_closed(3, 2),
        FenceEntry::reclaiming(3, 2),
    ][state];
    let key = FenceCookieKey::new(9, 3).expect("neither is 0");
    FenceCookieValue::new(key, entry.expect("the entry is sound"))
        .expect("the tokens agree")
        .encode()
}

/// The configuration of an endpoint under a root cgroup.
fn config(endpoint: &Endpoint, root: u64) -> Vec<u8> {
    let endpoint = endpoint.original().expect("the family is 4 or 6");
    FenceConfig::new(endpoint, root, 4096)
        .expect("the configuration is sound")
        .encode()
        .to_vec()
}

/// A call that is allowed: 01's case, over IPv4 or over IPv6 with an extension header.
pub fn allowed(endpoint: &Endpoint) -> Asked {
    let udp = [0x11, 0x94, 0, 53, 0, 8, 0, 0];
    let packet = if endpoint.family == 4 {
        vec![
            0x45, 0, 0, 28, 0, 0, 0, 0, 64, 17, 0, 0, 192, 0, 2, 10, 198, 51, 100, 1, 0x11, 0x94, 0, 53, 0, 8, 0, 0,
        ]
    } else {
        ipv6(60, &[&[17, 0, 0, 0, 0, 0, 0, 0], udp.as_slice()].concat())
    };
    Asked {
        config: config(endpoint, 7),
        attachment: 7,
        socket: Endpoint {
            family: 0,
            address: [0; 16],
            port: 0,
        },
        packet,
        cookie: 9,
        current: CurrentFenceToken::registered(3, 9)
            .expect("the token is odd")
            .encode()
            .to_vec(),
        filler: value(8, 3, 1000),
        before: 0,
        own: value(9, 3, 1000).to_vec(),
        after: 0,
        now: 999,
    }
}

fn run(sink: &mut dyn Sink, amount: Amount) {
    for endpoint in [packet::IPV4, packet::IPV6] {
        let base = allowed(&endpoint);
        each_rule(sink, &base);
        sockets(sink, &base, &endpoint);
        tables(sink, &base, amount);
        cuts(sink, &base);
    }
    let mut rng = Rng::new(56);
    for _ in 0..amount.random(1_000_000) {
        let endpoint = rng.pick(&[packet::IPV4, packet::IPV6]);
        let mut it = allowed(&endpoint);
        for _ in 0..rng.pick(&[0, 1, 1, 1, 2, 2, 3]) {
            perturb(&mut it, &mut rng, &endpoint);
        }
        ask_in(sink, &it, lent::some_room(&mut rng));
    }
}

/// An allowed call, and what each rule refuses or lets pass.
fn each_rule(sink: &mut dyn Sink, base: &Asked) {
    let mut but = |alter: &dyn Fn(&mut Asked)| ask(sink, &altered(base, alter));
    but(&|_| {});
    but(&|it| it.config.clear());
    but(&|it| it.attachment = 8);
    but(&|it| it.packet = vec![0x60]);
    but(&|it| it.packet.clear());
    but(&|it| it.cookie = 0);
    but(&|it| it.current = vec![1; 24]);
    but(&|it| it.own = vec![0; 39]);
    but(&|it| it.current = vec![0; 24]);
    for now in [0, 999, 1000, 1001, u64::MAX] {
        but(&|it| it.now = now);
    }
    for state in 0..3 {
        but(&|it| it.own = closed(state).to_vec());
    }
    let retired = CurrentFenceToken::retirement_closed(4).expect("the token is even").encode();
    but(&|it| it.current = retired.to_vec());
    // token 0 is not sought, though a record holds it; an even token is sought, and its record does not decode
    for (current, token) in [([0; 24], 0), (retired, 4)] {
        but(&|it| {
            it.current = current.to_vec();
            it.own[16] = token;
        });
    }
    let open = CurrentFenceToken::lifecycle_open(3).expect("the token is odd").encode();
    but(&|it| it.current = open.to_vec());
}

/// Sockets that match, and that differ in one byte, the family or the port, with packets good and bad.
fn sockets(sink: &mut dyn Sink, base: &Asked, endpoint: &Endpoint) {
    for packet in [base.packet.clone(), vec![], vec![0x60], vec![0x45; 20]] {
        let with = |socket: Endpoint| altered(base, |it| (it.socket, it.packet) = (socket, packet.clone()));
        ask(sink, &with(*endpoint));
        for family in 0..=255 {
            ask(sink, &with(Endpoint { family, ..*endpoint }));
        }
        for place in 0..16 {
            let mut address = endpoint.address;
            address[place] ^= 0x80;
            ask(sink, &with(Endpoint { address, ..*endpoint }));
        }
        for port in [0, 4499, 4501, 0x9411] {
            ask(sink, &with(Endpoint { port, ..*endpoint }));
        }
    }
}

/// Tables of every length around a record's, and up to and over 4,096 records; the match first, last, twice and absent.
fn tables(sink: &mut dyn Sink, base: &Asked, amount: Amount) {
    let mut but = |alter: &dyn Fn(&mut Asked)| ask(sink, &altered(base, alter));
    for length in 0..=121 {
        but(&|it| it.own = base.filler.repeat(4)[..length].to_vec());
    }
    let counts: &[u16] = if amount == Amount::Full {
        &[1, 2, 3, 100, 4094, 4095, 4096, 4097]
    } else {
        &[1, 2, 3, 4095, 4096]
    };
    for &count in counts {
        but(&|it| it.before = count);
        but(&|it| it.after = count);
        but(&|it| (it.before, it.own) = (count, vec![]));
        but(&|it| (it.before, it.own) = (count, [value(9, 3, 999), value(9, 3, 1000)].concat()));
    }
    // a key that stands across two records is no record's
    for shift in 1..40 {
        but(&|it| it.own = [vec![0; shift], base.own.clone(), vec![0; 40 - shift]].concat());
    }
    for (first, second) in [(999, 1000), (1000, 999)] {
        but(&|it| it.own = [value(9, 3, first), value(9, 3, second)].concat());
    }
    for place in 0..40 {
        for byte in [0, 1, 2, 3, 4, 0xff] {
            but(&|it| it.own[place] = byte);
        }
    }
}

/// Configurations, current records, packets and readings of other lengths.
fn cuts(sink: &mut dyn Sink, base: &Asked) {
    for length in 0..=41 {
        ask(sink, &altered(base, |it| it.config.resize(length, 0)));
        ask(sink, &altered(base, |it| it.current.resize(length, 0)));
    }
    for length in 0..base.packet.len() {
        ask(sink, &altered(base, |it| it.packet.truncate(length)));
    }
    for room in lent::rooms() {
        ask_in(sink, base, room);
    }
}

/// Alters one part of a call.
pub fn perturb(it: &mut Asked, rng: &mut Rng, endpoint: &Endpoint) {
    match rng.below(13) {
        0 => flip(&mut it.config, rng),
        1 => flip(&mut it.current, rng),
        2 => flip(&mut it.own, rng),
        3 => flip(&mut it.packet, rng),
        4 => it.packet.truncate(rng.below(it.packet.len() + 1)),
        5 => it.attachment = edge(rng),
        6 => it.cookie = rng.pick(&[0, 8, 9, 10]),
        7 => it.now = rng.pick(&[0, 999, 1000, 1001, u64::MAX]),
        8 => it.socket = *endpoint,
        9 => it.before = rng.below(4) as u16,
        10 => it.own.truncate(rng.below(41)),
        11 => it.own = closed(rng.below(3)).to_vec(),
        _ => {
            it.own = [
                value(9, 3, 1 + rng.next() % 2000),
                value(rng.pick(&[8, 9]), rng.pick(&[1, 3]), 1000),
            ]
            .concat()
        }
    }
}

/// Alters one bit.
fn flip(bytes: &mut [u8], rng: &mut Rng) {
    if !bytes.is_empty() {
        let place = rng.below(bytes.len());
        bytes[place] ^= 1 << rng.below(8);
    }
}
