//! The classifier for C, `threadwicket_classify_raw`: kind 8. The body is the length of the reading, `room` (u8), an endpoint (family,
//! address 16, port) and a packet; the reading holds a5 throughout before the call. The answer is a number (u16), then all of the
//! reading. Where `room` is 8 or more, the number is 01's of the disposition, and the reading begins with the number of extension headers
//! passed (u64); where it is less, the number is 256 and nothing is written. What is expected is what `classify_l3_udp_source` gives. The
//! original does not count the headers: `plain` does, from 01 ('Reading a packet').

use super::{endpoint, lent, Amount, Sink, Suite};
use crate::rng::Rng;
use opc_egress_fence_common::{classify_l3_udp_source, PacketEndpointDisposition, ProtectedEndpoint};
use plain::headers_passed;

const KIND: u8 = 8;

pub const SUITE: Suite = Suite {
    name: "packet",
    what: "the classifier for C, against classify_l3_udp_source, with 01's count of extension headers",
    outcomes: OUTCOMES,
    run,
};

/// The outcomes: a disposition and a count of headers, or neither.
const OUTCOMES: &[&str] = &[
    "Protected after 0 headers",
    "Protected after 1 header",
    "Protected after 2 headers",
    "Protected after 3 headers",
    "Protected after 4 headers",
    "Unrelated after 0 headers",
    "Unrelated after 1 header",
    "Unrelated after 2 headers",
    "Unrelated after 3 headers",
    "Unrelated after 4 headers",
    "Indeterminate after 0 headers",
    "Indeterminate after 1 header",
    "Indeterminate after 2 headers",
    "Indeterminate after 3 headers",
    "Indeterminate after 4 headers",
    lent::NO_READING,
];

/// An endpoint as a query has it. The original cannot hold a family that is neither 4 nor 6; 01 has it give Indeterminate.
#[derive(Clone, Copy)]
pub struct Endpoint {
    pub family: u8,
    pub address: [u8; 16],
    pub port: u16,
}

impl Endpoint {
    pub fn original(&self) -> Option<ProtectedEndpoint> {
        endpoint::original(self.family, &self.address, self.port)
    }

    pub fn bytes(&self) -> Vec<u8> {
        endpoint::endpoint_bytes(self.family, &self.address, self.port)
    }
}

/// The disposition's number and the headers passed.
fn read(packet: &[u8], endpoint: &Endpoint) -> (u8, u8) {
    let Some(original) = endpoint.original() else {
        return (2, 0);
    };
    let disposition = match classify_l3_udp_source(packet, original) {
        PacketEndpointDisposition::Protected => 0,
        PacketEndpointDisposition::Unrelated => 1,
        PacketEndpointDisposition::Indeterminate => 2,
    };
    (disposition, headers_passed(packet, original))
}

/// Asks with just the room that a reading takes.
fn ask(sink: &mut dyn Sink, packet: &[u8], endpoint: &Endpoint) {
    ask_in(sink, packet, endpoint, lent::READING);
}

/// Asks with `room` bytes for the reading.
fn ask_in(sink: &mut dyn Sink, packet: &[u8], endpoint: &Endpoint, room: u8) {
    let (disposition, headers) = read(packet, endpoint);
    let outcome = OUTCOMES[usize::from(disposition * 5 + headers)];
    let (answer, outcome) = lent::reading(room, disposition, headers, outcome);
    let body = [&[room], endpoint.bytes().as_slice(), packet].concat();
    sink.push(KIND, &body, &answer, outcome);
}

pub const IPV4: Endpoint = Endpoint {
    family: 4,
    address: [192, 0, 2, 10, 0, 0, 0, 0, 0, 0, 0, 0, 0, 0, 0, 0],
    port: 4500,
};
pub const IPV6: Endpoint = Endpoint {
    family: 6,
    address: [0x20, 1, 0xd, 0xb8, 0, 0, 0, 0, 0, 0, 0, 0, 0, 0, 0, 0x10],
    port: 4500,
};

/// An IPv4 packet from the protected address with `words` words of options.
fn ipv4(words: u8, protocol: u8, payload: &[u8]) -> Vec<u8> {
    let header = 20 + 4 * usize::from(words);
    let total = (header + payload.len()) as u16;
    let mut packet = vec![0x45 + words, 0];
    packet.extend(total.to_be_bytes());
    packet.extend([0, 0, 0, 0, 64, protocol, 0, 0]);
    packet.extend(&IPV4.address[..4]);
    packet.extend([198, 51, 100, 1]);
    packet.resize(header, 1);
    packet.extend(payload);
    packet
}

/// An IPv6 packet from the protected address.
pub fn ipv6(next: u8, payload: &[u8]) -> Vec<u8> {
    let mut packet = vec![0x60, 0, 0, 0];
    packet.extend((payload.len() as u16).to_be_bytes());
    packet.extend([next, 64]);
    packet.extend(IPV6.address);
    packet.extend([0x20, 1, 0xd, 0xb8, 0, 0, 0, 0, 0, 0, 0, 0, 0, 0, 0, 1]);
    packet.extend(payload);
    packet
}

/// A UDP header from a port.
fn udp(port: u16) -> Vec<u8> {
    [port.to_be_bytes().as_slice(), &[0, 53, 0, 8, 0, 0]].concat()
}

/// An extension header of a value with the length byte `n`, which says that `next` follows.
fn extension(value: u8, next: u8, n: u8) -> Vec<u8> {
    let length = match value {
        44 => 8,
        51 => 4 * (usize::from(n) + 2),
        _ => 8 * (usize::from(n) + 1),
    };
    let mut header = vec![next, if value == 44 { 0 } else { n }];
    header.resize(length, 0);
    header
}

/// The payload of a chain of extension headers, each a value and a length byte, and what follows it: the first value and the bytes.
fn chain(headers: &[(u8, u8)], last: u8, rest: &[u8]) -> (u8, Vec<u8>) {
    let mut payload = Vec::new();
    for (index, &(value, n)) in headers.iter().enumerate() {
        let next = headers.get(index + 1).map_or(last, |header| header.0);
        payload.extend(extension(value, next, n));
    }
    payload.extend(rest);
    (headers.first().map_or(last, |header| header.0), payload)
}

fn chained(headers: &[(u8, u8)], last: u8, rest: &[u8]) -> Vec<u8> {
    let (first, payload) = chain(headers, last, rest);
    ipv6(first, &payload)
}

/// Good packets of both families, with 0 to 5 extension headers of every kind.
fn good_packets() -> Vec<(Vec<u8>, Endpoint)> {
    let udp = udp(4500);
    let deep = [(0, 0), (43, 1), (44, 0), (51, 0), (60, 2)];
    let mut packets = vec![
        (ipv4(0, 17, &udp), IPV4),
        (ipv4(1, 17, &udp), IPV4),
        (ipv4(10, 17, &udp), IPV4),
        (ipv4(0, 6, &udp), IPV4),
    ];
    for depth in 0..=deep.len() {
        packets.push((chained(&deep[..depth], 17, &udp), IPV6));
        packets.push((chained(&deep[..depth], 58, &udp), IPV6));
    }
    packets.push((chained(&[(51, 1)], 17, &udp), IPV6));
    packets.push((chained(&[(51, 0), (51, 1), (51, 2), (51, 4)], 17, &udp), IPV6));
    packets
}

fn run(sink: &mut dyn Sink, amount: Amount) {
    named_cases(sink);
    let good = good_packets();
    for (packet, endpoint) in &good {
        for room in lent::rooms() {
            ask_in(sink, packet, endpoint, room);
        }
        cut(sink, packet, endpoint);
        for other in other_endpoints(endpoint) {
            ask(sink, packet, &other);
        }
        every_byte(sink, packet, endpoint);
    }
    every_next_header(sink);
    let mut rng = Rng::new(8);
    for _ in 0..amount.random(10_000_000) {
        random(sink, &mut rng, &good);
    }
}

/// The cases that 01 has run and not proved: chains of four headers and five, payload length 0, AH with n = 0, trailing bytes.
fn named_cases(sink: &mut dyn Sink) {
    let udp = udp(4500);
    for count in [4, 5] {
        for value in [0, 43, 44, 51, 60] {
            ask(sink, &chained(&vec![(value, 0); count], 17, &udp), &IPV6);
        }
    }
    ask(sink, &ipv6(17, &[]), &IPV6);
    ask(sink, &chained(&[(51, 0)], 17, &udp), &IPV6);
    for packet in [ipv4(0, 17, &udp), chained(&[(0, 0)], 17, &udp)] {
        let endpoint = if packet[0] >> 4 == 4 { IPV4 } else { IPV6 };
        for trailing in 0..32 {
            ask(sink, &[packet.as_slice(), &vec![0x11; trailing]].concat(), &endpoint);
        }
    }
}

/// Every packet cut from one, from its end and, with the lengths that its header states, from within.
fn cut(sink: &mut dyn Sink, packet: &[u8], endpoint: &Endpoint) {
    for length in 0..=packet.len() {
        ask(sink, &packet[..length], endpoint);
        let mut stated = packet[..length].to_vec();
        if endpoint.family == 4 && length >= 4 {
            stated[2..4].copy_from_slice(&(length as u16).to_be_bytes());
        } else if endpoint.family == 6 && length >= 40 {
            stated[4..6].copy_from_slice(&((length - 40) as u16).to_be_bytes());
        }
        ask(sink, &stated, endpoint);
        // the lengths stated, and the bytes after the end still there
        let whole = [stated.as_slice(), &packet[length..]].concat();
        ask(sink, &whole, endpoint);
    }
}

/// Endpoints that differ from one in the family, a spare byte, an address byte or the port.
fn other_endpoints(endpoint: &Endpoint) -> Vec<Endpoint> {
    let mut others: Vec<Endpoint> = (0..=255).map(|family| Endpoint { family, ..*endpoint }).collect();
    for place in 0..16 {
        let mut address = endpoint.address;
        address[place] ^= 0x40;
        others.push(Endpoint { address, ..*endpoint });
    }
    others.extend([0, 1, 4499, 4501, 0x9411, 65535].map(|port| Endpoint { port, ..*endpoint }));
    others
}

fn every_byte(sink: &mut dyn Sink, packet: &[u8], endpoint: &Endpoint) {
    let mut altered = packet.to_vec();
    for place in 0..packet.len() {
        for value in 0..=255 {
            altered[place] = value;
            ask(sink, &altered, endpoint);
        }
        altered[place] = packet[place];
    }
}

/// Every next-header value after 0 to 5 extension headers, with room for a UDP header and without, and every length byte.
fn every_next_header(sink: &mut dyn Sink) {
    let deep = [(60, 0), (51, 0), (44, 0), (43, 0), (0, 0)];
    for depth in 0..=deep.len() {
        for value in 0..=255u8 {
            for room in [0, 1, 2, 7, 8, 16, 64] {
                let mut rest = udp(4500);
                rest.extend(udp(4500));
                rest.resize(room, 17);
                ask(sink, &chained(&deep[..depth], value, &rest), &IPV6);
            }
        }
    }
    for value in 0..=255u8 {
        let mut packet = chained(&[(43, value), (51, value)], 17, &udp(4500));
        ask(sink, &packet, &IPV6);
        packet.pop();
        ask(sink, &packet, &IPV6);
    }
}

/// A random chain, most often a deep one, or a good packet; a byte, the end, the stated length or the room is altered now and then.
fn random(sink: &mut dyn Sink, rng: &mut Rng, good: &[(Vec<u8>, Endpoint)]) {
    let (mut packet, endpoint) = if rng.one_in(4) {
        let index = rng.below(good.len());
        good[index].clone()
    } else {
        (random_chain(rng), IPV6)
    };
    for _ in 0..rng.pick(&[0, 0, 1, 1, 2]) {
        let place = rng.below(packet.len());
        packet[place] = if rng.one_in(2) {
            rng.byte()
        } else {
            rng.pick(&[0, 1, 6, 17, 43, 44, 50, 51, 58, 59, 60, 255])
        };
    }
    match rng.below(8) {
        0 => packet.truncate(rng.below(packet.len() + 1)),
        1 => packet.extend(vec![0x11; rng.below(24)]),
        2 if packet.len() >= 6 => {
            let stated = if packet[0] >> 4 == 4 { 3 } else { 5 };
            packet[stated] = packet[stated].wrapping_add(rng.pick(&[1, 8, 255, 248]));
        }
        _ => {}
    }
    ask_in(sink, &packet, &endpoint, lent::some_room(rng));
}

pub fn random_chain(rng: &mut Rng) -> Vec<u8> {
    let depth = rng.pick(&[0, 1, 2, 3, 3, 4, 4, 4, 4, 5, 5, 6]);
    let headers: Vec<(u8, u8)> = (0..depth)
        .map(|_| (rng.pick(&[0, 43, 44, 51, 60]), rng.pick(&[0, 0, 0, 1, 2, 3])))
        .collect();
    let last = if rng.one_in(3) {
        rng.pick(&[6, 50, 58, 59, 41, 135])
    } else {
        17
    };
    let port = if rng.one_in(3) { rng.next() as u16 } else { 4500 };
    chained(&headers, last, &udp(port))
}
