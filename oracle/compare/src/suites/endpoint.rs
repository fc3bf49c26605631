//! The endpoint's constructors and match tests. Kind 2 makes an IPv4 endpoint (address 4, port), kind 3 an IPv6 one (address 16, port):
//! the answer is a number, then the endpoint (family, address 16, port). Kind 4 matches an endpoint with an IPv4 source, kind 5 with an
//! IPv6 one: the answer is 0 or 1.

use super::{Amount, Sink, Suite};
use crate::rng::Rng;
use opc_egress_fence_common::ProtectedEndpoint;

const IPV4: u8 = 2;
const IPV6: u8 = 3;
const MATCHES_IPV4: u8 = 4;
const MATCHES_IPV6: u8 = 5;

pub const MADE: Suite = Suite {
    name: "endpoint",
    what: "ProtectedEndpoint::ipv4 and ipv6, and the port of what they give",
    outcomes: &["IPv4 accepted", "IPv4 refused", "IPv6 accepted", "IPv6 refused"],
    run: run_made,
};

pub const MATCHED: Suite = Suite {
    name: "match",
    what: "matches_ipv4 and matches_ipv6, and 01's rule for a family that is neither",
    outcomes: &[
        "IPv4 source matches",
        "IPv4 source differs",
        "IPv4 source, IPv6 endpoint",
        "IPv4 source, no such family",
        "IPv6 source matches",
        "IPv6 source differs",
        "IPv6 source, IPv4 endpoint",
        "IPv6 source, no such family",
    ],
    run: run_matched,
};

const PORTS: [u16; 6] = [0, 1, 255, 256, 4500, 65535];

/// An endpoint as bytes: family, sixteen bytes of address, port.
pub fn endpoint_bytes(family: u8, address: &[u8], port: u16) -> Vec<u8> {
    let mut bytes = vec![family];
    bytes.extend_from_slice(address);
    bytes.resize(17, 0);
    bytes.extend_from_slice(&port.to_le_bytes());
    bytes
}

fn made(endpoint: Option<ProtectedEndpoint>) -> Vec<u8> {
    let (number, bytes) = match endpoint {
        None => (2, endpoint_bytes(0, &[], 0)),
        Some(made @ ProtectedEndpoint::Ipv4 { address, .. }) => (0, endpoint_bytes(4, &address, made.port())),
        Some(made @ ProtectedEndpoint::Ipv6 { address, .. }) => (0, endpoint_bytes(6, &address, made.port())),
    };
    [&[number], bytes.as_slice()].concat()
}

fn ask_ipv4(sink: &mut dyn Sink, address: [u8; 4], port: u16) {
    let answer = ProtectedEndpoint::ipv4(address, port);
    let outcome = if answer.is_some() { "IPv4 accepted" } else { "IPv4 refused" };
    sink.push(
        IPV4,
        &[address.as_slice(), &port.to_le_bytes()].concat(),
        &made(answer),
        outcome,
    );
}

fn ask_ipv6(sink: &mut dyn Sink, address: [u8; 16], port: u16) {
    let answer = ProtectedEndpoint::ipv6(address, port);
    let outcome = if answer.is_some() { "IPv6 accepted" } else { "IPv6 refused" };
    sink.push(
        IPV6,
        &[address.as_slice(), &port.to_le_bytes()].concat(),
        &made(answer),
        outcome,
    );
}

fn run_made(sink: &mut dyn Sink, amount: Amount) {
    let edges = [0, 1, 127, 128, 223, 224, 225, 239, 240, 255];
    for index in 0..edges.len().pow(4) {
        let address = std::array::from_fn(|place| edges[index / edges.len().pow(place as u32) % edges.len()]);
        for port in PORTS {
            ask_ipv4(sink, address, port);
        }
    }
    ipv6_edges(sink);
    let mut rng = Rng::new(2);
    for _ in 0..amount.random(600_000) {
        let port = if rng.one_in(16) { 0 } else { rng.next() as u16 };
        ask_ipv4(sink, rng.bytes(), port);
        ask_ipv6(sink, near_ipv6(&mut rng), port);
    }
}

/// Every first and second byte; and the places of the IPv4-mapped prefix and of the last byte crossed with each other.
fn ipv6_edges(sink: &mut dyn Sink) {
    for first in 0..=255u8 {
        for second in 0..=255u8 {
            let mut address = [0; 16];
            (address[0], address[1]) = (first, second);
            ask_ipv6(sink, address, 4500);
        }
    }
    let values = [0, 1, 0x7f, 0x80, 0xfe, 0xff];
    for index in 0..values.len().pow(5) {
        let mut address = [0; 16];
        for (power, place) in [0, 9, 10, 11, 15].into_iter().enumerate() {
            address[place] = values[index / values.len().pow(power as u32) % values.len()];
        }
        for port in PORTS {
            ask_ipv6(sink, address, port);
        }
    }
}

/// An address near a rule's boundary: all zero, a prefix of a refused range, or random, with one byte altered now and then.
fn near_ipv6(rng: &mut Rng) -> [u8; 16] {
    let mut address = rng.bytes::<16>();
    match rng.below(6) {
        0 => address = [0; 16],
        1 => {
            address[..10].fill(0);
            address[10..12].fill(0xff);
        }
        2 => (address[0], address[1]) = (0xfe, rng.pick(&[0x7f, 0x80, 0xa5, 0xbf, 0xc0])),
        3 => address[0] = rng.pick(&[0xfe, 0xff]),
        _ => {}
    }
    if rng.one_in(2) {
        address[rng.below(16)] = rng.pick(&[0, 1, 0x80, 0xff]);
    }
    address
}

/// The original's endpoint of a family, its address and port; none for a family that the original cannot hold.
pub fn original(family: u8, address: &[u8; 16], port: u16) -> Option<ProtectedEndpoint> {
    match family {
        4 => Some(ProtectedEndpoint::Ipv4 {
            address: [address[0], address[1], address[2], address[3]],
            port,
        }),
        6 => Some(ProtectedEndpoint::Ipv6 { address: *address, port }),
        _ => None,
    }
}

fn ask_match_ipv4(sink: &mut dyn Sink, family: u8, own: [u8; 16], own_port: u16, address: [u8; 4], port: u16) {
    let (answer, outcome) = match original(family, &own, own_port) {
        None => (false, "IPv4 source, no such family"),
        Some(endpoint @ ProtectedEndpoint::Ipv6 { .. }) => (endpoint.matches_ipv4(address, port), "IPv4 source, IPv6 endpoint"),
        Some(endpoint) if endpoint.matches_ipv4(address, port) => (true, "IPv4 source matches"),
        Some(_) => (false, "IPv4 source differs"),
    };
    let body = [
        endpoint_bytes(family, &own, own_port).as_slice(),
        &address,
        &port.to_le_bytes(),
    ]
    .concat();
    sink.push(MATCHES_IPV4, &body, &[answer.into()], outcome);
}

fn ask_match_ipv6(sink: &mut dyn Sink, family: u8, own: [u8; 16], own_port: u16, address: [u8; 16], port: u16) {
    let (answer, outcome) = match original(family, &own, own_port) {
        None => (false, "IPv6 source, no such family"),
        Some(endpoint @ ProtectedEndpoint::Ipv4 { .. }) => (endpoint.matches_ipv6(address, port), "IPv6 source, IPv4 endpoint"),
        Some(endpoint) if endpoint.matches_ipv6(address, port) => (true, "IPv6 source matches"),
        Some(_) => (false, "IPv6 source differs"),
    };
    let body = [
        endpoint_bytes(family, &own, own_port).as_slice(),
        &address,
        &port.to_le_bytes(),
    ]
    .concat();
    sink.push(MATCHES_IPV6, &body, &[answer.into()], outcome);
}

fn run_matched(sink: &mut dyn Sink, amount: Amount) {
    let mut rng = Rng::new(3);
    let own: [u8; 16] = rng.bytes();
    for family in 0..=255u8 {
        for place in 0..=16 {
            for port in PORTS {
                let mut source = own;
                if place < 16 {
                    source[place] ^= 1;
                }
                ask_match_ipv4(sink, family, own, port, [source[0], source[1], source[2], source[3]], port);
                ask_match_ipv6(sink, family, own, port, source, port);
            }
        }
    }
    for _ in 0..amount.random(300_000) {
        random_match(sink, &mut rng);
    }
}

/// An endpoint with its spare bytes at random, and a source that is its own but for a byte or the port now and then.
fn random_match(sink: &mut dyn Sink, rng: &mut Rng) {
    let family = if rng.one_in(16) { rng.byte() } else { rng.pick(&[4, 6]) };
    let own: [u8; 16] = rng.bytes();
    let mut source = own;
    if rng.one_in(3) {
        source[rng.below(16)] = rng.byte();
    }
    let any = rng.next() as u16;
    let own_port = rng.pick(&[0, 4500, any]);
    let port = if rng.one_in(4) {
        own_port ^ (1 << rng.below(16))
    } else {
        own_port
    };
    ask_match_ipv4(
        sink,
        family,
        own,
        own_port,
        [source[0], source[1], source[2], source[3]],
        port,
    );
    ask_match_ipv6(sink, family, own, own_port, source, port);
}
