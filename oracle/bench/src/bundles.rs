//! Bundles of 65,536 bytes for the judge: many packets under few records, and the reverse.

use crate::classify::{chain, A, IPV6};
use crate::gate::value;
use opc_egress_fence_common::*;
use plain::put_frame;

const LIMIT: usize = 65_536;

pub struct Bundle {
    pub name: &'static str,
    pub bytes: Vec<u8>,
}

/// The frames before the records: configuration, current record, and a call of socket 9 from no address.
fn head(endpoint: ProtectedEndpoint) -> Vec<u8> {
    let mut out = Vec::new();
    let config = FenceConfig::new(endpoint, 7, 4096).expect("the configuration is sound");
    let current = CurrentFenceToken::registered(3, 9).expect("the token is odd");
    let mut call = 7u64.to_le_bytes().to_vec();
    call.extend([0; 19]);
    call.extend(9u64.to_le_bytes());
    call.extend(999u64.to_le_bytes());
    put_frame(&mut out, 1, &config.encode());
    put_frame(&mut out, 2, &current.encode());
    put_frame(&mut out, 4, &call);
    out
}

/// The head, then `records` records with the socket's own last, then the packet over and over; one packet more makes up the length.
fn bundle(name: &'static str, endpoint: ProtectedEndpoint, records: u64, packet: &[u8]) -> Bundle {
    let mut bytes = head(endpoint);
    for index in 1..records {
        put_frame(&mut bytes, 3, &value(1000 + index, 1000));
    }
    put_frame(&mut bytes, 3, &value(9, 1000));
    while bytes.len() + 2 * (6 + packet.len()) <= LIMIT {
        put_frame(&mut bytes, 5, packet);
    }
    let mut last = packet.to_vec();
    last.resize(LIMIT - bytes.len() - 6, 0);
    put_frame(&mut bytes, 5, &last);
    Bundle { name, bytes }
}

pub fn bundles() -> Vec<Bundle> {
    let ipv4 = ProtectedEndpoint::ipv4([192, 0, 2, 10], 4500).expect("the endpoint is sound");
    let ipv6 = ProtectedEndpoint::ipv6(IPV6, 4500).expect("the endpoint is sound");
    vec![
        bundle("judge: 1 record, 1,922 packets (packet A)", ipv4, 1, &A),
        bundle(
            "judge: 1 record, 1,054 packets (IPv6, 1 extension header)",
            ipv6,
            1,
            &chain(&[60]),
        ),
        bundle("judge: 1,400 records, 29 packets (packet A)", ipv4, 1400, &A),
        bundle("judge: 100 records, 1,788 packets (packet A)", ipv4, 100, &A),
    ]
}
