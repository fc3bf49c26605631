//! Sound records at random, and the numbers in them.

use crate::rng::Rng;
use opc_egress_fence_common::*;

/// A number at or near an edge, or any.
pub fn edge(rng: &mut Rng) -> u64 {
    let any = rng.next();
    rng.pick(&[
        0,
        1,
        2,
        3,
        4,
        255,
        256,
        1 << 32,
        1 << 63,
        u64::MAX - 1,
        u64::MAX,
        any,
        any,
        any,
    ])
}

/// An odd number, as every lifecycle token is.
pub fn odd(rng: &mut Rng) -> u64 {
    edge(rng) | 1
}

/// A number that is not 0.
fn nonzero(rng: &mut Rng) -> u64 {
    edge(rng).max(1)
}

/// A current record in any of its four states.
pub fn current(rng: &mut Rng) -> CurrentFenceToken {
    let made = match rng.below(4) {
        0 => return CurrentFenceToken::initial(),
        1 => CurrentFenceToken::lifecycle_open(odd(rng)),
        2 => CurrentFenceToken::retirement_closed((edge(rng) & !1).max(2)),
        _ => CurrentFenceToken::registered(odd(rng), nonzero(rng)),
    };
    made.expect("the arguments are sound")
}

/// A mutation record, with a claim in flight or without one.
pub fn mutation(rng: &mut Rng) -> FenceMutationAuthority {
    let generation = edge(rng);
    let claim = if rng.one_in(2) {
        0
    } else {
        generation.checked_add(1).unwrap_or(0)
    };
    FenceMutationAuthority::new(generation, claim).expect("the claim is the next generation")
}

/// A key.
pub fn key(rng: &mut Rng) -> FenceCookieKey {
    FenceCookieKey::new(nonzero(rng), nonzero(rng)).expect("neither is 0")
}

/// An entry, most often an Active one.
pub fn entry(rng: &mut Rng) -> FenceEntry {
    let token = odd(rng);
    entry_of(rng, token)
}

/// An entry of an odd token, most often an Active one.
pub fn entry_of(rng: &mut Rng, token: u64) -> FenceEntry {
    let made = match rng.below(6) {
        0 => FenceEntry::initial_closed(token),
        1 => FenceEntry::terminal_closed(token, nonzero(rng)),
        2 => FenceEntry::reclaiming(token, nonzero(rng)),
        _ => FenceEntry::active(token, nonzero(rng), nonzero(rng)),
    };
    made.expect("the arguments are sound")
}

/// A cookie value.
pub fn cookie_value(rng: &mut Rng) -> FenceCookieValue {
    let token = odd(rng);
    let key = FenceCookieKey::new(nonzero(rng), token).expect("neither is 0");
    FenceCookieValue::new(key, entry_of(rng, token)).expect("the tokens agree")
}

/// A configuration of either family.
pub fn config(rng: &mut Rng) -> FenceConfig {
    let port = (rng.next() as u16).max(1);
    let endpoint = if rng.one_in(2) {
        ProtectedEndpoint::ipv4([1 + rng.below(223) as u8, rng.byte(), rng.byte(), rng.byte()], port)
    } else {
        let mut address: [u8; 16] = rng.bytes();
        address[0] = rng.pick(&[0x20, 0xfd, 1]);
        ProtectedEndpoint::ipv6(address, port)
    };
    FenceConfig::new(
        endpoint.expect("the endpoint is sound"),
        nonzero(rng),
        EGRESS_FENCE_MAX_COOKIE_ENTRIES,
    )
    .expect("the configuration is sound")
}

/// An inspection, with an entry or without one.
pub fn inspection(rng: &mut Rng) -> FenceInspection {
    let entry = if rng.one_in(3) { None } else { Some(cookie_value(rng)) };
    FenceInspection::new(current(rng), mutation(rng), entry)
}
