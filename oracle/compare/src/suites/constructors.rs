//! The constructors of the seven records, kinds 32 to 45. Arguments that are records come as bytes and are decoded first; where that is
//! refused, the all-zero record is handed over, which 01 has give 2 where it is unsound. The answer is the constructor's number (u8), what
//! the encoder writes of the record that was made to an output of zeros of the record's length, and every field of the record that the
//! decoder gives for those bytes, as `fields` lists them. A refused constructor makes the all-zero record, which is sound for the current,
//! mutation and inspection records alone (01, 'Numbers given back'); of another the output stays zeros.

use super::fields::Shown;
use super::packet::{self, Endpoint};
use super::sound::{self, edge, odd};
use super::{Amount, Sink, Suite};
use crate::rng::Rng;
use opc_egress_fence_common::*;

// the kinds, each with its body

/// Nothing.
const CURRENT_INITIAL: u8 = 32;
/// A token.
const LIFECYCLE_OPEN: u8 = 33;
/// A token.
const RETIREMENT_CLOSED: u8 = 34;
/// A token and a cookie.
const REGISTERED: u8 = 35;
/// Nothing.
const MUTATION_INITIAL: u8 = 36;
/// A generation and a claim.
const MUTATION: u8 = 37;
/// A cookie and a token.
const KEY: u8 = 38;
/// A token.
const INITIAL_CLOSED: u8 = 39;
/// A token, a deadline and an epoch.
const ACTIVE: u8 = 40;
/// A token and an epoch.
const TERMINAL_CLOSED: u8 = 41;
/// A token and an epoch.
const RECLAIMING: u8 = 42;
/// A key's bytes and an entry's.
const VALUE: u8 = 43;
/// An endpoint (family, address 16, port), a root cgroup (u64) and a capacity (u32).
const CONFIG: u8 = 44;
/// A current record's bytes, a mutation record's, whether there is an entry (u8), and a cookie value's.
const INSPECTION: u8 = 45;

pub const SUITE: Suite = Suite {
    name: "constructors",
    what: "every constructor of the seven records, on boundary values crossed",
    outcomes: &[
        "initial records",
        "current made",
        "current refused",
        "mutation made",
        "mutation refused",
        "key made",
        "key refused",
        "entry made",
        "entry refused",
        "cookie value made",
        "cookie value refused",
        "configuration made",
        "configuration refused",
        "configuration refused for its endpoint, by 01",
        "inspection made",
        "inspection refused, by 01",
    ],
    run,
};

/// Numbers at their edges.
const VALUES: [u64; 12] = [
    0,
    1,
    2,
    3,
    4,
    255,
    256,
    4_294_967_295,
    4_294_967_296,
    9_223_372_036_854_775_808,
    u64::MAX - 1,
    u64::MAX,
];

/// Asks for a record that the original made or refused.
fn push<T: Shown>(sink: &mut dyn Sink, kind: u8, body: &[u8], made: Option<T>, outcomes: [&'static str; 2]) {
    let (number, shown, outcome) = match made {
        Some(record) => (0, record.shown(), outcomes[0]),
        None => (2, T::zero(), outcomes[1]),
    };
    sink.push(kind, body, &[vec![number], shown].concat(), outcome);
}

/// Numbers side by side.
fn numbers(values: &[u64]) -> Vec<u8> {
    values.iter().flat_map(|value| value.to_le_bytes()).collect()
}

/// Two numbers side by side, as the bytes of a key or of a mutation record.
fn pair(first: u64, second: u64) -> [u8; 16] {
    numbers(&[first, second]).try_into().expect("two numbers have 16 bytes")
}

/// The constructors of a current record from a token, or a token and a cookie.
fn ask_current(sink: &mut dyn Sink, token: u64, cookie: u64) {
    let cases = [
        (LIFECYCLE_OPEN, numbers(&[token]), CurrentFenceToken::lifecycle_open(token)),
        (
            RETIREMENT_CLOSED,
            numbers(&[token]),
            CurrentFenceToken::retirement_closed(token),
        ),
        (
            REGISTERED,
            numbers(&[token, cookie]),
            CurrentFenceToken::registered(token, cookie),
        ),
    ];
    for (kind, body, made) in cases {
        push(sink, kind, &body, made, ["current made", "current refused"]);
    }
}

/// The constructors from two numbers: a mutation record and a key.
fn ask_pairs(sink: &mut dyn Sink, first: u64, second: u64) {
    let body = numbers(&[first, second]);
    let mutation = FenceMutationAuthority::new(first, second);
    push(sink, MUTATION, &body, mutation, ["mutation made", "mutation refused"]);
    let key = FenceCookieKey::new(first, second);
    push(sink, KEY, &body, key, ["key made", "key refused"]);
}

/// The constructors of an entry.
fn ask_entry(sink: &mut dyn Sink, token: u64, deadline: u64, epoch: u64) {
    let cases = [
        (INITIAL_CLOSED, numbers(&[token]), FenceEntry::initial_closed(token)),
        (
            ACTIVE,
            numbers(&[token, deadline, epoch]),
            FenceEntry::active(token, deadline, epoch),
        ),
        (
            TERMINAL_CLOSED,
            numbers(&[token, epoch]),
            FenceEntry::terminal_closed(token, epoch),
        ),
        (RECLAIMING, numbers(&[token, epoch]), FenceEntry::reclaiming(token, epoch)),
    ];
    for (kind, body, made) in cases {
        push(sink, kind, &body, made, ["entry made", "entry refused"]);
    }
}

/// A cookie value from the bytes of a key and of an entry.
fn ask_value(sink: &mut dyn Sink, key: [u8; 16], entry: [u8; 32]) {
    let made = FenceCookieKey::decode(&key)
        .zip(FenceEntry::decode(&entry))
        .and_then(|(key, entry)| FenceCookieValue::new(key, entry));
    let body = [key.as_slice(), &entry].concat();
    push(sink, VALUE, &body, made, ["cookie value made", "cookie value refused"]);
}

/// A configuration. By 01 an endpoint that no constructor gives is refused; the original would take it.
fn ask_config(sink: &mut dyn Sink, endpoint: Endpoint, root: u64, capacity: u32) {
    let constructed = match endpoint.original() {
        Some(ProtectedEndpoint::Ipv4 { address, port }) if endpoint.address[4..] == [0; 12] => {
            ProtectedEndpoint::ipv4(address, port)
        }
        Some(ProtectedEndpoint::Ipv6 { address, port }) => ProtectedEndpoint::ipv6(address, port),
        _ => None,
    };
    let refused = if constructed.is_some() {
        "configuration refused"
    } else {
        "configuration refused for its endpoint, by 01"
    };
    let made = constructed.and_then(|it| FenceConfig::new(it, root, capacity));
    let body = [endpoint.bytes().as_slice(), &root.to_le_bytes(), &capacity.to_le_bytes()].concat();
    push(sink, CONFIG, &body, made, ["configuration made", refused]);
}

/// An inspection from the bytes of its parts.
fn ask_inspection(sink: &mut dyn Sink, current: [u8; 24], mutation: [u8; 16], present: bool, value: [u8; 40]) {
    let its_current = CurrentFenceToken::decode(&current).unwrap_or(CurrentFenceToken::initial());
    let its_mutation = FenceMutationAuthority::decode(&mutation).unwrap_or(FenceMutationAuthority::initial());
    let made = match (present, FenceCookieValue::decode(&value)) {
        (false, _) => Some(FenceInspection::new(its_current, its_mutation, None)),
        (true, Some(entry)) => Some(FenceInspection::new(its_current, its_mutation, Some(entry))),
        (true, None) => None,
    };
    let body = [current.as_slice(), &mutation, &[present.into()], &value].concat();
    push(
        sink,
        INSPECTION,
        &body,
        made,
        ["inspection made", "inspection refused, by 01"],
    );
}

/// The constructors without arguments.
fn ask_initial(sink: &mut dyn Sink) {
    let (current, mutation) = (CurrentFenceToken::initial(), FenceMutationAuthority::initial());
    for (kind, shown) in [(CURRENT_INITIAL, current.shown()), (MUTATION_INITIAL, mutation.shown())] {
        sink.push(kind, &[], &[vec![0], shown].concat(), "initial records");
    }
}

fn run(sink: &mut dyn Sink, amount: Amount) {
    ask_initial(sink);
    for first in VALUES {
        for second in VALUES {
            ask_current(sink, first, second);
            ask_pairs(sink, first, second);
            ask_pairs(sink, first, first.wrapping_add(second));
            for third in VALUES {
                ask_entry(sink, first, second, third);
            }
        }
    }
    value_edges(sink);
    config_edges(sink);
    inspection_edges(sink);
    let mut rng = Rng::new(32);
    for _ in 0..amount.random(200_000) {
        random(sink, &mut rng);
    }
}

/// Endpoints, root cgroups and capacities at their edges, crossed.
fn config_edges(sink: &mut dyn Sink) {
    for family in [0, 4, 5, 6, 255] {
        for address in [[0; 16], [1; 16], packet::IPV4.address, packet::IPV6.address] {
            for port in [0, 1, 65535] {
                for root in VALUES {
                    for capacity in [0, 1, 4095, 4096, 4097, u32::MAX] {
                        ask_config(sink, Endpoint { family, address, port }, root, capacity);
                    }
                }
            }
        }
    }
}

/// Keys and entries, sound and not, of one token and of two.
fn value_edges(sink: &mut dyn Sink) {
    const TOKENS: [u64; 5] = [0, 1, 2, 3, u64::MAX];
    for cookie in [0, 9, u64::MAX] {
        for own in TOKENS {
            for token in TOKENS {
                for entry in entries(token) {
                    ask_value(sink, pair(cookie, own), entry);
                }
            }
        }
    }
}

/// Entries of a token under every control word and one that is on no list, with deadlines and epochs at their edges.
fn entries(token: u64) -> Vec<[u8; 32]> {
    let mut all = Vec::new();
    for control in [0x4f45_0101_u32, 0x4f45_0102, 0x4f45_0103, 0x4f45_01ff, 0x4f45_0104] {
        for deadline in [0, 1, u64::MAX] {
            for epoch in [0, 1, 2] {
                let mut entry = [0; 32];
                entry[4..8].copy_from_slice(&control.to_le_bytes());
                for (place, number) in [(8, token), (16, deadline), (24, epoch)] {
                    entry[place..place + 8].copy_from_slice(&number.to_le_bytes());
                }
                all.push(entry);
            }
        }
    }
    all
}

/// Every state of the current record and the mutation authority with an entry of each kind and without one.
fn inspection_edges(sink: &mut dyn Sink) {
    let currents = [
        Some(CurrentFenceToken::initial()),
        CurrentFenceToken::lifecycle_open(1),
        CurrentFenceToken::retirement_closed(2),
        CurrentFenceToken::registered(u64::MAX, 9),
    ];
    let mutations = [(0, 0), (0, 1), (u64::MAX - 1, u64::MAX), (u64::MAX, 0)];
    let key = FenceCookieKey::new(9, 3);
    let values = [
        FenceEntry::initial_closed(3),
        FenceEntry::active(3, u64::MAX, 1),
        FenceEntry::terminal_closed(3, 2),
        FenceEntry::reclaiming(3, u64::MAX),
    ]
    .map(|entry| {
        FenceCookieValue::new(key.expect("a key"), entry.expect("an entry"))
            .expect("a value")
            .encode()
    });
    for current in currents {
        for (generation, claim) in mutations {
            let mutation = FenceMutationAuthority::new(generation, claim).expect("a mutation record");
            for value in values.iter().chain([&[0; 40]]) {
                for present in [false, true] {
                    ask_inspection(sink, current.expect("a record").encode(), mutation.encode(), present, *value);
                }
            }
        }
    }
}

/// One call of each constructor, with numbers at their edges and records of which some are altered.
fn random(sink: &mut dyn Sink, rng: &mut Rng) {
    ask_current(sink, edge(rng), edge(rng));
    ask_pairs(sink, edge(rng), edge(rng));
    ask_entry(sink, edge(rng), edge(rng), edge(rng));
    let token = odd(rng);
    let other = if rng.one_in(4) { edge(rng) } else { token };
    let key = pair(edge(rng), other);
    let mut entry = sound::entry_of(rng, token).encode();
    let mut value = sound::cookie_value(rng).encode();
    if rng.one_in(4) {
        let place = rng.below(32);
        entry[place] ^= 1 << rng.below(8);
        value[place] ^= 1 << rng.below(8);
    }
    ask_value(sink, key, entry);
    let mut current = sound::current(rng).encode();
    if rng.one_in(4) {
        current[rng.below(24)] ^= 1;
    }
    let generation = edge(rng);
    let mutation = pair(generation, generation.wrapping_add(rng.below(3) as u64));
    ask_inspection(sink, current, mutation, rng.one_in(2), value);
    random_config(sink, rng);
}

/// A configuration of any address, and one of its first four bytes.
fn random_config(sink: &mut dyn Sink, rng: &mut Rng) {
    let mut endpoint = Endpoint {
        family: rng.pick(&[4, 6, 6, 5]),
        address: rng.bytes(),
        port: rng.pick(&[0, 1, 4500]),
    };
    ask_config(sink, endpoint, edge(rng), rng.pick(&[4096, 4096, 4095]));
    endpoint.family = 4;
    endpoint.address[4..].fill(0);
    ask_config(sink, endpoint, edge(rng), 4096);
}
