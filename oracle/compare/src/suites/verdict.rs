//! `decide_egress`, kind 48: what is known of the packet (attachment, socket, disposition, cookie) and of the authority (an entry or none,
//! token, cookie, clock); the answer is the verdict's slot, or ff where it has none, and whether the packet must be dropped. The
//! original's entries are sound ones; those that are not rest on 01.

use super::fields::state;
use super::sound::{edge, entry_of, odd};
use super::{Amount, Sink, Suite};
use crate::rng::Rng;
use opc_egress_fence_common::*;
use plain::verdict_name;

const KIND: u8 = 48;

/// The verdicts, as a listing names them.
pub const VERDICTS: [&str; 8] = [
    "PassUnrelated",
    "Allow",
    "DropCookieZero",
    "DropMissing",
    "DropClosed",
    "DropExpired",
    "DropStaleToken",
    "DropMalformed",
];

pub const SUITE: Suite = Suite {
    name: "verdict",
    what: "decide_egress, counter_slot and must_drop",
    outcomes: &VERDICTS,
    run,
};

/// A verdict's slot, ff where it has none.
pub fn slot(verdict: FenceVerdict) -> u8 {
    verdict.counter_slot().map_or(0xff, |slot| slot as u8)
}

const DISPOSITIONS: [PacketEndpointDisposition; 3] = [
    PacketEndpointDisposition::Protected,
    PacketEndpointDisposition::Unrelated,
    PacketEndpointDisposition::Indeterminate,
];

/// What a query asks.
#[derive(Clone, Copy)]
struct Asked {
    attachment: bool,
    matches: bool,
    disposition: usize,
    cookie: u64,
    entry: Option<FenceEntry>,
    token: u64,
    registered: u64,
    now: u64,
}

fn ask(sink: &mut dyn Sink, it: Asked) {
    let packet = PacketFenceContext::new(it.attachment, it.matches, DISPOSITIONS[it.disposition], it.cookie);
    let authority = FenceAuthoritySnapshot::new(it.entry, it.token, it.registered, it.now);
    let verdict = decide_egress(packet, authority);
    let mut body = vec![it.attachment.into(), it.matches.into(), it.disposition as u8];
    body.extend(it.cookie.to_le_bytes());
    body.extend([it.entry.is_some().into(), it.entry.map_or(0, |entry| state(entry.state()))]);
    let numbers = it.entry.map_or([0; 3], |entry| {
        [entry.durable_fence_token(), entry.deadline_boot_ns(), entry.control_epoch()]
    });
    body.extend(
        numbers
            .into_iter()
            .chain([it.token, it.registered, it.now])
            .flat_map(u64::to_le_bytes),
    );
    let answer = [slot(verdict), verdict.must_drop().into()];
    sink.push(KIND, &body, &answer, verdict_name(verdict));
}

/// An entry of each kind, with tokens and deadlines that the other fields take as well; and none.
fn entries() -> Vec<Option<FenceEntry>> {
    let mut entries = vec![None];
    for token in [1, 3, u64::MAX] {
        entries.extend([
            FenceEntry::initial_closed(token),
            FenceEntry::terminal_closed(token, 2),
            FenceEntry::reclaiming(token, 2),
        ]);
        entries.extend([1, 1000, u64::MAX].map(|deadline| FenceEntry::active(token, deadline, 2)));
    }
    entries
}

fn run(sink: &mut dyn Sink, amount: Amount) {
    for entry in entries() {
        for index in 0..12 {
            let (attachment, matches, disposition) = (index % 2 == 0, index / 2 % 2 == 0, index / 4);
            for cookie in [0, 1, 9, u64::MAX] {
                for token in [0, 1, 3, 4, u64::MAX] {
                    for registered in [0, 1, 9, u64::MAX] {
                        for now in [0, 1, 2, 999, 1000, 1001, u64::MAX - 1, u64::MAX] {
                            ask(
                                sink,
                                Asked {
                                    attachment,
                                    matches,
                                    disposition,
                                    cookie,
                                    entry,
                                    token,
                                    registered,
                                    now,
                                },
                            );
                        }
                    }
                }
            }
        }
    }
    let mut rng = Rng::new(48);
    for _ in 0..amount.random(2_000_000) {
        random(sink, &mut rng);
    }
}

/// Most often an entry that the authority names, at a time near its deadline.
fn random(sink: &mut dyn Sink, rng: &mut Rng) {
    let token = odd(rng);
    let entry = if rng.one_in(8) { None } else { Some(entry_of(rng, token)) };
    let cookie = edge(rng);
    let deadline = entry.map_or(0, FenceEntry::deadline_boot_ns);
    let (other_token, other_cookie, any) = (edge(rng), edge(rng), rng.next());
    ask(
        sink,
        Asked {
            attachment: !rng.one_in(8),
            matches: rng.one_in(2),
            disposition: rng.below(3),
            cookie,
            entry,
            token: if rng.one_in(8) { other_token } else { token },
            registered: if rng.one_in(8) { other_cookie } else { cookie },
            now: rng.pick(&[deadline.wrapping_sub(1), deadline, deadline.wrapping_add(1), any]),
        },
    );
}
