//! The listing of a bundle (01, 'The bundle and its listing').

use crate::{gate_with_headers, Call, Judged, Socket};
use opc_egress_fence_common::FenceVerdict;

/// The longest bundle that is read.
pub const LONGEST_BUNDLE: usize = 65_536;

/// What stands when a packet comes: the bodies of the last frames of kinds 1, 2 and 4, and the records of kind 3.
struct InForce<'a> {
    config: &'a [u8],
    current: &'a [u8],
    call: &'a [u8],
    table: Vec<u8>,
}

/// The listing, in one pass.
pub fn listing(bundle: &[u8]) -> Vec<u8> {
    let mut out = Vec::new();
    if bundle.len() > LONGEST_BUNDLE {
        out.extend(b"long\n");
        return out;
    }
    let mut packets = 0;
    let read = read(bundle, |state, packet| {
        line(&mut out, packets, &judge(state, packet));
        packets += 1;
    });
    match read {
        Ok(()) => last_line(&mut out, b"end ", packets),
        Err(at) => last_line(&mut out, b"bad ", at),
    }
    out
}

/// The number of the rule that answers for each packet of a bundle that is not too long.
pub fn rules(bundle: &[u8]) -> Vec<u8> {
    let mut rules = Vec::new();
    let _ = read(bundle, |state, packet| rules.push(judge(state, packet).0.rule));
    rules
}

/// Reads the frames, and hands on each packet with what is in force; the offset of the first frame that is bad, if one is.
fn read<'a>(bundle: &'a [u8], mut packet: impl FnMut(&InForce<'a>, &'a [u8])) -> Result<(), usize> {
    let mut state = InForce {
        config: &[0; 40],
        current: &[0; 24],
        call: &[0; 43],
        table: Vec::new(),
    };
    let mut at = 0;
    while at < bundle.len() {
        let (kind, body) = frame(&bundle[at..]).ok_or(at)?;
        match (kind, body.len()) {
            (1, 40) => state.config = body,
            (2, 24) => state.current = body,
            (3, 40) => state.table.extend_from_slice(body),
            (4, 43) => state.call = body,
            (5, _) => packet(&state, body),
            _ => return Err(at),
        }
        at += 6 + body.len();
    }
    Ok(())
}

/// Appends a frame to a bundle.
pub fn put_frame(bundle: &mut Vec<u8>, kind: u16, body: &[u8]) {
    bundle.extend((body.len() as u32).to_le_bytes());
    bundle.extend(kind.to_le_bytes());
    bundle.extend(body);
}

/// The frame at the start of the bytes, if it is whole: its kind and its body.
fn frame(bytes: &[u8]) -> Option<(u16, &[u8])> {
    let (length, rest) = bytes.split_first_chunk::<4>()?;
    let (kind, rest) = rest.split_first_chunk::<2>()?;
    let body = rest.get(..u32::from_le_bytes(*length) as usize)?;
    Some((u16::from_le_bytes(*kind), body))
}

fn judge(state: &InForce, packet: &[u8]) -> (Judged, u8) {
    let call = state.call;
    let number = |at: usize| u64::from_le_bytes(call[at..at + 8].try_into().expect("eight bytes"));
    gate_with_headers(&Call {
        config: state.config,
        attachment: number(0),
        socket: Socket {
            family: call[8],
            address: call[11..27].try_into().expect("sixteen bytes"),
            port: u16::from_le_bytes([call[9], call[10]]),
        },
        packet,
        cookie: number(27),
        current: state.current,
        table: &state.table,
        now: number(35),
    })
}

fn line(out: &mut Vec<u8>, ordinal: usize, (judged, headers): &(Judged, u8)) {
    decimal(out, ordinal);
    out.push(b' ');
    out.extend(verdict_name(judged.verdict).as_bytes());
    out.push(b' ');
    out.push(b'0' + headers);
    out.push(b' ');
    out.push(judged.verdict.counter_slot().map_or(b'-', |slot| b'0' + slot as u8));
    out.push(b'\n');
}

fn last_line(out: &mut Vec<u8>, word: &[u8], number: usize) {
    out.extend(word);
    decimal(out, number);
    out.push(b'\n');
}

fn decimal(out: &mut Vec<u8>, number: usize) {
    let mut digits = [0; 20];
    let mut from = digits.len();
    let mut left = number;
    loop {
        from -= 1;
        digits[from] = b'0' + (left % 10) as u8;
        left /= 10;
        if left == 0 {
            break;
        }
    }
    out.extend(&digits[from..]);
}

/// A verdict as a listing names it.
pub fn verdict_name(verdict: FenceVerdict) -> &'static str {
    match verdict {
        FenceVerdict::Allow => "Allow",
        FenceVerdict::PassUnrelated => "PassUnrelated",
        FenceVerdict::DropCookieZero => "DropCookieZero",
        FenceVerdict::DropMissing => "DropMissing",
        FenceVerdict::DropClosed => "DropClosed",
        FenceVerdict::DropExpired => "DropExpired",
        FenceVerdict::DropMalformed => "DropMalformed",
        FenceVerdict::DropStaleToken => "DropStaleToken",
    }
}
