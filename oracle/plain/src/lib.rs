//! The joined gate and the listing of a bundle as one would write them in Rust from the original's parts: document 01's thirteen rules in
//! their order, its count of headers, its frames. The original has none of these. They are what the proved gate and judge are compared
//! with, and what their speed is held against.

mod headers;
mod listing;

pub use headers::headers_passed;
pub use listing::{listing, put_frame, rules, verdict_name, LONGEST_BUNDLE};
use opc_egress_fence_common::*;

/// The longest table: 4,096 records of 40 bytes.
pub const LONGEST_TABLE: usize = 163_840;

pub struct Socket {
    pub family: u8,
    pub address: [u8; 16],
    pub port: u16,
}

pub struct Call<'a> {
    pub config: &'a [u8],
    pub attachment: u64,
    pub socket: Socket,
    pub packet: &'a [u8],
    pub cookie: u64,
    pub current: &'a [u8],
    pub table: &'a [u8],
    pub now: u64,
}

/// The verdict, and the rule that gave it.
#[derive(Clone, Copy, PartialEq, Eq, Debug)]
pub struct Judged {
    pub verdict: FenceVerdict,
    pub rule: u8,
}

fn judged(verdict: FenceVerdict, rule: u8) -> Judged {
    Judged { verdict, rule }
}

/// Family, address and port equal the endpoint's; family 4 uses four bytes.
pub fn socket_matches(socket: &Socket, endpoint: ProtectedEndpoint) -> bool {
    match endpoint {
        ProtectedEndpoint::Ipv4 { address, port } => socket.family == 4 && socket.address[..4] == address && socket.port == port,
        ProtectedEndpoint::Ipv6 { address, port } => socket.family == 6 && socket.address == address && socket.port == port,
    }
}

pub fn config_of(bytes: &[u8]) -> Option<FenceConfig> {
    FenceConfig::decode(bytes.try_into().ok()?)
}

pub fn gate(call: &Call) -> Judged {
    match config_of(call.config) {
        Some(config) => gate_under(call, &config),
        None => judged(FenceVerdict::DropMalformed, 1),
    }
}

/// The verdict with 01's header count: "the packet's under rules 1 and 2 passed and socket differing, else 0".
pub fn gate_with_headers(call: &Call) -> (Judged, u8) {
    let Some(config) = config_of(call.config) else {
        return (judged(FenceVerdict::DropMalformed, 1), 0);
    };
    let read = call.attachment == config.root_cgroup_id() && !socket_matches(&call.socket, config.endpoint());
    let headers = if read {
        headers_passed(call.packet, config.endpoint())
    } else {
        0
    };
    (gate_under(call, &config), headers)
}

/// Rules 2 to 13.
#[inline(always)]
fn gate_under(call: &Call, config: &FenceConfig) -> Judged {
    if call.attachment != config.root_cgroup_id() {
        return judged(FenceVerdict::DropMalformed, 2);
    }
    if !socket_matches(&call.socket, config.endpoint()) {
        match classify_l3_udp_source(call.packet, config.endpoint()) {
            PacketEndpointDisposition::Unrelated => return judged(FenceVerdict::PassUnrelated, 3),
            PacketEndpointDisposition::Indeterminate => return judged(FenceVerdict::DropMalformed, 4),
            PacketEndpointDisposition::Protected => {}
        }
    }
    authorize(call)
}

/// Rules 5 to 13: whether the socket may speak.
fn authorize(call: &Call) -> Judged {
    if call.cookie == 0 {
        return judged(FenceVerdict::DropCookieZero, 5);
    }
    let Some(current) = call.current.try_into().ok().and_then(CurrentFenceToken::decode) else {
        return judged(FenceVerdict::DropMalformed, 6);
    };
    if call.table.len() % 40 != 0 || call.table.len() > LONGEST_TABLE {
        return judged(FenceVerdict::DropMalformed, 7);
    }
    let token = current.durable_fence_token();
    let found = if token == 0 {
        None
    } else {
        search(call.table, call.cookie, token)
    };
    let Some(found) = found else {
        return judged(FenceVerdict::DropMissing, 8);
    };
    let Some(value) = FenceCookieValue::decode(found) else {
        return judged(FenceVerdict::DropMalformed, 9);
    };
    if current.registered_socket_cookie() != call.cookie {
        return judged(FenceVerdict::DropStaleToken, 10);
    }
    if value.entry().state() != FenceEntryState::Active {
        return judged(FenceVerdict::DropClosed, 11);
    }
    if call.now >= value.entry().deadline_boot_ns() {
        return judged(FenceVerdict::DropExpired, 12);
    }
    judged(FenceVerdict::Allow, 13)
}

/// The first record with the cookie and the token in bytes 8 to 23.
fn search(table: &[u8], cookie: u64, token: u64) -> Option<&[u8; 40]> {
    let mut key = [0; 16];
    key[..8].copy_from_slice(&cookie.to_le_bytes());
    key[8..].copy_from_slice(&token.to_le_bytes());
    table
        .chunks_exact(40)
        .find(|record| record[8..24] == key)
        .and_then(|record| record.try_into().ok())
}
