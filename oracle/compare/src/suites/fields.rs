//! The seven records as the answer of a constructor shows them: the encoding, then every field by its accessor. The fields:
//!
//! - current: token, cookie (u64 each), whether it is lifecycle-open, whether it is retirement-closed (u8 each);
//! - mutation: generation, claim (u64 each);
//! - key: cookie, token (u64 each);
//! - entry: state (u8), token, deadline, epoch (u64 each), whether it is closed, terminal, reclaiming (u8 each);
//! - cookie value: its key's and its entry's;
//! - configuration: the endpoint (family u8, address 16, port u16), root cgroup (u64), capacity (u32);
//! - inspection: its current record's, its mutation record's, and 1 and its cookie value's, or 0 where it has none.

use super::endpoint::endpoint_bytes;
use opc_egress_fence_common::*;

/// A record as the answer of a constructor shows it.
pub trait Shown {
    /// Its encoding, and every field of what that decodes to.
    fn shown(self) -> Vec<u8>;

    /// The same of the all-zero record. Where that is unsound, its encoder writes nothing to an output of zeros, and the decoder refuses
    /// those and gives the all-zero record again.
    fn zero() -> Vec<u8>;
}

/// A record by its type, its fields, and what is shown of the all-zero one.
macro_rules! shown {
    ($record:ty, $fields:expr, $zero:expr) => {
        impl Shown for $record {
            fn shown(self) -> Vec<u8> {
                let encoding = self.encode();
                let decoded = <$record>::decode(&encoding).expect("what the original made decodes");
                [encoding.as_slice(), &$fields(decoded)].concat()
            }

            fn zero() -> Vec<u8> {
                $zero
            }
        }
    };
}

shown!(CurrentFenceToken, current, Self::initial().shown());
shown!(FenceMutationAuthority, mutation, Self::initial().shown());
shown!(FenceCookieKey, key, vec![0; 16 + 16]);
shown!(FenceEntry, entry, [vec![0; 32], zero_entry()].concat());
shown!(FenceCookieValue, value, [vec![0; 40 + 16], zero_entry()].concat());
shown!(FenceConfig, config, vec![0; 40 + 31]);
shown!(
    FenceInspection,
    inspection,
    Self::new(CurrentFenceToken::initial(), FenceMutationAuthority::initial(), None).shown()
);

/// The fields of a current record.
fn current(it: CurrentFenceToken) -> Vec<u8> {
    let mut bytes = it.durable_fence_token().to_le_bytes().to_vec();
    bytes.extend(it.registered_socket_cookie().to_le_bytes());
    bytes.extend([it.is_lifecycle_open(), it.is_retirement_closed()].map(u8::from));
    bytes
}

/// The fields of a mutation record.
fn mutation(it: FenceMutationAuthority) -> Vec<u8> {
    [it.generation().to_le_bytes(), it.in_flight_claim().to_le_bytes()].concat()
}

/// The fields of a key.
fn key(it: FenceCookieKey) -> Vec<u8> {
    [it.socket_cookie().to_le_bytes(), it.durable_fence_token().to_le_bytes()].concat()
}

/// The fields of an entry.
fn entry(it: FenceEntry) -> Vec<u8> {
    let mut bytes = vec![state(it.state())];
    bytes.extend(it.durable_fence_token().to_le_bytes());
    bytes.extend(it.deadline_boot_ns().to_le_bytes());
    bytes.extend(it.control_epoch().to_le_bytes());
    bytes.extend([it.is_closed(), it.is_terminal(), it.is_reclaiming()].map(u8::from));
    bytes
}

/// The states in the order in which 01 lists them.
pub fn state(it: FenceEntryState) -> u8 {
    match it {
        FenceEntryState::InitialClosed => 0,
        FenceEntryState::Active => 1,
        FenceEntryState::TerminalClosed => 2,
        FenceEntryState::Reclaiming => 3,
    }
}

/// An all-zero entry is InitialClosed, and so closed.
fn zero_entry() -> Vec<u8> {
    let mut bytes = vec![0; 28];
    bytes[25] = 1;
    bytes
}

/// The fields of a cookie value.
fn value(it: FenceCookieValue) -> Vec<u8> {
    [key(it.key()), entry(it.entry())].concat()
}

/// The fields of a configuration.
fn config(it: FenceConfig) -> Vec<u8> {
    let mut bytes = match it.endpoint() {
        ProtectedEndpoint::Ipv4 { address, port } => endpoint_bytes(4, &address, port),
        ProtectedEndpoint::Ipv6 { address, port } => endpoint_bytes(6, &address, port),
    };
    bytes.extend(it.root_cgroup_id().to_le_bytes());
    bytes.extend(it.capacity().to_le_bytes());
    bytes
}

/// The fields of an inspection.
fn inspection(it: FenceInspection) -> Vec<u8> {
    let mut bytes = current(it.current());
    bytes.extend(mutation(it.mutation()));
    bytes.push(it.entry().is_some().into());
    bytes.extend(it.entry().map_or(vec![], value));
    bytes
}
