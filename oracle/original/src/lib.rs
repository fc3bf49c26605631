//! The original Rust behind functions of the same shape as the proved ones for C: the same parameters, answers and outputs. Bytes are a
//! pointer and a length, and a record's fields are numbers of eight bytes side by side, least significant byte first.

use opc_egress_fence_common::*;

/// Zeros in the first `n` bytes, where there are so many.
fn clear(fields: &mut [u8], n: usize) {
    if let Some(part) = fields.get_mut(..n) {
        part.fill(0);
    }
}

/// From bytes to fields, as every `threadwicket_NAME_decode`: 1 for another length, 2 where the original takes none, 4 without room, else 0.
#[inline(always)]
fn decoded<const LEN: usize, const N: usize>(
    bytes: &[u8],
    fields: &mut [u8],
    read: impl Fn(&[u8; LEN]) -> Option<[u64; N]>,
) -> u32 {
    let Ok(bytes) = <&[u8; LEN]>::try_from(bytes) else {
        clear(fields, 8 * N);
        return 1;
    };
    let Some(numbers) = read(bytes) else {
        clear(fields, 8 * N);
        return 2;
    };
    let Some(room) = fields.get_mut(..8 * N) else {
        return 4;
    };
    for (place, number) in room.chunks_exact_mut(8).zip(numbers) {
        place.copy_from_slice(&number.to_le_bytes());
    }
    0
}

/// From fields to bytes, as every `threadwicket_NAME_encode`: 1 for another length, 3 where the original makes no record, 4 without room,
/// else 0.
#[inline(always)]
fn encoded<const LEN: usize, const N: usize>(fields: &[u8], bytes: &mut [u8], made: impl Fn([u64; N]) -> Option<[u8; LEN]>) -> u32 {
    if fields.len() != 8 * N {
        return 1;
    }
    let mut numbers = [0; N];
    for (number, place) in numbers.iter_mut().zip(fields.chunks_exact(8)) {
        *number = u64::from_le_bytes(place.try_into().expect("eight bytes"));
    }
    let Some(record) = made(numbers) else {
        return 3;
    };
    let Some(room) = bytes.get_mut(..LEN) else {
        return 4;
    };
    room.copy_from_slice(&record);
    0
}

fn current_fields(current: CurrentFenceToken) -> [u64; 3] {
    let control = match (current.is_lifecycle_open(), current.is_retirement_closed()) {
        (true, _) => CURRENT_LIFECYCLE_OPEN_CONTROL,
        (_, true) => CURRENT_RETIREMENT_CLOSED_CONTROL,
        _ => 0,
    };
    [
        control.into(),
        current.durable_fence_token(),
        current.registered_socket_cookie(),
    ]
}

fn current_of([control, token, cookie]: [u64; 3]) -> Option<CurrentFenceToken> {
    match u32::try_from(control).ok()? {
        0 if token == 0 && cookie == 0 => Some(CurrentFenceToken::initial()),
        CURRENT_LIFECYCLE_OPEN_CONTROL if cookie == 0 => CurrentFenceToken::lifecycle_open(token),
        CURRENT_LIFECYCLE_OPEN_CONTROL => CurrentFenceToken::registered(token, cookie),
        CURRENT_RETIREMENT_CLOSED_CONTROL if cookie == 0 => CurrentFenceToken::retirement_closed(token),
        _ => None,
    }
}

fn mutation_fields(mutation: FenceMutationAuthority) -> [u64; 2] {
    [mutation.generation(), mutation.in_flight_claim()]
}

fn entry_fields(entry: FenceEntry) -> [u64; 4] {
    let control = match entry.state() {
        FenceEntryState::InitialClosed => COOKIE_CONTROL_INITIAL_CLOSED,
        FenceEntryState::Active => COOKIE_CONTROL_ACTIVE,
        FenceEntryState::TerminalClosed => COOKIE_CONTROL_TERMINAL_CLOSED,
        FenceEntryState::Reclaiming => COOKIE_CONTROL_RECLAIMING,
    };
    [
        control.into(),
        entry.durable_fence_token(),
        entry.deadline_boot_ns(),
        entry.control_epoch(),
    ]
}

fn entry_of([control, token, deadline, epoch]: [u64; 4]) -> Option<FenceEntry> {
    match u32::try_from(control).ok()? {
        COOKIE_CONTROL_INITIAL_CLOSED if deadline == 0 && epoch == EGRESS_FENCE_INITIAL_COOKIE_EPOCH => {
            FenceEntry::initial_closed(token)
        }
        COOKIE_CONTROL_ACTIVE => FenceEntry::active(token, deadline, epoch),
        COOKIE_CONTROL_TERMINAL_CLOSED if deadline == 0 => FenceEntry::terminal_closed(token, epoch),
        COOKIE_CONTROL_RECLAIMING if deadline == 0 => FenceEntry::reclaiming(token, epoch),
        _ => None,
    }
}

fn value_fields(value: FenceCookieValue) -> [u64; 5] {
    let [control, token, deadline, epoch] = entry_fields(value.entry());
    [control, value.key().socket_cookie(), token, deadline, epoch]
}

fn value_of([control, cookie, token, deadline, epoch]: [u64; 5]) -> Option<FenceCookieValue> {
    FenceCookieValue::new(
        FenceCookieKey::new(cookie, token)?,
        entry_of([control, token, deadline, epoch])?,
    )
}

fn config_fields(config: FenceConfig) -> [u64; 6] {
    let mut address = [0; 16];
    let family = match config.endpoint() {
        ProtectedEndpoint::Ipv4 { address: four, .. } => {
            address[..4].copy_from_slice(&four);
            4
        }
        ProtectedEndpoint::Ipv6 { address: sixteen, .. } => {
            address = sixteen;
            6
        }
    };
    let half = |at: usize| u64::from_le_bytes(address[at..at + 8].try_into().expect("eight bytes"));
    [
        family,
        config.endpoint().port().into(),
        config.capacity().into(),
        config.root_cgroup_id(),
        half(0),
        half(8),
    ]
}

fn config_of([family, port, capacity, root, first, second]: [u64; 6]) -> Option<FenceConfig> {
    let port = u16::try_from(port).ok()?;
    let mut address = [0; 16];
    address[..8].copy_from_slice(&first.to_le_bytes());
    address[8..].copy_from_slice(&second.to_le_bytes());
    let endpoint = match family {
        4 if first >> 32 == 0 && second == 0 => ProtectedEndpoint::ipv4([address[0], address[1], address[2], address[3]], port)?,
        6 => ProtectedEndpoint::ipv6(address, port)?,
        _ => return None,
    };
    FenceConfig::new(endpoint, root, u32::try_from(capacity).ok()?)
}

fn inspection_fields(inspection: FenceInspection) -> [u64; 11] {
    let mut numbers = [0; 11];
    numbers[1..4].copy_from_slice(&current_fields(inspection.current()));
    numbers[4..6].copy_from_slice(&mutation_fields(inspection.mutation()));
    if let Some(value) = inspection.entry() {
        numbers[0] = 1;
        numbers[6..].copy_from_slice(&value_fields(value));
    }
    numbers
}

fn inspection_of(numbers: [u64; 11]) -> Option<FenceInspection> {
    let [present, control, token, cookie, generation, claim, value @ ..] = numbers;
    let current = current_of([control, token, cookie])?;
    let mutation = FenceMutationAuthority::new(generation, claim)?;
    let entry = match present {
        0 if value == [0; 5] => None,
        1 => Some(value_of(value)?),
        _ => return None,
    };
    Some(FenceInspection::new(current, mutation, entry))
}

/// A reading of eight bytes, where there is room for it. The original counts no headers: it is 0.
#[inline(always)]
pub fn put_reading(reading: &mut [u8]) -> bool {
    match reading.get_mut(..8) {
        Some(room) => {
            room.copy_from_slice(&0u64.to_le_bytes());
            true
        }
        None => false,
    }
}

/// The classifier on an endpoint of any family: 0 Protected, 1 Unrelated, 2 Indeterminate; 256 without room for the reading.
///
/// # Safety
/// The pointers are valid for their lengths, and the address's for sixteen bytes.
#[inline(never)]
pub unsafe extern "C" fn original_classify(
    packet: *const u8,
    packet_len: usize,
    family: u8,
    address: *const [u8; 16],
    port: u16,
    reading: *mut u8,
    reading_len: usize,
) -> u32 {
    if !put_reading(std::slice::from_raw_parts_mut(reading, reading_len)) {
        return 256;
    }
    let address = *address;
    let endpoint = match family {
        4 => ProtectedEndpoint::Ipv4 {
            address: [address[0], address[1], address[2], address[3]],
            port,
        },
        6 => ProtectedEndpoint::Ipv6 { address, port },
        _ => return 2,
    };
    match classify_l3_udp_source(std::slice::from_raw_parts(packet, packet_len), endpoint) {
        PacketEndpointDisposition::Protected => 0,
        PacketEndpointDisposition::Unrelated => 1,
        PacketEndpointDisposition::Indeterminate => 2,
    }
}

/// The deadline check: 0 PriorExpired, 1 RequestedDeadlineInvalid, 2 DeadlineRegressed, 3 Apply.
#[inline(never)]
pub extern "C" fn original_refresh(observed: u64, prior: u64, requested: u64) -> u32 {
    match evaluate_refresh_deadlines(observed, prior, requested) {
        RefreshDeadlineDecision::PriorExpired => 0,
        RefreshDeadlineDecision::RequestedDeadlineInvalid => 1,
        RefreshDeadlineDecision::DeadlineRegressed => 2,
        RefreshDeadlineDecision::Apply => 3,
    }
}

/// The two functions of a record.
macro_rules! record {
    ($decode:ident, $encode:ident, $record:ty, $fields:expr, $of:expr) => {
        /// # Safety
        /// Both pointers are valid for their lengths and do not overlap.
        #[inline(never)]
        pub unsafe extern "C" fn $decode(bytes: *const u8, bytes_len: usize, fields: *mut u8, fields_len: usize) -> u32 {
            let (bytes, fields) = (
                std::slice::from_raw_parts(bytes, bytes_len),
                std::slice::from_raw_parts_mut(fields, fields_len),
            );
            decoded(bytes, fields, |bytes| <$record>::decode(bytes).map($fields))
        }

        /// # Safety
        /// Both pointers are valid for their lengths and do not overlap.
        #[inline(never)]
        pub unsafe extern "C" fn $encode(fields: *const u8, fields_len: usize, bytes: *mut u8, bytes_len: usize) -> u32 {
            let (fields, bytes) = (
                std::slice::from_raw_parts(fields, fields_len),
                std::slice::from_raw_parts_mut(bytes, bytes_len),
            );
            encoded(fields, bytes, |numbers| $of(numbers).map(<$record>::encode))
        }
    };
}

record!(
    original_current_decode,
    original_current_encode,
    CurrentFenceToken,
    current_fields,
    current_of
);
record!(
    original_mutation_decode,
    original_mutation_encode,
    FenceMutationAuthority,
    mutation_fields,
    |[generation, claim]: [u64; 2]| { FenceMutationAuthority::new(generation, claim) }
);
record!(
    original_key_decode,
    original_key_encode,
    FenceCookieKey,
    |key: FenceCookieKey| [key.socket_cookie(), key.durable_fence_token()],
    |[cookie, token]: [u64; 2]| FenceCookieKey::new(cookie, token)
);
record!(
    original_entry_decode,
    original_entry_encode,
    FenceEntry,
    entry_fields,
    entry_of
);
record!(
    original_cookie_value_decode,
    original_cookie_value_encode,
    FenceCookieValue,
    value_fields,
    value_of
);
record!(
    original_config_decode,
    original_config_encode,
    FenceConfig,
    config_fields,
    config_of
);
record!(
    original_inspection_decode,
    original_inspection_encode,
    FenceInspection,
    inspection_fields,
    inspection_of
);
