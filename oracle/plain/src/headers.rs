//! 01's count of extension headers, which the original does not have.

use opc_egress_fence_common::ProtectedEndpoint;

/// The extension headers passed, 0 to 4: the one at which reading stops is not counted, and no answer before the walk counts any.
pub fn headers_passed(packet: &[u8], endpoint: ProtectedEndpoint) -> u8 {
    let ProtectedEndpoint::Ipv6 { address, .. } = endpoint else {
        return 0;
    };
    if packet.len() < 40 || packet[0] >> 4 != 6 || packet[8..24] != address {
        return 0;
    }
    let payload = usize::from(u16::from_be_bytes([packet[4], packet[5]]));
    let end = 40 + payload;
    if payload == 0 || end > packet.len() {
        return 0;
    }
    let (mut next, mut at, mut passed) = (packet[6], 40, 0);
    while passed < 4 {
        let looked_at = if next == 44 { 8 } else { 2 };
        if at + looked_at > end {
            break;
        }
        let length = match next {
            0 | 43 | 60 => 8 * (usize::from(packet[at + 1]) + 1),
            51 => 4 * (usize::from(packet[at + 1]) + 2),
            44 if packet[at + 2] == 0 && packet[at + 3] == 0 => 8,
            _ => break,
        };
        if at + length > end {
            break;
        }
        (next, at, passed) = (packet[at], at + length, passed + 1);
    }
    passed
}
