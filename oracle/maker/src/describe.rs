//! Descriptions of bundles. Records are made by the original's constructors, so one that they refuse is an error of its line.

use opc_egress_fence_common::*;
use std::net::IpAddr;

/// The bundle that a description stands for, or what is wrong with it and in which line.
pub fn bundle(text: &str) -> Result<Vec<u8>, String> {
    let mut out = Vec::new();
    for (index, line) in text.lines().enumerate() {
        let words: Vec<&str> = line.split('#').next().unwrap_or("").split_whitespace().collect();
        if let Some((&first, rest)) = words.split_first() {
            one_line(&mut out, first, rest).map_err(|why| format!("line {}: {why}", index + 1))?;
        }
    }
    Ok(out)
}

fn one_line(out: &mut Vec<u8>, first: &str, rest: &[&str]) -> Result<(), String> {
    match first {
        "config" => frame(out, 1, &config(rest)?),
        "current" => frame(out, 2, &current(rest)?),
        "value" => frame(out, 3, &value(rest)?),
        "call" => frame(out, 4, &call(rest)?),
        "packet" => frame(out, 5, &hex(rest)?),
        "frame" => {
            let (kind, body) = rest.split_first().ok_or("a frame needs a kind")?;
            frame(out, small(kind)?, &hex(body)?);
        }
        "bytes" => out.extend(hex(rest)?),
        _ => return Err(format!("'{first}' is no kind of line")),
    }
    Ok(())
}

fn frame(out: &mut Vec<u8>, kind: u16, body: &[u8]) {
    out.extend((body.len() as u32).to_le_bytes());
    out.extend(kind.to_le_bytes());
    out.extend(body);
}

fn config(words: &[&str]) -> Result<[u8; 40], String> {
    let [address, port, "root", root] = words else {
        return Err("a configuration is: config ADDRESS PORT root NUMBER".into());
    };
    let port = small(port)?;
    let endpoint = match ip(address)? {
        IpAddr::V4(v4) => ProtectedEndpoint::ipv4(v4.octets(), port),
        IpAddr::V6(v6) => ProtectedEndpoint::ipv6(v6.octets(), port),
    };
    let endpoint = endpoint.ok_or(format!("{address} port {port} cannot be protected"))?;
    let config = FenceConfig::new(endpoint, number(root)?, 4096).ok_or("the root cgroup is not 0")?;
    Ok(config.encode())
}

fn current(words: &[&str]) -> Result<[u8; 24], String> {
    let made = match words {
        ["initial"] => Some(CurrentFenceToken::initial()),
        ["open", token] => CurrentFenceToken::lifecycle_open(number(token)?),
        ["registered", token, cookie] => CurrentFenceToken::registered(number(token)?, number(cookie)?),
        ["retired", token] => CurrentFenceToken::retirement_closed(number(token)?),
        _ => return Err("a current record is: initial, open TOKEN, registered TOKEN COOKIE or retired TOKEN".into()),
    };
    Ok(made
        .ok_or("such a current record is refused (open and registered: odd token; retired: even token)")?
        .encode())
}

fn value(words: &[&str]) -> Result<[u8; 40], String> {
    let (state, named) = words.split_first().ok_or("a cookie value needs a state")?;
    let [cookie, token, deadline, epoch] = numbers(named, ["cookie", "token", "deadline", "epoch"])?;
    if !["initial-closed", "active", "terminal-closed", "reclaiming"].contains(state) {
        return Err(format!("'{state}' is no state of a cookie value"));
    }
    if deadline != 0 && *state != "active" {
        return Err(format!("a value that is {state} has no deadline"));
    }
    if *state == "initial-closed" && named.contains(&"epoch") && epoch != 1 {
        return Err("a value that is initial-closed has epoch 1".into());
    }
    let entry = match *state {
        "initial-closed" => FenceEntry::initial_closed(token),
        "active" => FenceEntry::active(token, deadline, epoch),
        "terminal-closed" => FenceEntry::terminal_closed(token, epoch),
        _ => FenceEntry::reclaiming(token, epoch),
    };
    let key = FenceCookieKey::new(cookie, token);
    let value = key.zip(entry).and_then(|(key, entry)| FenceCookieValue::new(key, entry));
    Ok(value
        .ok_or("such a cookie value is refused (odd token, cookie and epoch not 0, a deadline if it is active)")?
        .encode())
}

fn call(words: &[&str]) -> Result<Vec<u8>, String> {
    let place = words.iter().position(|word| *word == "socket").unwrap_or(words.len());
    let (mut named, socket) = (words[..place].to_vec(), &words[place..]);
    let (family, port, address) = match socket {
        [] => (0, 0, [0; 16]),
        ["socket", address, port, rest @ ..] => {
            named.extend(rest);
            let (family, address) = padded(ip(address)?);
            (family, small(port)?, address)
        }
        _ => return Err("a socket is: socket ADDRESS PORT".into()),
    };
    let [attachment, cookie, time] = numbers(&named, ["attachment", "cookie", "time"])?;
    let mut body = attachment.to_le_bytes().to_vec();
    body.push(family);
    body.extend(port.to_le_bytes());
    body.extend(address);
    body.extend(cookie.to_le_bytes());
    body.extend(time.to_le_bytes());
    Ok(body)
}

/// An address as a call has it: its family, and sixteen bytes of which IPv4 uses four.
fn padded(address: IpAddr) -> (u8, [u8; 16]) {
    match address {
        IpAddr::V4(v4) => {
            let mut bytes = [0; 16];
            bytes[..4].copy_from_slice(&v4.octets());
            (4, bytes)
        }
        IpAddr::V6(v6) => (6, v6.octets()),
    }
}

/// Numbers behind their names, in any order, each at most once; one that is left out is 0.
fn numbers<const N: usize>(words: &[&str], names: [&str; N]) -> Result<[u64; N], String> {
    let mut found = [None; N];
    for pair in words.chunks(2) {
        let place =
            names
                .iter()
                .position(|name| *name == pair[0])
                .ok_or(format!("'{}' is none of: {}", pair[0], names.join(", ")))?;
        let given = pair.get(1).ok_or(format!("{} needs a number", pair[0]))?;
        if found[place].replace(number(given)?).is_some() {
            return Err(format!("{} stands twice", pair[0]));
        }
    }
    Ok(found.map(Option::unwrap_or_default))
}

fn number(word: &str) -> Result<u64, String> {
    let (digits, radix) = word.strip_prefix("0x").map_or((word, 10), |digits| (digits, 16));
    let parsed = u64::from_str_radix(digits, radix).ok();
    // a sign is none of the digits
    parsed
        .filter(|_| !digits.starts_with('+'))
        .ok_or(format!("'{word}' is no number of 64 bits"))
}

/// A number of 16 bits.
fn small(word: &str) -> Result<u16, String> {
    u16::try_from(number(word)?).map_err(|_| format!("'{word}' is more than 65535"))
}

fn ip(word: &str) -> Result<IpAddr, String> {
    word.parse().map_err(|_| format!("'{word}' is no IP address"))
}

/// Bytes in hexadecimal, two digits a byte, with spaces anywhere between bytes.
fn hex(words: &[&str]) -> Result<Vec<u8>, String> {
    let mut bytes = Vec::new();
    for word in words {
        if word.len() % 2 != 0 || !word.bytes().all(|digit| digit.is_ascii_hexdigit()) {
            return Err(format!("'{word}' is not whole bytes in hexadecimal"));
        }
        for pair in 0..word.len() / 2 {
            let digits = &word[2 * pair..2 * pair + 2];
            bytes.push(u8::from_str_radix(digits, 16).map_err(|error| error.to_string())?);
        }
    }
    Ok(bytes)
}
