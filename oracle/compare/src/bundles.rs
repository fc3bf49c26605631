//! The judging program against the listing of `oracle/plain`: makes bundles, has the program list each as a process of its own, and
//! compares what it writes with the plain listing, byte for byte, and its status with the listing's ending. Every verdict, every header count and every fault must occur.

use crate::rng::Rng;
use crate::stream::start;
use crate::suites::gate::{allowed, perturb, Asked};
use crate::suites::packet::{self, random_chain};
use crate::suites::verdict::VERDICTS;
use crate::suites::Amount;
use plain::{listing, put_frame, rules, LONGEST_BUNDLE};
use std::collections::BTreeMap;
use std::io::Write;
use std::time::{Duration, Instant};

/// What must occur besides every verdict: in a line of a listing the rule that answered and a header count; in its last line the end, and
/// each fault.
const OUTCOMES: &[&str] = &[
    "rule 1",
    "rule 2",
    "rule 3",
    "rule 4",
    "rule 5",
    "rule 6",
    // rule 7 answers for no bundle: its table is whole records, and fewer than 4,096
    "rule 8",
    "rule 9",
    "rule 10",
    "rule 11",
    "rule 12",
    "rule 13",
    "0 headers",
    "1 headers",
    "2 headers",
    "3 headers",
    "4 headers",
    "end",
    "bad: cut in a frame's head",
    "bad: cut in a frame's body",
    "bad: unknown kind",
    "bad: wrong length",
    "bad: a length past 2^16",
    "long",
];

/// How many differences are shown.
const SHOWN: u64 = 5;

struct Bundle {
    bytes: Vec<u8>,
    /// What the last line should show.
    ending: &'static str,
    /// Written in pieces of so many bytes, so that the program reads more than once.
    piece: usize,
}

fn call_body(it: &Asked) -> Vec<u8> {
    let mut body = it.attachment.to_le_bytes().to_vec();
    body.push(it.socket.family);
    body.extend(it.socket.port.to_le_bytes());
    body.extend(it.socket.address);
    body.extend(it.cookie.to_le_bytes());
    body.extend(it.now.to_le_bytes());
    body
}

/// A call's frames: configuration, current record, table, call, packet; each but the packet is left out now and then, so that what
/// stood before is in force.
fn scene(out: &mut Vec<u8>, it: &Asked, rng: &mut Rng, all: bool) {
    if all || rng.one_in(3) {
        put_frame(out, 1, &it.config);
    }
    if all || rng.one_in(3) {
        put_frame(out, 2, &it.current);
    }
    if all || rng.one_in(4) {
        for record in it.table().chunks_exact(40) {
            put_frame(out, 3, record);
        }
    }
    if all || !rng.one_in(4) {
        put_frame(out, 4, &call_body(it));
    }
    let chain = it.config[6] == 6 && rng.one_in(2);
    let packet = if chain { random_chain(rng) } else { it.packet.clone() };
    put_frame(out, 5, &packet);
}

/// A bundle of some calls, one after another.
fn scenes(rng: &mut Rng) -> Vec<u8> {
    let endpoint = rng.pick(&[packet::IPV4, packet::IPV6]);
    let mut bytes = Vec::new();
    for index in 0..rng.below(12) {
        let mut it = allowed(&endpoint);
        for _ in 0..rng.pick(&[0, 1, 1, 2]) {
            perturb(&mut it, rng, &endpoint);
        }
        let all = index == 0 && !rng.one_in(8);
        scene(&mut bytes, &it, rng, all);
    }
    bytes
}

/// Puts a fault at the end of a bundle of whole frames, or none.
fn with_ending(mut bytes: Vec<u8>, rng: &mut Rng) -> (Vec<u8>, &'static str) {
    match rng.below(10) {
        0 => {
            bytes.extend(vec![5; 1 + rng.below(5)]);
            (bytes, "bad: cut in a frame's head")
        }
        1 => {
            let body = vec![0x45; 1 + rng.below(60)];
            put_frame(&mut bytes, rng.pick(&[1, 2, 3, 4, 5]), &body);
            bytes.truncate(bytes.len() - 1 - rng.below(body.len()));
            (bytes, "bad: cut in a frame's body")
        }
        2 => {
            let kind = rng.pick(&[0, 6, 7, 255, 256, 257, 261, 0x0500, 65535]);
            put_frame(&mut bytes, kind, &vec![0; rng.pick(&[0, 24, 40, 43])]);
            put_frame(&mut bytes, 5, &[0x60]);
            (bytes, "bad: unknown kind")
        }
        3 => {
            let (kind, length) = rng.pick(&[(1, 40), (2, 24), (3, 40), (4, 43)]);
            let wrong = rng.pick(&[0, 1, 24, 39, 40, 41, 42, 43, 44, 80]);
            put_frame(&mut bytes, kind, &vec![0; if wrong == length { wrong + 1 } else { wrong }]);
            put_frame(&mut bytes, 5, &[0x60]);
            (bytes, "bad: wrong length")
        }
        4 => {
            let near: u32 = u32::MAX - rng.below(64) as u32;
            let length = rng.pick(&[near, near, (1 << 16) + 40, (1 << 24) + 40]);
            bytes.extend(length.to_le_bytes());
            bytes.extend(rng.pick(&[1u16, 3, 5, 9]).to_le_bytes());
            bytes.extend(vec![0; rng.below(80)]);
            (bytes, "bad: a length past 2^16")
        }
        _ => (bytes, "end"),
    }
}

/// Bundles at the limit of 65,536 bytes, and the smallest.
fn at_the_limit() -> Vec<Bundle> {
    let mut empty_packets = Vec::new();
    while empty_packets.len() + 16 <= LONGEST_BUNDLE {
        put_frame(&mut empty_packets, 5, &[]);
    }
    let filled = |length: usize| {
        let mut bytes = empty_packets.clone();
        let body = vec![0x60; length - bytes.len() - 6];
        put_frame(&mut bytes, 5, &body);
        bytes
    };
    let whole = |bytes: Vec<u8>, ending, piece| Bundle { bytes, ending, piece };
    let mut one_packet = Vec::new();
    put_frame(&mut one_packet, 5, &vec![0x45; LONGEST_BUNDLE - 6]);
    vec![
        whole(vec![], "end", 1),
        whole(filled(LONGEST_BUNDLE), "end", 4096),
        whole(filled(LONGEST_BUNDLE - 1), "end", LONGEST_BUNDLE),
        whole(filled(LONGEST_BUNDLE + 1), "long", 4096),
        whole(vec![0; LONGEST_BUNDLE + 1], "long", LONGEST_BUNDLE),
        whole(vec![5; 200_000], "long", 65_536),
        whole(one_packet, "end", 1000),
        whole(many_records(), "end", 65_536),
    ]
}

/// A bundle whose socket's own record stands behind 1,400 others.
fn many_records() -> Vec<u8> {
    let it = allowed(&packet::IPV4);
    let mut bytes = Vec::new();
    put_frame(&mut bytes, 1, &it.config);
    put_frame(&mut bytes, 2, &it.current);
    put_frame(&mut bytes, 4, &call_body(&it));
    for _ in 0..1400 {
        put_frame(&mut bytes, 3, &[0; 40]);
    }
    put_frame(&mut bytes, 3, &it.table());
    put_frame(&mut bytes, 5, &it.packet);
    bytes
}

/// The first line in which two listings differ, of each.
fn first_difference(expected: &[u8], got: &[u8]) -> (String, String) {
    let lines = |text: &[u8]| -> Vec<String> { String::from_utf8_lossy(text).lines().map(str::to_string).collect() };
    let (expected, got) = (lines(expected), lines(got));
    let at = expected.iter().zip(&got).take_while(|(one, other)| one == other).count();
    let line = |text: &[String]| text.get(at).cloned().unwrap_or("nothing more".into());
    (line(&expected), line(&got))
}

/// The status that a listing asks for: 0 where the bundle was read to its end, 1 where it was turned down.
fn status(listing: &[u8]) -> i32 {
    let last = String::from_utf8_lossy(listing).lines().last().unwrap_or_default().to_string();
    i32::from(!last.starts_with("end "))
}

/// What the program writes, and its status.
fn listed(bundle: &Bundle, command: &[&str]) -> Result<(Vec<u8>, i32), String> {
    let mut child = start(command)?;
    let mut to = child.stdin.take().expect("the child's input is a pipe");
    let (bytes, piece) = (bundle.bytes.clone(), bundle.piece);
    let writer = std::thread::spawn(move || {
        for part in bytes.chunks(piece) {
            // of a bundle that is too long the program need not read all
            if to.write_all(part).is_err() {
                return;
            }
            if piece < 16 {
                std::thread::sleep(Duration::from_micros(20));
            }
        }
    });
    let output = child.wait_with_output().map_err(|error| error.to_string())?;
    writer.join().map_err(|_| "the writer of a bundle failed")?;
    match output.status.code() {
        Some(code @ (0 | 1)) => Ok((output.stdout, code)),
        _ => Err(format!("the program ended with {}", output.status)),
    }
}

/// Counts what a listing shows.
fn count(tally: &mut BTreeMap<String, u64>, bundle: &Bundle, text: &[u8]) {
    if bundle.bytes.len() <= LONGEST_BUNDLE {
        for rule in rules(&bundle.bytes) {
            *tally.entry(format!("rule {rule}")).or_default() += 1;
        }
    }
    for line in String::from_utf8_lossy(text).lines() {
        let words: Vec<&str> = line.split(' ').collect();
        if let [_, verdict, headers, _] = words.as_slice() {
            *tally.entry((*verdict).to_string()).or_default() += 1;
            *tally.entry(format!("{headers} headers")).or_default() += 1;
        }
    }
    *tally.entry(bundle.ending.to_string()).or_default() += 1;
}

fn random_bundle(rng: &mut Rng) -> Bundle {
    let whole = scenes(rng);
    let (bytes, ending) = with_ending(whole, rng);
    let piece = rng.pick(&[3, 1000, 65_536, 65_536]);
    Bundle { bytes, ending, piece }
}

/// Compares `amount` bundles. The last line is `suite judge: passed` or `suite judge: FAILED`.
pub fn compare(amount: Amount, command: &[&str]) -> Result<(), String> {
    let began = Instant::now();
    let mut rng = Rng::new(5);
    let mut bundles = at_the_limit();
    bundles.extend((0..amount.random(8_000)).map(|_| random_bundle(&mut rng)));
    let mut tally = BTreeMap::new();
    let mut differences = 0u64;
    for bundle in &bundles {
        let expected = listing(&bundle.bytes);
        count(&mut tally, bundle, &expected);
        let (got, code) = listed(bundle, command)?;
        if code != status(&expected) {
            return Err(format!("the program ended with {code} on a bundle of {} bytes", bundle.bytes.len()));
        }
        if got != expected {
            differences += 1;
        }
        if got != expected && differences <= SHOWN {
            let (plain, judge) = first_difference(&expected, &got);
            println!(
                "  a bundle of {} bytes\n    plain {plain}\n    judge {judge}",
                bundle.bytes.len()
            );
        }
    }
    println!(
        "judge: {} bundles, {differences} differences, {:.1} s",
        bundles.len(),
        began.elapsed().as_secs_f64()
    );
    let outcomes = || VERDICTS.iter().chain(OUTCOMES);
    for outcome in outcomes() {
        println!("  {outcome}: {}", tally.get(*outcome).copied().unwrap_or(0));
    }
    if let Some(missing) = outcomes().find(|outcome| !tally.contains_key(**outcome)) {
        return Err(format!("the outcome {missing} never occurred"));
    }
    if differences > 0 {
        return Err(format!("{differences} listings differ"));
    }
    Ok(())
}
