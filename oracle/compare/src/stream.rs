//! The query stream, and the comparison of two answers to it.
//!
//! A stream is blocks: a u32 length of at most 65,536, then that many bytes of whole queries. A query is a kind (u8), a body length
//! (u16) and the body; numbers are little-endian. The answers follow each other with nothing in between: how long each is follows from
//! its query.

use crate::suites::{Amount, Sink, Suite, SUITES};
use std::collections::BTreeMap;
use std::fs::File;
use std::io::{BufWriter, Read, Write};
use std::process::{Child, ChildStdin, ChildStdout, Command, Stdio};
use std::sync::mpsc::{channel, sync_channel, Receiver, SyncSender};
use std::time::{Duration, Instant};

const BLOCK: usize = 65_536;
/// How long an answer may take.
const PATIENCE: Duration = Duration::from_secs(60);
/// How many differences are shown.
const SHOWN: usize = 5;
/// How many queries of each outcome the fixed list keeps.
const KEPT: usize = 60;

/// A block of queries with the original's answers.
#[derive(Default)]
struct Block {
    queries: Vec<u8>,
    answers: Vec<u8>,
    /// Where each query begins in `queries`, and its answer in `answers`.
    starts: Vec<(usize, usize)>,
}

impl Block {
    fn push(&mut self, kind: u8, body: &[u8], answer: &[u8]) {
        self.starts.push((self.queries.len(), self.answers.len()));
        self.queries.push(kind);
        self.queries.extend_from_slice(&(body.len() as u16).to_le_bytes());
        self.queries.extend_from_slice(body);
        self.answers.extend_from_slice(answer);
    }

    fn has_room_for(&self, body: &[u8]) -> bool {
        self.queries.len() + 3 + body.len() <= BLOCK
    }

    fn write_to(&self, out: &mut impl Write) -> std::io::Result<()> {
        out.write_all(&(self.queries.len() as u32).to_le_bytes())?;
        out.write_all(&self.queries)
    }

    /// The query whose answer holds byte `at` of the answers: the query, and its part of the answers.
    fn query_at(&self, at: usize) -> (&[u8], std::ops::Range<usize>) {
        let i = self.starts.partition_point(|start| start.1 <= at) - 1;
        let end = self
            .starts
            .get(i + 1)
            .copied()
            .unwrap_or((self.queries.len(), self.answers.len()));
        (&self.queries[self.starts[i].0..end.0], self.starts[i].1..end.1)
    }
}

/// Writes blocks to the other process as they fill, hands them on to be compared, and counts the outcomes.
struct Feeder {
    block: Block,
    to: ChildStdin,
    on: SyncSender<Block>,
    tally: BTreeMap<&'static str, u64>,
    /// The reader has gone, or the other process takes no more.
    stopped: bool,
}

impl Feeder {
    fn flush(&mut self) {
        let block = std::mem::take(&mut self.block);
        if block.queries.is_empty() || self.stopped {
            return;
        }
        self.stopped = block.write_to(&mut self.to).is_err() || self.on.send(block).is_err();
    }
}

impl Sink for Feeder {
    fn push(&mut self, kind: u8, body: &[u8], answer: &[u8], outcome: &'static str) {
        *self.tally.entry(outcome).or_default() += 1;
        if !self.block.has_room_for(body) {
            self.flush();
        }
        self.block.push(kind, body, answer);
    }
}

/// What the other process writes. It is read as it comes, so that neither process can wait for the other for ever.
struct Answers {
    pieces: Receiver<Vec<u8>>,
    held: Vec<u8>,
}

impl Answers {
    fn new(mut from: ChildStdout) -> Self {
        let (on, pieces) = channel();
        std::thread::spawn(move || {
            let mut piece = vec![0; BLOCK];
            while let Ok(n @ 1..) = from.read(&mut piece) {
                if on.send(piece[..n].to_vec()).is_err() {
                    return;
                }
            }
        });
        Self {
            pieces,
            held: Vec::new(),
        }
    }

    /// The next `n` bytes, or none where there are fewer, or no more come.
    fn take(&mut self, n: usize) -> Option<Vec<u8>> {
        while self.held.len() < n {
            self.held.extend(self.pieces.recv_timeout(PATIENCE).ok()?);
        }
        let later = self.held.split_off(n);
        Some(std::mem::replace(&mut self.held, later))
    }

    /// How many bytes are left.
    fn rest(self) -> usize {
        self.held.len() + self.pieces.into_iter().map(|piece| piece.len()).sum::<usize>()
    }
}

/// Starts the other process, with pipes for its input and output.
pub fn start(command: &[&str]) -> Result<Child, String> {
    Command::new(command[0])
        .args(&command[1..])
        .stdin(Stdio::piped())
        .stdout(Stdio::piped())
        .spawn()
        .map_err(|error| format!("{} cannot be started: {error}", command[0]))
}

pub fn compare(suite: &'static Suite, amount: Amount, command: &[&str]) -> Result<(), String> {
    let began = Instant::now();
    let mut child = start(command)?;
    let to = child.stdin.take().expect("the child's input is a pipe");
    let mut from = Answers::new(child.stdout.take().expect("the child's output is a pipe"));
    let (on, blocks) = sync_channel::<Block>(16);
    let feeder = std::thread::spawn(move || {
        let mut feeder = Feeder {
            block: Block::default(),
            to,
            on,
            tally: BTreeMap::new(),
            stopped: false,
        };
        (suite.run)(&mut feeder, amount);
        feeder.flush();
        feeder.tally
    });
    let mut differences = 0u64;
    let mut cut = false;
    for block in blocks {
        let Some(got) = from.take(block.answers.len()) else {
            cut = true;
            break;
        };
        differences += differing(&block, &got, differences);
    }
    if cut {
        let _ = child.kill();
    }
    let rest = from.rest();
    let tally = feeder.join().map_err(|_| "the maker of queries failed")?;
    let status = child.wait().map_err(|error| error.to_string())?;
    report(suite, &tally, differences, began);
    judge(suite, &tally, differences, cut, rest)?;
    if status.success() {
        Ok(())
    } else {
        Err(format!("beside ended with {status}"))
    }
}

/// Counts the queries of a block that were answered in another way, and shows the first few.
fn differing(block: &Block, got: &[u8], before: u64) -> u64 {
    let mut count = 0;
    let mut at = 0;
    while at < got.len() {
        if got[at] == block.answers[at] {
            at += 1;
            continue;
        }
        let (query, answer) = block.query_at(at);
        count += 1;
        if before + count <= SHOWN as u64 {
            println!("  query {}", hex(query));
            println!("    original {}", hex(&block.answers[answer.clone()]));
            println!("    beside   {}", hex(&got[answer.clone()]));
        }
        at = answer.end;
    }
    count
}

fn report(suite: &Suite, tally: &BTreeMap<&'static str, u64>, differences: u64, began: Instant) {
    let queries: u64 = tally.values().sum();
    println!(
        "{}: {queries} queries, {differences} differences, {:.1} s",
        suite.name,
        began.elapsed().as_secs_f64()
    );
    for outcome in suite.outcomes {
        println!("  {outcome}: {}", tally.get(outcome).copied().unwrap_or(0));
    }
}

fn judge(suite: &Suite, tally: &BTreeMap<&'static str, u64>, differences: u64, cut: bool, rest: usize) -> Result<(), String> {
    if cut {
        return Err("beside ended, or fell silent, before it had answered every query".into());
    }
    if rest > 0 {
        return Err(format!("beside wrote {rest} bytes more than the answers"));
    }
    if let Some(unknown) = tally.keys().find(|outcome| !suite.outcomes.contains(outcome)) {
        return Err(format!("the outcome {unknown} is on no list"));
    }
    if let Some(missing) = suite.outcomes.iter().find(|outcome| !tally.contains_key(*outcome)) {
        return Err(format!("the outcome {missing} never occurred"));
    }
    if differences > 0 {
        return Err(format!("{differences} answers differ"));
    }
    Ok(())
}

fn hex(bytes: &[u8]) -> String {
    bytes.iter().map(|byte| format!("{byte:02x}")).collect::<Vec<_>>().join(" ")
}

/// What was seen and kept of an outcome: how many queries, and the number of the one kept last.
#[derive(Default)]
struct Kept {
    seen: usize,
    last: usize,
    chosen: usize,
}

/// Keeps some queries of each outcome: the first few, and then each that comes a fifth later than the one kept last, so that all parts of
/// a suite's sample are drawn from.
#[derive(Default)]
struct Chooser {
    kept: Vec<Block>,
    of: BTreeMap<&'static str, Kept>,
}

impl Sink for Chooser {
    fn push(&mut self, kind: u8, body: &[u8], answer: &[u8], outcome: &'static str) {
        let so_far = self.of.entry(outcome).or_default();
        so_far.seen += 1;
        if so_far.chosen >= KEPT || so_far.seen <= so_far.last + so_far.last / 5 {
            return;
        }
        so_far.chosen += 1;
        so_far.last = so_far.seen;
        if self.kept.last().is_none_or(|block| !block.has_room_for(body)) {
            self.kept.push(Block::default());
        }
        self.kept.last_mut().expect("a block was just added").push(kind, body, answer);
    }
}

pub fn write_fixed(queries: &str, answers: &str) -> Result<(), String> {
    let create = |name: &str| {
        File::create(name)
            .map(BufWriter::new)
            .map_err(|error| format!("{name}: {error}"))
    };
    let (mut to_queries, mut to_answers) = (create(queries)?, create(answers)?);
    let mut count = 0;
    for suite in SUITES {
        let mut chooser = Chooser::default();
        (suite.run)(&mut chooser, Amount::Sample);
        for block in &chooser.kept {
            block
                .write_to(&mut to_queries)
                .map_err(|error| format!("{queries}: {error}"))?;
            to_answers
                .write_all(&block.answers)
                .map_err(|error| format!("{answers}: {error}"))?;
            count += block.starts.len();
        }
    }
    to_queries.flush().map_err(|error| format!("{queries}: {error}"))?;
    to_answers.flush().map_err(|error| format!("{answers}: {error}"))?;
    println!("{count} queries with their answers");
    Ok(())
}
