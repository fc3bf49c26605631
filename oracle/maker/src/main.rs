//! Makes a bundle from a description: reads lines on standard input, one for each frame, and writes the bundle on standard output.
//! A line that cannot be read is named on descriptor 2, and nothing is written.

mod describe;

use std::io::{Read, Write};
use std::process::ExitCode;

const USAGE: &str = "usage: make-bundle < DESCRIPTION > BUNDLE

A line is a frame; `#` begins a comment; numbers are decimal, or hexadecimal behind 0x; HEX is bytes such as 45 00 001c.

  config ADDRESS PORT root NUMBER            the configuration: protected endpoint and root cgroup
  current initial                            the current record, in one of its states
  current open TOKEN
  current registered TOKEN COOKIE
  current retired TOKEN
  value STATE cookie NUMBER token NUMBER [deadline NUMBER] [epoch NUMBER]
                                             a cookie value; STATE is initial-closed, active, terminal-closed or reclaiming
  call [attachment NUMBER] [socket ADDRESS PORT] [cookie NUMBER] [time NUMBER]
                                             what holds for the packets that follow; what is left out is 0
  packet [HEX]                               a packet
  frame KIND [HEX]                           a frame of any kind and body
  bytes [HEX]                                bytes as they stand, with no frame around them";

fn main() -> ExitCode {
    let words: Vec<String> = std::env::args().skip(1).collect();
    match words.iter().map(String::as_str).collect::<Vec<_>>().as_slice() {
        [] => {}
        ["-h" | "--help"] => {
            println!("{USAGE}");
            return ExitCode::SUCCESS;
        }
        _ => {
            eprintln!("{USAGE}");
            return ExitCode::from(2);
        }
    }
    match run() {
        Ok(()) => ExitCode::SUCCESS,
        Err(why) => {
            eprintln!("make-bundle: {why}");
            ExitCode::from(2)
        }
    }
}

fn run() -> Result<(), String> {
    let mut text = String::new();
    std::io::stdin()
        .read_to_string(&mut text)
        .map_err(|error| format!("the description cannot be read: {error}"))?;
    let bundle = describe::bundle(&text)?;
    let mut out = std::io::stdout();
    out.write_all(&bundle)
        .and_then(|()| out.flush())
        .map_err(|error| format!("the bundle cannot be written: {error}"))
}
