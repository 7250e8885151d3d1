//! Carries out the lines of a sheet, and writes a reply for each.

use std::io::Write;

use crate::kinds::{Kind, Maps, Traces};
use crate::refusal::Refusal;
use crate::session::Session;
use crate::sheet::{lines, Line, MAP_NAMES, MOST_BYTES, TRACE_NAMES};
use crate::store::{Answer, Call, Outcome, Progress, WalkCall};

struct Reply {
    code: i32,
    x: i32,
    y: i32,
    z: i32,
}

const MALFORMED: Reply = Reply::code(90);
const UNREAD: Reply = Reply::code(91);
const NO_STORE: Reply = Reply::code(92);

/// The whole output for a whole input.
pub fn replies(input: &[u8]) -> Vec<u8> {
    let mut out = b"line code x y z\n".to_vec();
    if input.len() > MOST_BYTES {
        UNREAD.write(0, &mut out);
    } else if let Some(text) = input.strip_prefix(MAP_NAMES) {
        carry_out::<Maps>(text, &mut out);
    } else if let Some(text) = input.strip_prefix(TRACE_NAMES) {
        carry_out::<Traces>(text, &mut out);
    } else {
        UNREAD.write(0, &mut out);
    }
    out
}

fn carry_out<K: Kind>(text: &[u8], out: &mut Vec<u8>) {
    let mut session = None;
    for (before, line) in lines(text).enumerate() {
        let reply = match Line::of(line) {
            Some(line) => reply::<K>(&line, &mut session),
            None => MALFORMED,
        };
        reply.write(before + 1, out);
    }
}

fn reply<K: Kind>(line: &Line, session: &mut Option<Session<K>>) -> Reply {
    match line.letter {
        b'N' if line.party != 0 => MALFORMED,
        b'N' => match Session::open(line.a, line.fourth, line.fifth, line.d) {
            Ok(opened) => {
                *session = Some(opened);
                Reply::code(0)
            }
            Err(refusal) => Reply::refused(refusal),
        },
        b'T' if !(1..=9_999).contains(&line.a) => MALFORMED,
        _ => match session {
            Some(session) => Reply::of(ask(line, session)),
            None => NO_STORE,
        },
    }
}

fn ask<K: Kind>(line: &Line, session: &mut Session<K>) -> Outcome<K> {
    let slot = line.a;
    let call = match line.letter {
        b'T' => return session.turns(line.party, line.a),
        b'W' => return session.begin_walk(line.party, walk_call(line)),
        b'M' => Call::Make {
            slot,
            data: (line.fourth, line.fifth),
            kids: [line.d, line.e, line.f],
        },
        b'R' => Call::Read,
        b'K' => Call::Keep { slot },
        b'D' => Call::Drop { slot },
        b'H' => Call::Hand {
            slot,
            receiver: line.fourth,
        },
        b'F' => Call::Fetch { slot },
        b'E' => Call::Enter { slot },
        b'V' => Call::Down { kid: line.a },
        b'U' => Call::Up,
        b'L' => Call::Leave,
        _ => Call::Sweep,
    };
    session.begin(line.party, call)
}

fn walk_call(line: &Line) -> WalkCall {
    WalkCall {
        slot: line.a,
        range: line.fourth,
        gear: line.fifth,
        temperature: line.d,
    }
}

impl Reply {
    const fn code(code: i32) -> Reply {
        Reply {
            code,
            x: 0,
            y: 0,
            z: 0,
        }
    }

    fn refused(refusal: Refusal) -> Reply {
        Reply::code(refusal.number())
    }

    fn of<K: Kind>(outcome: Outcome<K>) -> Reply {
        match outcome {
            Err(refusal) => Reply::refused(refusal),
            Ok(Progress::Begun) => Reply::code(0),
            Ok(Progress::StillRunning) => Reply::code(100),
            Ok(Progress::Ended(answer)) => Reply::answer(answer),
        }
    }

    fn answer<K: Kind>(answer: Answer<K>) -> Reply {
        let (x, y, z) = match answer {
            Answer::Done => (0, 0, 0),
            Answer::AtNode(node) => (node.into(), 0, 0),
            Answer::Contents { node, data } => {
                let (first, second) = K::numbers(data);
                (node.into(), first, second)
            }
            Answer::Swept { node, receiver } => (node.into(), receiver.into(), 0),
            Answer::WorthIs { worth, size } => {
                let (first, second) = K::worth_numbers(worth);
                (first, second, size as i32)
            }
        };
        Reply { code: 0, x, y, z }
    }

    fn write(&self, line: usize, out: &mut Vec<u8>) {
        let Reply { code, x, y, z } = self;
        writeln!(out, "{line} {code} {x} {y} {z}").expect("a Vec takes all that is written to it");
    }
}
