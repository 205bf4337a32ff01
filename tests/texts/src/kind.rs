//! The kinds of texts. A kind names what was done to make the text, not what a
//! reader must answer.

use crate::any;
use crate::damage;
use crate::faults::{fill_edges, fill_threads, Fault};
use crate::sound::dcfg;
use crate::value::{characters, Form, Role, Value};
use crate::writing::write;
use logs::random::Random;

#[derive(Debug, Clone, Copy, PartialEq, Eq)]
pub enum Kind {
    /// Accepted.
    Good,
    One(Fault),
    /// Two faults, at times of one kind.
    Two,
    Changed,
    Cut,
    /// A byte more or less.
    Inserted,
    Doubled,
    NotUtf8,
    /// Any JSON value, in a DCFG of no rows as the value of an unknown key.
    AnyJson,
    /// The same with a byte changed, put in or taken out within the value.
    NearJson,
    /// A JSON value that is no DCFG.
    NoDcfg,
    /// Any bytes.
    Garbage,
    /// Accepted, with as many edges and threads as may be.
    Full,
    /// At 1 MiB and one byte past it.
    Limit,
}

impl Kind {
    /// The kinds of texts that are short.
    pub fn short() -> Vec<Kind> {
        let few = |fault: &Fault| *fault != Fault::TooManyEdges;
        let faults = Fault::ALL.into_iter().filter(few).map(Kind::One);
        let others = [
            Kind::Good,
            Kind::Two,
            Kind::Changed,
            Kind::Cut,
            Kind::Inserted,
            Kind::Doubled,
            Kind::NotUtf8,
            Kind::AnyJson,
            Kind::NearJson,
            Kind::NoDcfg,
            Kind::Garbage,
        ];
        others.into_iter().chain(faults).collect()
    }

    /// The others.
    pub fn long() -> Vec<Kind> {
        vec![Kind::One(Fault::TooManyEdges), Kind::Full, Kind::Limit]
    }
}

/// The text of this kind and seed.
pub fn text(kind: Kind, seed: u64) -> Vec<u8> {
    let mut random = Random::new(seed);
    let random = &mut random;
    match kind {
        Kind::Good => good(random),
        Kind::One(fault) => faulty(random, &[fault]),
        Kind::Two => {
            let faults = [random.one_of(&SMALL), random.one_of(&SMALL)];
            faulty(random, &faults)
        }
        Kind::AnyJson => wrapped(&any_json(random)),
        Kind::NearJson => wrapped(&near_json(random)),
        Kind::NoDcfg => any_json(random),
        Kind::Garbage => garbage(random),
        Kind::Full => full(random),
        Kind::Limit => limit(random),
        _ => damaged(random, kind),
    }
}

/// The faults that need no long text.
const SMALL: [Fault; 11] = [
    Fault::Deep,
    Fault::RepeatedKey,
    Fault::RepeatedColumn,
    Fault::WrongKind,
    Fault::IdOutside,
    Fault::OwnIdRepeated,
    Fault::TooManyThreads,
    Fault::MissingKey,
    Fault::MissingColumn,
    Fault::MissingCell,
    Fault::NoSum,
];

fn good(random: &mut Random) -> Vec<u8> {
    let top = dcfg(random, 0);
    write(random, &top)
}

fn faulty(random: &mut Random, faults: &[Fault]) -> Vec<u8> {
    let mut top = dcfg(random, 1);
    for fault in faults {
        fault.put(random, &mut top);
    }
    write(random, &top)
}

fn damaged(random: &mut Random, kind: Kind) -> Vec<u8> {
    let mut text = good(random);
    match kind {
        Kind::Changed => damage::changed(random, &mut text),
        Kind::Cut => damage::cut(random, &mut text),
        Kind::Inserted => damage::inserted(random, &mut text),
        Kind::Doubled => damage::doubled(random, &mut text),
        _ => damage::not_utf8(random, &mut text),
    }
    text
}

fn any_json(random: &mut Random) -> Vec<u8> {
    let depth = random.one_of(&[0, 1, 2, 4, 32, 33]);
    let value = any::value(random, depth);
    write(random, &value)
}

fn near_json(random: &mut Random) -> Vec<u8> {
    let mut text = any_json(random);
    for _ in 0..1 + random.index(2) {
        match (text.is_empty(), random.below(4)) {
            (true, _) => {}
            (_, 0) => damage::changed(random, &mut text),
            (_, 1) => damage::doubled(random, &mut text),
            (_, 2) => damage::not_utf8(random, &mut text),
            _ => damage::inserted(random, &mut text),
        }
    }
    text
}

/// A DCFG of no rows in which these bytes are a value that is skipped.
fn wrapped(value: &[u8]) -> Vec<u8> {
    const BEFORE: &[u8] = br#"{"MAJOR_VERSION":1,"MINOR_VERSION":0,"EDGE_TYPES":[["EDGE_TYPE_ID","EDGE_TYPE"]],"SPECIAL_NODES":[["NODE_ID","NODE_NAME"]],"PROCESSES":[["PROCESS_ID","PROCESS_DATA"]],"X":"#;
    [BEFORE, value, b"}"].concat()
}

fn garbage(random: &mut Random) -> Vec<u8> {
    let length = random.index(60);
    match random.below(2) {
        0 => random.bytes(length),
        _ => (0..length)
            .map(|_| random.one_of(b"[]{}:,\"\\ 01-.eEtrufalsn"))
            .collect(),
    }
}

fn full(random: &mut Random) -> Vec<u8> {
    let mut top = dcfg(random, 1);
    fill_edges(random, &mut top, 4096);
    fill_threads(random, &mut top, 256);
    write(random, &top)
}

/// Blanks, or one long string, up to 1 MiB or one byte past it.
fn limit(random: &mut Random) -> Vec<u8> {
    let length = (1 << 20) + random.index(2);
    if random.once_in(2) {
        let mut text = good(random);
        damage::padded(random, &mut text, length);
        return text;
    }
    let mut top = dcfg(random, 0);
    let long = Value::new(
        Role::Skipped,
        Form::Raw(format!("\"{}\"", "a".repeat(1 << 20))),
    );
    if let Form::Object(members) = &mut top.form {
        members.push((characters("A long string"), long));
    }
    let mut text = write(random, &top);
    // The string is the last member: what is too much of it is taken out.
    let over = text.len() - length;
    let start = text
        .windows(8)
        .position(|part| part == b"aaaaaaaa")
        .unwrap_or(0);
    text.drain(start..start + over);
    text
}
