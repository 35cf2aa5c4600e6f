//! Call scripts: calls, arrivals and picks as bytes, and their answers as bytes. README.md has the format.
use crate::model::{Fabric, Layer, Picked, RecordBank, Refusal, RingLanes};

pub const START: u8 = 0;
pub const RESERVE: u8 = 1;
pub const RELEASE: u8 = 2;
pub const SHUT: u8 = 3;
pub const REOPEN: u8 = 4;
pub const PICK: u8 = 5;
pub const ARRIVE: u8 = 6;

pub const PORTS: usize = 4;
/// The most bytes that one answer has.
pub const LONGEST: usize = 17;

#[derive(Clone, PartialEq, Eq, Debug)]
pub enum Command {
    Start,
    Reserve { number: u32, level: u32, weight: u32, path: Vec<usize> },
    Release(u32),
    Shut(usize),
    Reopen(usize),
    Pick(usize),
    Arrive { port: usize, lane: usize, length: u16 },
}

impl Command {
    /// Puts the command's bytes behind a script.
    pub fn put(&self, script: &mut Vec<u8>) {
        match self {
            Command::Start => script.push(START),
            Command::Reserve { number, level, weight, path } => {
                script.push(RESERVE);
                for value in [number, level, weight] {
                    script.extend(value.to_be_bytes());
                }
                script.push(path.len() as u8);
                script.extend(path.iter().map(|&port| port as u8));
            }
            Command::Release(number) => {
                script.push(RELEASE);
                script.extend(number.to_be_bytes());
            }
            Command::Shut(port) => script.extend([SHUT, *port as u8]),
            Command::Reopen(port) => script.extend([REOPEN, *port as u8]),
            Command::Pick(port) => script.extend([PICK, *port as u8]),
            Command::Arrive { port, lane, length } => {
                script.extend([ARRIVE, *port as u8, *lane as u8]);
                script.extend(length.to_be_bytes());
            }
        }
    }
}

/// What is left of a script.
pub struct Reader<'a>(pub &'a [u8]);

impl Reader<'_> {
    fn bytes<const N: usize>(&mut self) -> Option<[u8; N]> {
        let (head, rest) = self.0.split_first_chunk::<N>()?;
        self.0 = rest;
        Some(*head)
    }

    fn byte(&mut self) -> Option<u8> {
        self.bytes::<1>().map(|[b]| b)
    }

    fn word(&mut self) -> Option<u32> {
        self.bytes().map(u32::from_be_bytes)
    }

    /// The next command; none where the script ends, is cut off or goes on with another byte than a command's.
    pub fn command(&mut self) -> Option<Command> {
        Some(match self.byte()? {
            START => Command::Start,
            RESERVE => {
                let (number, level, weight) = (self.word()?, self.word()?, self.word()?);
                let hops = self.byte()? as usize;
                let path = (0..hops).map(|_| self.byte().map(usize::from)).collect::<Option<Vec<usize>>>()?;
                Command::Reserve { number, level, weight, path }
            }
            RELEASE => Command::Release(self.word()?),
            SHUT => Command::Shut(self.byte()? as usize),
            REOPEN => Command::Reopen(self.byte()? as usize),
            PICK => Command::Pick(self.byte()? as usize),
            ARRIVE => {
                let [port, lane] = self.bytes()?;
                let length = u16::from_be_bytes(self.bytes()?);
                Command::Arrive { port: port as usize, lane: lane as usize, length }
            }
            _ => return None,
        })
    }
}

/// What a script runs on: four open ports with ring lanes each, and a fabric that is not yet started.
pub struct World {
    pub bank: RecordBank,
    pub fabric: Fabric,
    pub lanes: [RingLanes; PORTS],
}

/// The fields of an accepted answer.
#[derive(Clone, Copy, PartialEq, Eq, Debug)]
pub enum Answer {
    Nothing,
    Slots(u32),
    Reserved(u32, u32, u32),
    Picked(Picked),
}

impl World {
    pub fn new() -> World {
        World { bank: RecordBank::new(PORTS), fabric: Fabric::new(), lanes: [(); PORTS].map(|_| RingLanes::new()) }
    }

    pub fn perform(&mut self, command: &Command) -> Result<Answer, Refusal> {
        let World { bank, fabric, lanes } = self;
        match command {
            Command::Start => fabric.start(bank).map(|_| Answer::Nothing),
            Command::Reserve { number, level, weight, path } => fabric.reserve(bank, *number, *level, *weight, path).map(|(a, b, c)| Answer::Reserved(a, b, c)),
            Command::Release(number) => fabric.release(bank, *number).map(Answer::Slots),
            Command::Shut(port) => fabric.shut(bank, *port).map(|_| Answer::Nothing),
            Command::Reopen(port) => fabric.reopen(bank, *port).map(|_| Answer::Nothing),
            Command::Pick(port) => {
                // at a port that is not there any lanes do
                fabric.pick(bank, &mut lanes[*port % PORTS], *port).map(Answer::Picked)
            }
            Command::Arrive { port, lane, length } => match lanes.get_mut(*port) {
                Some(lanes) => lanes.arrive(*lane, *length).map(|_| Answer::Nothing),
                None => Err(Refusal { number: 10, layer: Layer::Bank, own: 0, place: 0 }),
            },
        }
    }
}

impl Default for World {
    fn default() -> World {
        World::new()
    }
}

/// Writes one answer, and answers how many bytes it has.
pub fn put(answer: Result<Answer, Refusal>, out: &mut [u8; LONGEST]) -> usize {
    let (fields, count) = match answer {
        Ok(Answer::Nothing) => ([0; 4], 0),
        Ok(Answer::Slots(n)) => ([n, 0, 0, 0], 1),
        Ok(Answer::Reserved(spacing, grant, slots)) => ([spacing, grant, slots, 0], 3),
        Ok(Answer::Picked(Picked::Sent { lane, length, passed })) => ([1, lane as u32, length as u32, passed as u32], 4),
        Ok(Answer::Picked(Picked::Idle { passed })) => ([0, passed as u32, 0, 0], 2),
        Err(no) => {
            out[0] = 1;
            out[1] = no.number;
            out[2..6].copy_from_slice(&(no.place as u32).to_be_bytes());
            out[6] = match no.layer {
                Layer::Bank => 0,
                Layer::Lanes => 1,
                Layer::Fabric => 2,
                Layer::Sheet => 3,
            };
            out[7..11].copy_from_slice(&(no.own as u32).to_be_bytes());
            return 11;
        }
    };
    out[0] = 0;
    for (k, field) in fields[..count].iter().enumerate() {
        out[1 + 4 * k..5 + 4 * k].copy_from_slice(&field.to_be_bytes());
    }
    1 + 4 * count
}

/// Runs a script from its beginning, writes the answers to the front of `out` and answers how many bytes they have. It ends early before a
/// command for whose answer fewer than `LONGEST` bytes are left.
pub fn run(script: &[u8], out: &mut [u8]) -> usize {
    let mut world = World::new();
    let mut reader = Reader(script);
    let mut at = 0;
    while let Some(room) = out[at..].first_chunk_mut::<LONGEST>() {
        let Some(command) = reader.command() else { break };
        at += put(world.perform(&command), room);
    }
    at
}
