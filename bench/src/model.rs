//! The manager once more: slots and ranks, books, banks, lanes, the fabric's calls and the day sheet.
use std::collections::HashMap;

pub const SLOTS: usize = 64;
pub const MOST_PORTS: usize = 16;
pub const LANES: usize = 15;
const MOST_HOPS: usize = 8;
const MOST_NUMBER: u32 = 65_535;
const DISTANCES: [u32; 14] = [64, 32, 22, 16, 13, 11, 10, 8, 7, 6, 5, 4, 3, 2];

// ---- refusals ----

#[derive(Clone, Copy, PartialEq, Eq, Debug)]
pub enum Layer {
    Bank,
    Lanes,
    Fabric,
    Sheet,
}

/// `own` is the finder's place, `place` the one that the asking layer's question names.
#[derive(Clone, Copy, PartialEq, Eq, Debug)]
pub struct Refusal {
    pub number: u8,
    pub layer: Layer,
    pub own: usize,
    pub place: usize,
}

impl Refusal {
    fn new(layer: Layer, number: u8, place: usize) -> Refusal {
        Refusal { number, layer, own: place, place }
    }

    fn bank(number: u8) -> Refusal {
        Refusal::new(Layer::Bank, number, 0)
    }

    fn lanes(number: u8) -> Refusal {
        Refusal::new(Layer::Lanes, number, 0)
    }

    fn fabric(number: u8, place: usize) -> Refusal {
        Refusal::new(Layer::Fabric, number, place)
    }

    fn sheet(number: u8, place: usize) -> Refusal {
        Refusal::new(Layer::Sheet, number, place)
    }

    /// The same, handed on by a layer whose question names a place.
    fn at(self, place: usize) -> Refusal {
        Refusal { place, ..self }
    }
}

fn ask(yes: bool, no: Refusal) -> Result<(), Refusal> {
    if yes {
        Ok(())
    } else {
        Err(no)
    }
}

// ---- slots, ranks, service ----

#[derive(Clone, Copy, PartialEq, Eq, Debug, Default)]
pub struct Slot {
    pub lane: u8,
    pub weight: u8,
}

/// The rank of a slot, and the slot of a rank.
pub fn reversed(slot: usize) -> usize {
    ((slot as u8).reverse_bits() >> 2) as usize
}

/// The spacing for a level with a guarantee and a weight that a table can carry.
pub fn spacing(level: u32, weight: u32) -> u32 {
    let mut t = 64;
    while t > DISTANCES[level as usize] || weight > 255 * (64 / t) {
        t /= 2;
    }
    t
}

// ---- books ----

#[derive(Clone, Copy, PartialEq, Eq, Debug)]
pub struct Session {
    pub number: u16,
    pub lane: u8,
    pub size: u8,
    pub grant: u16,
}

/// One port's sessions, each at the first rank of its set, and a bit for each rank that is held.
#[derive(Clone)]
pub struct Book {
    first: [Option<Session>; SLOTS],
    held: u64,
}

fn ranks(first: usize, size: usize) -> u64 {
    (u64::MAX >> (SLOTS - size)) << first
}

impl Book {
    fn new() -> Book {
        Book { first: [None; SLOTS], held: 0 }
    }

    pub fn free_ranks(&self) -> usize {
        self.held.count_zeros() as usize
    }

    pub fn is_free(&self, first: usize, size: usize) -> bool {
        self.held & ranks(first, size) == 0
    }

    fn is_whole(&self, first: usize, size: usize) -> bool {
        let twice = 2 * size;
        self.is_free(first, size) && (size == SLOTS || !self.is_free(first & !(twice - 1), twice))
    }

    /// The whole free sets of a size, from left to right.
    fn wholes(&self, size: usize) -> impl Iterator<Item = usize> + '_ {
        (0..SLOTS).step_by(size).filter(move |&first| self.is_whole(first, size))
    }

    fn whole_around(&self, mut first: usize, mut size: usize) -> (usize, usize) {
        while size < SLOTS {
            let wider = first & !(2 * size - 1);
            if !self.is_free(wider, 2 * size) {
                break;
            }
            first = wider;
            size *= 2;
        }
        (first, size)
    }

    fn fill_in(&mut self, session: Session) {
        let size = session.size as usize;
        let first = (0..SLOTS).step_by(size).find(|&first| self.is_free(first, size)).expect("there is room");
        self.first[first] = Some(session);
        self.held |= ranks(first, size);
    }

    fn release(&mut self, number: u16) {
        let Some(first) = self.first.iter().position(|s| s.is_some_and(|s| s.number == number)) else {
            return;
        };
        let size = self.first[first].take().map_or(0, |s| s.size as usize);
        self.held &= !ranks(first, size);
        self.join(first, size);
        self.order();
    }

    fn exchange(&mut self, f: usize, g: usize, size: usize) {
        for k in 0..size {
            self.first.swap(f + k, g + k);
        }
        let was = self.held;
        let (at_f, at_g) = (ranks(f, size), ranks(g, size));
        self.held &= !(at_f | at_g);
        self.held |= ((was & at_f) >> f) << g;
        self.held |= ((was & at_g) >> g) << f;
    }

    fn join(&mut self, first: usize, size: usize) {
        let (mut first, mut size) = self.whole_around(first, size);
        loop {
            let Some(other) = self.wholes(size).find(|&o| o != first) else {
                return;
            };
            self.exchange(first, other ^ size, size);
            (first, size) = self.whole_around(other, size);
        }
    }

    fn order(&mut self) {
        let mut size = SLOTS;
        while size > 1 {
            let first = self.wholes(size).next();
            if let (Some(first), Some(smaller)) = (first, self.rightmost_smaller(size)) {
                if smaller > first {
                    self.exchange(first, smaller & !(size - 1), size);
                }
            }
            size /= 2;
        }
    }

    /// The first rank of the rightmost whole free set below a size.
    fn rightmost_smaller(&self, size: usize) -> Option<usize> {
        let mut rest = !self.held;
        while rest != 0 {
            let rank = 63 - rest.leading_zeros() as usize;
            let (first, found) = self.whole_around(rank, 1);
            if found < size {
                return Some(first);
            }
            rest &= !ranks(first, found);
        }
        None
    }

    pub fn slots(&self) -> [Slot; SLOTS] {
        let mut slots = [Slot::default(); SLOTS];
        for (first, session) in self.first.iter().enumerate() {
            let Some(s) = session else { continue };
            let (each, more) = (s.grant / s.size as u16, s.grant % s.size as u16);
            for k in 0..s.size as u16 {
                let weight = each + u16::from(k < more);
                slots[reversed(first + k as usize)] = Slot { lane: s.lane, weight: weight as u8 };
            }
        }
        slots
    }

    pub fn sessions(&self) -> impl Iterator<Item = (usize, Session)> + '_ {
        self.first.iter().enumerate().filter_map(|(f, s)| s.map(|s| (f, s)))
    }
}

// ---- banks ----

pub trait Bank {
    fn count(&self) -> usize;
    fn is_open(&self, port: usize) -> Result<bool, Refusal>;
    fn slot(&self, port: usize, slot: usize) -> Result<Slot, Refusal>;
    fn write(&mut self, port: usize, slot: usize, content: Slot) -> Result<(), Refusal>;
    fn set_open(&mut self, port: usize, open: bool) -> Result<(), Refusal>;
}

fn ask_port(port: usize, count: usize) -> Result<(), Refusal> {
    ask(port < count, Refusal::bank(10))
}

fn ask_write(port: usize, count: usize, slot: usize, lane: u8) -> Result<(), Refusal> {
    ask_port(port, count)?;
    ask(slot < SLOTS, Refusal::bank(11))?;
    ask((lane as usize) < LANES, Refusal::bank(12))
}

pub struct RecordBank {
    ports: Vec<(bool, [Slot; SLOTS])>,
}

impl RecordBank {
    pub fn new(count: usize) -> RecordBank {
        RecordBank { ports: vec![(true, [Slot::default(); SLOTS]); count.clamp(1, MOST_PORTS)] }
    }
}

impl Bank for RecordBank {
    fn count(&self) -> usize {
        self.ports.len()
    }

    fn is_open(&self, port: usize) -> Result<bool, Refusal> {
        self.ports.get(port).map(|p| p.0).ok_or(Refusal::bank(10))
    }

    fn slot(&self, port: usize, slot: usize) -> Result<Slot, Refusal> {
        let slots = &self.ports.get(port).ok_or(Refusal::bank(10))?.1;
        slots.get(slot).copied().ok_or(Refusal::bank(11))
    }

    fn write(&mut self, port: usize, slot: usize, content: Slot) -> Result<(), Refusal> {
        ask_write(port, self.ports.len(), slot, content.lane)?;
        let (open, slots) = &mut self.ports[port];
        ask(*open, Refusal::bank(6))?;
        slots[slot] = content;
        Ok(())
    }

    fn set_open(&mut self, port: usize, open: bool) -> Result<(), Refusal> {
        self.ports.get_mut(port).ok_or(Refusal::bank(10))?.0 = open;
        Ok(())
    }
}

pub const IMAGE: usize = 2 * SLOTS;

pub struct ImageBank {
    ports: Vec<(bool, [u8; IMAGE])>,
}

impl ImageBank {
    pub fn new(count: usize) -> ImageBank {
        ImageBank { ports: vec![(true, [0; IMAGE]); count.clamp(1, MOST_PORTS)] }
    }
}

impl Bank for ImageBank {
    fn count(&self) -> usize {
        self.ports.len()
    }

    fn is_open(&self, port: usize) -> Result<bool, Refusal> {
        self.ports.get(port).map(|p| p.0).ok_or(Refusal::bank(10))
    }

    fn slot(&self, port: usize, slot: usize) -> Result<Slot, Refusal> {
        let image = &self.ports.get(port).ok_or(Refusal::bank(10))?.1;
        read_image(image, slot)
    }

    fn write(&mut self, port: usize, slot: usize, content: Slot) -> Result<(), Refusal> {
        ask_write(port, self.ports.len(), slot, content.lane)?;
        let (open, image) = &mut self.ports[port];
        ask(*open, Refusal::bank(6))?;
        image[2 * slot] = content.lane;
        image[2 * slot + 1] = content.weight;
        Ok(())
    }

    fn set_open(&mut self, port: usize, open: bool) -> Result<(), Refusal> {
        self.ports.get_mut(port).ok_or(Refusal::bank(10))?.0 = open;
        Ok(())
    }
}

pub fn write_image(bank: &impl Bank, port: usize, out: &mut [u8]) -> Result<(), Refusal> {
    ask_port(port, bank.count())?;
    ask(out.len() >= IMAGE, Refusal::bank(16))?;
    for (s, pair) in out[..IMAGE].chunks_exact_mut(2).enumerate() {
        let slot = bank.slot(port, s)?;
        pair.copy_from_slice(&[slot.lane, slot.weight]);
    }
    Ok(())
}

pub fn read_image(image: &[u8], slot: usize) -> Result<Slot, Refusal> {
    ask(image.len() >= IMAGE, Refusal::bank(16))?;
    ask(slot < SLOTS, Refusal::bank(11))?;
    let (lane, weight) = (image[2 * slot], image[2 * slot + 1]);
    ask((lane as usize) < LANES, Refusal::bank(12))?;
    Ok(Slot { lane, weight })
}

// ---- lanes ----

pub trait Lanes {
    fn first(&self, lane: usize) -> Result<Option<u16>, Refusal>;
    fn take(&mut self, lane: usize) -> Result<u16, Refusal>;
}

fn is_packet(length: u16) -> bool {
    (1..=4096).contains(&length)
}

const RING: usize = 16;

#[derive(Clone, Copy)]
struct Ring {
    rows: [u16; RING],
    front: usize,
    len: usize,
}

#[derive(Clone)]
pub struct RingLanes {
    rings: [Ring; LANES],
}

impl RingLanes {
    pub fn new() -> RingLanes {
        RingLanes { rings: [Ring { rows: [0; RING], front: 0, len: 0 }; LANES] }
    }

    pub fn arrive(&mut self, lane: usize, length: u16) -> Result<(), Refusal> {
        let ring = self.rings.get_mut(lane).ok_or(Refusal::lanes(12))?;
        ask(is_packet(length), Refusal::lanes(15))?;
        ask(ring.len < RING, Refusal::lanes(14))?;
        ring.rows[(ring.front + ring.len) % RING] = length;
        ring.len += 1;
        Ok(())
    }
}

impl Default for RingLanes {
    fn default() -> RingLanes {
        RingLanes::new()
    }
}

impl Lanes for RingLanes {
    fn first(&self, lane: usize) -> Result<Option<u16>, Refusal> {
        let ring = self.rings.get(lane).ok_or(Refusal::lanes(12))?;
        Ok((ring.len > 0).then(|| ring.rows[ring.front]))
    }

    fn take(&mut self, lane: usize) -> Result<u16, Refusal> {
        let ring = self.rings.get_mut(lane).ok_or(Refusal::lanes(12))?;
        ask(ring.len > 0, Refusal::lanes(13))?;
        let length = ring.rows[ring.front];
        ring.front = (ring.front + 1) % RING;
        ring.len -= 1;
        Ok(length)
    }
}

/// The packets of a capture; `next` is, for each lane, the record from which on to look.
pub struct CaptureLanes<'a> {
    lanes: &'a [u8],
    lengths: &'a [u8],
    next: [usize; LANES],
}

impl<'a> CaptureLanes<'a> {
    pub fn new(bytes: &'a [u8]) -> CaptureLanes<'a> {
        let n = match bytes {
            [high, low, ..] => u16::from_be_bytes([*high, *low]) as usize,
            _ => 0,
        };
        let (lanes, lengths) = if bytes.len() == 2 + 3 * n { bytes[2..].split_at(n) } else { (&[][..], &[][..]) };
        CaptureLanes { lanes, lengths, next: [0; LANES] }
    }

    fn find(&self, lane: usize) -> Option<(usize, u16)> {
        (self.next[lane]..self.lanes.len())
            .filter(|&k| self.lanes[k] as usize == lane)
            .map(|k| (k, u16::from_be_bytes([self.lengths[2 * k], self.lengths[2 * k + 1]])))
            .find(|&(_, length)| is_packet(length))
    }
}

impl Lanes for CaptureLanes<'_> {
    fn first(&self, lane: usize) -> Result<Option<u16>, Refusal> {
        ask(lane < LANES, Refusal::lanes(12))?;
        Ok(self.find(lane).map(|(_, length)| length))
    }

    fn take(&mut self, lane: usize) -> Result<u16, Refusal> {
        ask(lane < LANES, Refusal::lanes(12))?;
        let (k, length) = self.find(lane).ok_or(Refusal::lanes(13))?;
        self.next[lane] = k + 1;
        Ok(length)
    }
}

// ---- the fabric ----

#[derive(Clone, Copy, PartialEq, Eq, Debug)]
pub struct Pointer {
    pub slot: usize,
    pub credit: u32,
}

#[derive(Clone, Copy, PartialEq, Eq, Debug)]
pub enum Picked {
    Sent { lane: u8, length: u16, passed: usize },
    Idle { passed: usize },
}

/// `live` has the ports of every live session, as bits.
pub struct Fabric {
    started: Option<usize>,
    books: Vec<Book>,
    pointers: [Pointer; MOST_PORTS],
    live: HashMap<u16, u16>,
}

impl Fabric {
    pub fn new() -> Fabric {
        Fabric { started: None, books: vec![Book::new(); MOST_PORTS], pointers: [Pointer { slot: SLOTS - 1, credit: 0 }; MOST_PORTS], live: HashMap::new() }
    }

    pub fn book(&self, port: usize) -> &Book {
        &self.books[port]
    }

    pub fn pointer(&self, port: usize) -> Pointer {
        self.pointers[port]
    }

    fn ask_started(&self, bank: &impl Bank) -> Result<(), Refusal> {
        ask(self.started == Some(bank.count()), Refusal::fabric(1, 0))
    }

    pub fn start(&mut self, bank: &mut impl Bank) -> Result<(), Refusal> {
        let count = bank.count();
        for port in 0..count {
            ask(bank.is_open(port)?, Refusal::bank(6).at(port))?;
        }
        for port in 0..count {
            for slot in 0..SLOTS {
                bank.write(port, slot, Slot::default())?;
            }
        }
        *self = Fabric::new();
        self.started = Some(count);
        Ok(())
    }

    /// Answers spacing, grant and how many slots changed.
    pub fn reserve(&mut self, bank: &mut impl Bank, number: u32, level: u32, weight: u32, path: &[usize]) -> Result<(u32, u32, u32), Refusal> {
        self.ask_started(bank)?;
        ask((1..=MOST_NUMBER).contains(&number), Refusal::fabric(2, 0))?;
        ask((level as usize) < DISTANCES.len(), Refusal::fabric(3, 0))?;
        ask((1..=16_320).contains(&weight), Refusal::fabric(4, 0))?;
        ask_path(path, bank.count())?;
        for (hop, &port) in path.iter().enumerate() {
            ask(bank.is_open(port)?, Refusal::bank(6).at(hop))?;
        }
        let number = number as u16;
        ask(!self.live.contains_key(&number), Refusal::fabric(7, 0))?;
        let spacing = spacing(level, weight);
        let size = 64 / spacing;
        for (hop, &port) in path.iter().enumerate() {
            ask(self.books[port].free_ranks() >= size as usize, Refusal::fabric(8, hop))?;
        }
        let grant = weight.max(size);
        let session = Session { number, lane: level as u8, size: size as u8, grant: grant as u16 };
        let mut changed = 0;
        let mut ports = 0;
        for &port in path {
            changed += self.change(bank, port, |book| book.fill_in(session))?;
            ports |= 1 << port;
        }
        self.live.insert(number, ports);
        Ok((spacing, grant, changed))
    }

    /// Answers how many slots changed.
    pub fn release(&mut self, bank: &mut impl Bank, number: u32) -> Result<u32, Refusal> {
        self.ask_started(bank)?;
        ask((1..=MOST_NUMBER).contains(&number), Refusal::fabric(2, 0))?;
        let number = number as u16;
        let ports = *self.live.get(&number).ok_or(Refusal::fabric(9, 0))?;
        let holders = (0..MOST_PORTS).filter(|port| ports >> port & 1 == 1);
        for port in holders.clone() {
            ask(bank.is_open(port)?, Refusal::bank(6).at(port))?;
        }
        let mut changed = 0;
        for port in holders {
            changed += self.change(bank, port, |book| book.release(number))?;
        }
        self.live.remove(&number);
        Ok(changed)
    }

    /// Changes one book, and writes the slots that it changed.
    fn change(&mut self, bank: &mut impl Bank, port: usize, change: impl FnOnce(&mut Book)) -> Result<u32, Refusal> {
        let old = self.books[port].slots();
        change(&mut self.books[port]);
        let new = self.books[port].slots();
        let mut changed = 0;
        for (slot, (was, is)) in old.iter().zip(&new).enumerate() {
            if was != is {
                bank.write(port, slot, *is)?;
                changed += 1;
            }
        }
        Ok(changed)
    }

    pub fn shut(&mut self, bank: &mut impl Bank, port: usize) -> Result<(), Refusal> {
        bank.set_open(port, false)
    }

    pub fn reopen(&mut self, bank: &mut impl Bank, port: usize) -> Result<(), Refusal> {
        bank.set_open(port, true)
    }

    pub fn pick(&mut self, bank: &impl Bank, lanes: &mut impl Lanes, port: usize) -> Result<Picked, Refusal> {
        self.ask_started(bank)?;
        ask(bank.is_open(port)?, Refusal::bank(6))?;
        let pointer = &mut self.pointers[port];
        let from = pointer.slot;
        let here = bank.slot(port, from)?;
        let usable = pointer.credit.min(here.weight as u32);
        if usable > 0 && lanes.first(here.lane as usize)?.is_some() {
            return send(pointer, from, usable, here.lane, 0, lanes);
        }
        for passed in 1..=SLOTS {
            let at = (from + passed) % SLOTS;
            let slot = bank.slot(port, at)?;
            if slot.weight > 0 && lanes.first(slot.lane as usize)?.is_some() {
                return send(pointer, at, slot.weight as u32, slot.lane, passed, lanes);
            }
        }
        Ok(Picked::Idle { passed: SLOTS })
    }
}

impl Default for Fabric {
    fn default() -> Fabric {
        Fabric::new()
    }
}

fn ask_path(path: &[usize], count: usize) -> Result<(), Refusal> {
    ask(!path.is_empty(), Refusal::fabric(5, 0))?;
    ask(path.len() <= MOST_HOPS, Refusal::fabric(5, MOST_HOPS))?;
    for (hop, port) in path.iter().enumerate() {
        ask(*port < count && !path[..hop].contains(port), Refusal::fabric(5, hop))?;
    }
    Ok(())
}

pub fn cost(length: u16) -> u32 {
    (length as u32).div_ceil(64)
}

fn send(pointer: &mut Pointer, slot: usize, credit: u32, lane: u8, passed: usize, lanes: &mut impl Lanes) -> Result<Picked, Refusal> {
    let length = lanes.take(lane as usize)?;
    *pointer = Pointer { slot, credit: credit.saturating_sub(cost(length)) };
    Ok(Picked::Sent { lane, length, passed })
}

// ---- the day sheet ----

pub const MOST_INPUT: usize = 65_536;

/// The output of the program for an input.
pub fn sheet(input: &[u8]) -> Vec<u8> {
    let mut out = Vec::new();
    if input.len() > MOST_INPUT {
        put(&mut out, "no", &[17, 0]);
        return out;
    }
    let mut desk = Desk::new();
    let text = input.strip_suffix(b"\n").unwrap_or(input);
    if !input.is_empty() {
        for line in text.split(|&b| b == b'\n') {
            desk.serve(line, &mut out);
        }
    }
    out
}

/// A started fabric on four open ports.
pub struct Desk {
    bank: RecordBank,
    fabric: Fabric,
}

impl Desk {
    pub fn new() -> Desk {
        let mut bank = RecordBank::new(4);
        let mut fabric = Fabric::new();
        fabric.start(&mut bank).expect("a new bank is open");
        Desk { bank, fabric }
    }

    pub fn fabric(&self) -> &Fabric {
        &self.fabric
    }

    /// Carries out a line, and puts its answer behind what was put out before.
    pub fn serve(&mut self, line: &[u8], out: &mut Vec<u8>) {
        let begun = out.len();
        if let Err(no) = self.obey(line, out) {
            out.truncate(begun);
            put(out, "no", &[no.number as usize, no.place]);
        }
    }

    fn obey(&mut self, line: &[u8], out: &mut Vec<u8>) -> Result<(), Refusal> {
        let Desk { bank, fabric } = self;
        let mut numbers = [0; 11];
        match read(line, &mut numbers)? {
            (Form::Reserve, n) => {
                let mut path = [0; MOST_HOPS];
                for (to, from) in path.iter_mut().zip(&numbers[3..n]) {
                    *to = *from as usize;
                }
                let (spacing, grant, changed) = fabric.reserve(bank, numbers[0], numbers[1], numbers[2], &path[..n - 3])?;
                put(out, "ok", &[spacing as usize, grant as usize, changed as usize]);
            }
            (Form::Release, _) => {
                let changed = fabric.release(bank, numbers[0])?;
                put(out, "ok", &[changed as usize]);
            }
            (Form::Shut, _) => {
                fabric.shut(bank, numbers[0] as usize)?;
                put(out, "ok", &[]);
            }
            (Form::Reopen, _) => {
                fabric.reopen(bank, numbers[0] as usize)?;
                put(out, "ok", &[]);
            }
            (Form::Table, _) => {
                let mut image = [0; IMAGE];
                write_image(bank, numbers[0] as usize, &mut image)?;
                put_image(out, &image);
            }
        }
        Ok(())
    }
}

impl Default for Desk {
    fn default() -> Desk {
        Desk::new()
    }
}

#[derive(Clone, Copy)]
enum Form {
    Reserve,
    Release,
    Shut,
    Reopen,
    Table,
}

/// The form of a line and how many numbers it has, which are put into `numbers`.
fn read(line: &[u8], numbers: &mut [u32; 11]) -> Result<(Form, usize), Refusal> {
    let mut fields = line.split(|&b| b == b' ');
    let word = fields.next().unwrap_or_default();
    let (form, fewest, most) = match word {
        b"reserve" => (Form::Reserve, 4, 11),
        b"release" => (Form::Release, 1, 1),
        b"shut" => (Form::Shut, 1, 1),
        b"reopen" => (Form::Reopen, 1, 1),
        b"table" => (Form::Table, 1, 1),
        _ => return Err(Refusal::sheet(18, 0)),
    };
    let mut place = word.len() + 1;
    let mut count = 0;
    let mut surplus = None;
    for field in fields {
        let value = number(field).ok_or(Refusal::sheet(19, place))?;
        if count < most {
            numbers[count] = value;
        } else if surplus.is_none() {
            surplus = Some(place);
        }
        count += 1;
        place += field.len() + 1;
    }
    match surplus {
        Some(place) => Err(Refusal::sheet(20, place)),
        None if count < fewest => Err(Refusal::sheet(20, line.len())),
        None => Ok((form, count)),
    }
}

fn number(field: &[u8]) -> Option<u32> {
    let fits = matches!(field, [b'0'] | [b'1'..=b'9', ..]) && field.len() <= 5;
    if !fits || !field.iter().all(u8::is_ascii_digit) {
        return None;
    }
    let value = field.iter().fold(0, |sum, b| sum * 10 + (b - b'0') as u32);
    (value <= 65_535).then_some(value)
}

fn put(out: &mut Vec<u8>, word: &str, numbers: &[usize]) {
    use std::io::Write;
    out.extend_from_slice(word.as_bytes());
    for n in numbers {
        write!(out, " {n}").expect("a vector takes all");
    }
    out.push(b'\n');
}

fn put_image(out: &mut Vec<u8>, image: &[u8]) {
    out.extend_from_slice(b"ok ");
    for byte in image {
        out.push(b"0123456789abcdef"[(byte >> 4) as usize]);
        out.push(b"0123456789abcdef"[(byte & 15) as usize]);
    }
    out.push(b'\n');
}
