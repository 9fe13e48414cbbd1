//! A plain program that plays a recording as `slots` does, for comparison.

use std::collections::VecDeque;
use std::io::{self, BufRead, BufReader, BufWriter, Read, Write};

const LONGEST: usize = 200;
const PORTS: usize = 8;
const BLOCKS: usize = 16;
const ROUTES: usize = 32;

/// Marks a byte that is no digit.
const WRONG: u8 = 0xFF;

static DIGITS: [u8; 256] = {
    let mut digits = [WRONG; 256];
    let mut value = 0;
    while value < 16 {
        digits[b"0123456789ABCDEF"[value] as usize] = value as u8;
        digits[b"0123456789abcdef"[value] as usize] = value as u8;
        value += 1;
    }
    digits
};

static PAIRS: [[u8; 2]; 256] = {
    let mut pairs = [[0; 2]; 256];
    let mut value = 0;
    while value < 256 {
        pairs[value] = [b"0123456789ABCDEF"[value >> 4], b"0123456789ABCDEF"[value & 15]];
        value += 1;
    }
    pairs
};

#[derive(Clone, Copy)]
enum Refusal {
    PortBeyond = 1,
    PortCount = 7,
    LineTooLong = 10,
    WrongDigit = 11,
    UnknownKind = 12,
    FrameLength = 13,
    UnknownArbiter = 14,
    NoSlotNumber = 22,
    TurnUsed = 23,
    NoRoute = 24,
    InputFull = 25,
    RoutesFull = 26,
    OutOfPlace = 33,
}

type Cell = [u8; 53];

enum Frame {
    Start { ports: u8, arbiter: u8, first_slot: u32 },
    Route { input: u8, vci: u16, output: u8, new_vci: u16 },
    Cell { input: u8, cell: Cell },
    Close,
}

/// The bytes that a line of at most 200 bytes spells, put into `bytes`.
fn spelled<'a>(line: &[u8], bytes: &'a mut [u8; LONGEST / 2]) -> Result<&'a [u8], Refusal> {
    let mut rest = line;
    let mut count = 0;
    while !rest.is_empty() {
        if let [b' ', after @ ..] = rest
            && count > 0
        {
            rest = after;
        }
        let [high, low, after @ ..] = rest else { return Err(Refusal::WrongDigit) };
        let (high, low) = (DIGITS[usize::from(*high)], DIGITS[usize::from(*low)]);
        if high | low == WRONG {
            return Err(Refusal::WrongDigit);
        }
        bytes[count] = high << 4 | low;
        count += 1;
        rest = after;
    }
    Ok(&bytes[..count])
}

fn frame_of(line: &[u8]) -> Result<Frame, Refusal> {
    if line.len() > LONGEST {
        return Err(Refusal::LineTooLong);
    }
    let mut bytes = [0; LONGEST / 2];
    match *spelled(line, &mut bytes)? {
        [0, _, arbiter, _, _, _, _, _, _, _, _] if arbiter != 1 && arbiter != 2 => Err(Refusal::UnknownArbiter),
        [0, ports, arbiter, _, _, _, _, a, b, c, d] => {
            Ok(Frame::Start { ports, arbiter, first_slot: u32::from_be_bytes([a, b, c, d]) })
        }
        [1, input, a, b, output, c, d] => {
            Ok(Frame::Route { input, vci: u16::from_be_bytes([a, b]), output, new_vci: u16::from_be_bytes([c, d]) })
        }
        [2, input, ref cell @ ..] if cell.len() == 53 => {
            let mut copy = [0; 53];
            copy.copy_from_slice(cell);
            Ok(Frame::Cell { input, cell: copy })
        }
        [3] => Ok(Frame::Close),
        [] | [0..=3, ..] => Err(Refusal::FrameLength),
        _ => Err(Refusal::UnknownKind),
    }
}

fn vci_of(cell: &Cell) -> u16 {
    u16::from(cell[1]) << 12 | u16::from(cell[2]) << 4 | u16::from(cell[3]) >> 4
}

fn rewrite(cell: &mut Cell, vci: u16) {
    cell[1] = cell[1] & 0xF0 | (vci >> 12) as u8;
    cell[2] = (vci >> 4) as u8;
    cell[3] = (vci << 4) as u8 | cell[3] & 0x0F;
}

fn is_idle(cell: &Cell) -> bool {
    cell[..4] == [0, 0, 0, 1]
}

type Table = [[bool; PORTS]; PORTS];

enum Arbiter {
    Diagonal { ports: usize, turn: usize },
    Ripple { ports: usize, turn: usize },
}

impl Arbiter {
    /// The output granted to each input. An input's west wire is low once it has a grant, an output's north wire is low once it is taken.
    fn decide(&mut self, requests: &Table) -> [Option<usize>; PORTS] {
        let mut grants = [None; PORTS];
        let mut taken = [false; PORTS];
        match self {
            Arbiter::Diagonal { ports: n, turn } => {
                for k in 0..*n {
                    let diagonal = *turn + k;
                    for input in 0..*n {
                        let output = (diagonal + *n - input) % *n;
                        if requests[input][output] && !taken[output] && grants[input].is_none() {
                            grants[input] = Some(output);
                            taken[output] = true;
                        }
                    }
                }
                *turn = (*turn + 1) % *n;
            }
            Arbiter::Ripple { ports: n, turn } => {
                for u in 0..*n {
                    let input = (*turn / *n + u) % *n;
                    for v in 0..*n {
                        let output = (*turn % *n + v) % *n;
                        if requests[input][output] && !taken[output] {
                            grants[input] = Some(output);
                            taken[output] = true;
                            break;
                        }
                    }
                }
                *turn = (*turn + 1) % (*n * *n);
            }
        }
        grants
    }
}

struct Route {
    vci: u16,
    output: usize,
    new_vci: u16,
}

struct Waiting {
    cell: Cell,
    new_vci: u16,
}

#[derive(Default)]
struct Input {
    routes: Vec<Route>,
    queues: [VecDeque<Waiting>; PORTS],
    waiting: usize,
    turn_used: bool,
}

struct Switch {
    ports: usize,
    arbiter: Arbiter,
    inputs: [Input; PORTS],
    open: Option<u32>,
    /// The number of the next slot, if one is left.
    next: Option<u32>,
}

impl Switch {
    fn new(ports: u8, arbiter: u8, first_slot: u32) -> Result<Switch, Refusal> {
        let ports = usize::from(ports);
        if !(2..=PORTS).contains(&ports) {
            return Err(Refusal::PortCount);
        }
        let arbiter = match arbiter {
            1 => Arbiter::Diagonal { ports, turn: 0 },
            _ => Arbiter::Ripple { ports, turn: 0 },
        };
        Ok(Switch { ports, arbiter, inputs: Default::default(), open: None, next: Some(first_slot) })
    }

    fn port(&self, port: u8) -> Result<usize, Refusal> {
        let port = usize::from(port);
        if port < self.ports { Ok(port) } else { Err(Refusal::PortBeyond) }
    }

    fn set_route(&mut self, input: u8, vci: u16, output: u8, new_vci: u16) -> Result<(), Refusal> {
        let input = self.port(input)?;
        let output = self.port(output)?;
        let routes = &mut self.inputs[input].routes;
        let route = Route { vci, output, new_vci };
        match routes.iter().position(|route| route.vci == vci) {
            Some(place) => routes[place] = route,
            None if routes.len() == ROUTES => return Err(Refusal::RoutesFull),
            None => routes.push(route),
        }
        Ok(())
    }

    /// The slot that is open, or else the next one, open from now on.
    fn slot(&mut self) -> Result<u32, Refusal> {
        if let Some(slot) = self.open {
            return Ok(slot);
        }
        let slot = self.next.ok_or(Refusal::NoSlotNumber)?;
        self.next = slot.checked_add(1);
        self.open = Some(slot);
        for input in &mut self.inputs {
            input.turn_used = false;
        }
        Ok(slot)
    }

    fn arrive(&mut self, input: u8, cell: Cell) -> Result<(), Refusal> {
        self.slot()?;
        let input = self.port(input)?;
        let input = &mut self.inputs[input];
        if input.turn_used {
            return Err(Refusal::TurnUsed);
        }
        if !is_idle(&cell) {
            let vci = vci_of(&cell);
            let route = input.routes.iter().find(|route| route.vci == vci).ok_or(Refusal::NoRoute)?;
            if input.waiting == BLOCKS {
                return Err(Refusal::InputFull);
            }
            input.queues[route.output].push_back(Waiting { cell, new_vci: route.new_vci });
            input.waiting += 1;
        }
        input.turn_used = true;
        Ok(())
    }

    /// Decides, sends and closes a slot, and writes what leaves.
    fn end(&mut self, slot: u32, out: &mut impl Write) -> io::Result<()> {
        let mut requests = [[false; PORTS]; PORTS];
        for (row, input) in requests.iter_mut().zip(&self.inputs) {
            for (requested, queue) in row.iter_mut().zip(&input.queues) {
                *requested = !queue.is_empty();
            }
        }
        let grants = self.arbiter.decide(&requests);
        let mut sent = 0;
        for (number, (input, grant)) in self.inputs.iter_mut().zip(grants).enumerate() {
            let Some(output) = grant else { continue };
            let Some(Waiting { mut cell, new_vci }) = input.queues[output].pop_front() else { continue };
            input.waiting -= 1;
            sent += 1;
            let vci = vci_of(&cell);
            rewrite(&mut cell, new_vci);
            let mut bytes = [0; 64];
            bytes[0] = 0x82;
            bytes[1] = output as u8;
            bytes[2..6].copy_from_slice(&slot.to_be_bytes());
            bytes[6] = number as u8;
            bytes[7..9].copy_from_slice(&vci.to_be_bytes());
            bytes[9..11].copy_from_slice(&new_vci.to_be_bytes());
            bytes[11..].copy_from_slice(&cell);
            write_line(&bytes, out)?;
        }
        self.open = None;
        write_numbers(0x83, slot, sent, out)
    }
}

/// Writes the pairs of digits of at most 64 bytes, and 0A.
fn write_line(bytes: &[u8], out: &mut impl Write) -> io::Result<()> {
    let mut text = [b'\n'; 129];
    for (pair, byte) in text.chunks_exact_mut(2).zip(bytes) {
        pair.copy_from_slice(&PAIRS[usize::from(*byte)]);
    }
    out.write_all(&text[..2 * bytes.len() + 1])
}

fn write_numbers(kind: u8, wide: u32, narrow: u8, out: &mut impl Write) -> io::Result<()> {
    let [a, b, c, d] = wide.to_be_bytes();
    write_line(&[kind, a, b, c, d, narrow], out)
}

/// What a line says is done; what leaves is written.
fn play(line: &[u8], switch: &mut Option<Switch>, out: &mut impl Write) -> io::Result<Result<(), Refusal>> {
    let frame = match frame_of(line) {
        Ok(frame) => frame,
        Err(refusal) => return Ok(Err(refusal)),
    };
    let done = match (frame, switch) {
        (Frame::Start { ports, arbiter, first_slot }, none @ None) => {
            Switch::new(ports, arbiter, first_slot).map(|new| *none = Some(new))
        }
        (Frame::Start { .. }, Some(_)) | (_, None) => Err(Refusal::OutOfPlace),
        (Frame::Route { input, vci, output, new_vci }, Some(switch)) => switch.set_route(input, vci, output, new_vci),
        (Frame::Cell { input, cell }, Some(switch)) => switch.arrive(input, cell),
        (Frame::Close, Some(switch)) => match switch.slot() {
            Ok(slot) => return switch.end(slot, out).map(Ok),
            Err(refusal) => Err(refusal),
        },
    };
    Ok(done)
}

/// Passes the input up to and with the next 0A.
fn pass_line(input: &mut impl BufRead) -> io::Result<()> {
    loop {
        let chunk = input.fill_buf()?;
        let (passed, ended) = match chunk.iter().position(|byte| *byte == b'\n') {
            Some(end) => (end + 1, true),
            None => (chunk.len(), chunk.is_empty()),
        };
        input.consume(passed);
        if ended {
            return Ok(());
        }
    }
}

fn main() -> io::Result<()> {
    let mut input = BufReader::with_capacity(1 << 16, io::stdin().lock());
    let mut out = BufWriter::with_capacity(1 << 16, io::stdout().lock());
    let mut switch = None;
    let mut number: u32 = 1;
    let mut line = Vec::with_capacity(LONGEST + 1);
    loop {
        // no more than 201 bytes of a line are held
        line.clear();
        if input.by_ref().take(LONGEST as u64 + 1).read_until(b'\n', &mut line)? == 0 {
            break;
        }
        if line.last() == Some(&b'\n') {
            line.pop();
        } else if line.len() > LONGEST {
            pass_line(&mut input)?;
        }
        if let Err(refusal) = play(&line, &mut switch, &mut out)? {
            write_numbers(0x8F, number, refusal as u8, &mut out)?;
        }
        number = number.saturating_add(1);
    }
    if let Some(switch) = &mut switch
        && let Some(slot) = switch.open
    {
        switch.end(slot, &mut out)?;
    }
    out.flush()
}
