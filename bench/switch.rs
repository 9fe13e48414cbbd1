//! A plain switch of eight ports under full load, for comparison with `bench_switch`: `switch SLOTS` (1000 if left out, below 2^32).
//!
//! Both programs do this, and write the same line. All numbers are unsigned; a product or sum that does not fit into 64 bits wraps.
//!
//! Generator: 64 bits, at first 88172645463325252. A draw replaces the state s by s ^ (s << 13), that by s ^ (s >> 7), that by s ^ (s << 17), in
//! this order, bits shifted out being lost, and answers the new state.
//!
//! Start: eight ports, diagonal arbiter, first slot 1, sum = 0. For each input 0 to 7, and in it for each k from 0 to 31, draw x and set at that
//! input the route
//!     VCI     0x8000 | (x & 0x7FE0) | k
//!     output  (x >> 16) & 7
//!     new VCI (x >> 32) & 0xFFFF
//! Bytes 5 to 51 of every cell are their own numbers, byte 4 is 0.
//!
//! Slot, SLOTS times:
//! 1. Open. For each input 0 to 7, draw y. The VCI is that of the input's route k = y & 31. Bytes 0 to 3 of the cell, the high byte first, are
//!    ((y >> 32) & 0xFFF0000F) | VCI << 4, and byte 52 is (y >> 8) & 0xFF. The cell arrives. If it is answered with an output and a number ahead, it
//!    counts as accepted, and sum = sum × M + 16 × output + ahead; otherwise (the input is full) it counts as refused. M = 1099511628211.
//! 2. Decide, and depart until no grant is left. After each departure (input, output) take the output's note, and read the output's slot bytes c:
//!        sum = sum × M + (slot << 32 | c0 << 24 | c1 << 16 | c2 << 8 | c3)
//!        sum = sum × M + (VCI arrived << 48 | VCI left << 32 | input << 24 | output << 16 | c4 << 8 | c52)
//!    with slot, input and the two VCIs from the note, and the output from the departure's answer.
//! 3. Close. The number of grants that it answers is added to the cells sent.
//!
//! The line: `SLOTS slots: A accepted, R refused, S sent, sum N`, all in decimal.

use std::collections::VecDeque;

const PORTS: usize = 8;
const BLOCKS: usize = 16;
const ROUTES: usize = 32;
const CELL: usize = 53;

type Cell = [u8; CELL];
type Table = [[bool; PORTS]; PORTS];

fn vci_of(cell: &[u8]) -> u16 {
    u16::from(cell[1]) << 12 | u16::from(cell[2]) << 4 | u16::from(cell[3]) >> 4
}

fn rewrite(cell: &mut [u8], vci: u16) {
    cell[1] = cell[1] & 0xF0 | (vci >> 12) as u8;
    cell[2] = (vci >> 4) as u8;
    cell[3] = (vci << 4) as u8 | cell[3] & 0x0F;
}

struct Diagonal {
    ports: usize,
    turn: usize,
}

impl Diagonal {
    /// The output granted to each input.
    fn decide(&mut self, requests: &Table) -> [Option<usize>; PORTS] {
        let mut grants = [None; PORTS];
        let mut taken = [false; PORTS];
        for k in 0..self.ports {
            for input in 0..self.ports {
                let output = (self.turn + k + self.ports - input) % self.ports;
                if requests[input][output] && !taken[output] && grants[input].is_none() {
                    grants[input] = Some(output);
                    taken[output] = true;
                }
            }
        }
        self.turn = (self.turn + 1) % self.ports;
        grants
    }
}

struct Route {
    vci: u16,
    output: usize,
    new_vci: u16,
}

struct Waiting {
    cell: Cell,
    new_vci: u16,
}

struct Note {
    slot: u32,
    input: usize,
    arrived: u16,
    left: u16,
}

#[derive(Default)]
struct Input {
    routes: Vec<Route>,
    queues: [VecDeque<Waiting>; PORTS],
    waiting: usize,
    turn_used: bool,
    grant: Option<usize>,
}

enum Arrived {
    Idle,
    Stored { output: usize, ahead: usize },
}

enum Refusal {
    PortBeyond,
    TurnUsed,
    NoRoute,
    InputFull,
    RoutesFull,
}

struct Switch {
    ports: usize,
    arbiter: Diagonal,
    slot: u32,
    grants: u8,
    inputs: [Input; PORTS],
    notes: [VecDeque<Note>; PORTS],
    slot_bytes: [u8; PORTS * CELL],
}

impl Switch {
    fn new(ports: usize, first_slot: u32) -> Switch {
        Switch {
            ports,
            arbiter: Diagonal { ports, turn: 0 },
            slot: first_slot,
            grants: 0,
            inputs: Default::default(),
            notes: Default::default(),
            slot_bytes: [0; PORTS * CELL],
        }
    }

    fn set_route(&mut self, input: usize, route: Route) -> Result<(), Refusal> {
        if input >= self.ports || route.output >= self.ports {
            return Err(Refusal::PortBeyond);
        }
        let routes = &mut self.inputs[input].routes;
        match routes.iter().position(|old| old.vci == route.vci) {
            Some(place) => routes[place] = route,
            None if routes.len() == ROUTES => return Err(Refusal::RoutesFull),
            None => routes.push(route),
        }
        Ok(())
    }

    fn open(&mut self) {
        for input in &mut self.inputs {
            input.turn_used = false;
        }
    }

    fn arrive(&mut self, input: usize, cell: &Cell) -> Result<Arrived, Refusal> {
        if input >= self.ports {
            return Err(Refusal::PortBeyond);
        }
        let input = &mut self.inputs[input];
        if input.turn_used {
            return Err(Refusal::TurnUsed);
        }
        if cell[..4] == [0, 0, 0, 1] {
            input.turn_used = true;
            return Ok(Arrived::Idle);
        }
        let vci = vci_of(cell);
        let route = input.routes.iter().find(|route| route.vci == vci).ok_or(Refusal::NoRoute)?;
        if input.waiting == BLOCKS {
            return Err(Refusal::InputFull);
        }
        let queue = &mut input.queues[route.output];
        let ahead = queue.len();
        queue.push_back(Waiting { cell: *cell, new_vci: route.new_vci });
        input.waiting += 1;
        input.turn_used = true;
        Ok(Arrived::Stored { output: route.output, ahead })
    }

    fn decide(&mut self) {
        let mut requests = [[false; PORTS]; PORTS];
        for (row, input) in requests.iter_mut().zip(&self.inputs) {
            for (requested, queue) in row.iter_mut().zip(&input.queues) {
                *requested = !queue.is_empty();
            }
        }
        let grants = self.arbiter.decide(&requests);
        self.grants = 0;
        for (input, grant) in self.inputs.iter_mut().zip(grants) {
            input.grant = grant;
            self.grants += u8::from(grant.is_some());
        }
    }

    /// Sends the grant of the lowest input not yet sent, and answers the output.
    fn depart(&mut self) -> Option<usize> {
        let (number, input) = self.inputs.iter_mut().enumerate().find(|(_, input)| input.grant.is_some())?;
        let output = input.grant.take()?;
        let Waiting { cell, new_vci } = input.queues[output].pop_front()?;
        input.waiting -= 1;
        let bytes = &mut self.slot_bytes[output * CELL..][..CELL];
        bytes.copy_from_slice(&cell);
        rewrite(bytes, new_vci);
        self.notes[output].push_back(Note { slot: self.slot, input: number, arrived: vci_of(&cell), left: new_vci });
        Some(output)
    }

    fn take_note(&mut self, output: usize) -> Option<Note> {
        self.notes[output].pop_front()
    }

    fn line(&self, output: usize) -> &[u8] {
        &self.slot_bytes[output * CELL..][..CELL]
    }

    /// The number of grants; the next slot has the next number.
    fn close(&mut self) -> u8 {
        self.slot = self.slot.wrapping_add(1);
        self.grants
    }
}

fn draw(state: &mut u64) -> u64 {
    *state ^= *state << 13;
    *state ^= *state >> 7;
    *state ^= *state << 17;
    *state
}

fn mixed(sum: u64, word: u64) -> u64 {
    sum.wrapping_mul(1_099_511_628_211).wrapping_add(word)
}

fn main() {
    let slots: u32 = std::env::args().nth(1).and_then(|w| w.parse().ok()).unwrap_or(1000);
    // The number of ports is known only when the program runs, as in the library.
    let ports = std::hint::black_box(PORTS);
    let mut switch = Switch::new(ports, 1);
    let mut state = 88_172_645_463_325_252;
    let mut vcis = [[0; ROUTES]; PORTS];
    for (input, vcis) in vcis.iter_mut().enumerate() {
        for (k, vci) in vcis.iter_mut().enumerate() {
            let x = draw(&mut state);
            *vci = 0x8000 | x as u16 & 0x7FE0 | k as u16;
            let route = Route { vci: *vci, output: (x >> 16 & 7) as usize, new_vci: (x >> 32) as u16 };
            assert!(switch.set_route(input, route).is_ok());
        }
    }
    let mut cell: Cell = std::array::from_fn(|j| j as u8);
    cell[4] = 0;
    let (mut accepted, mut refused, mut sent, mut sum) = (0u64, 0u64, 0u64, 0u64);
    for _ in 0..slots {
        switch.open();
        for (input, vcis) in vcis.iter().enumerate() {
            let y = draw(&mut state);
            let header = (y >> 32) as u32 & 0xFFF0_000F | u32::from(vcis[(y & 31) as usize]) << 4;
            cell[..4].copy_from_slice(&header.to_be_bytes());
            cell[52] = (y >> 8) as u8;
            match switch.arrive(input, &cell) {
                Ok(Arrived::Stored { output, ahead }) => {
                    accepted += 1;
                    sum = mixed(sum, (16 * output + ahead) as u64);
                }
                Ok(Arrived::Idle) => {}
                Err(_) => refused += 1,
            }
        }
        switch.decide();
        while let Some(output) = switch.depart() {
            let note = switch.take_note(output).unwrap();
            let c = switch.line(output);
            sum = mixed(sum, u64::from(note.slot) << 32 | u64::from(u32::from_be_bytes([c[0], c[1], c[2], c[3]])));
            let ports = (note.input as u64) << 24 | (output as u64) << 16;
            sum = mixed(sum, u64::from(note.arrived) << 48 | u64::from(note.left) << 32 | ports | u64::from(c[4]) << 8 | u64::from(c[52]));
        }
        sent += u64::from(switch.close());
    }
    println!("{slots} slots: {accepted} accepted, {refused} refused, {sent} sent, sum {sum}");
}
