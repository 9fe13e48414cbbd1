// The plain way to write the arbiters: nested loops over arrays of bool. It takes the arguments of crates/bench_arbiters and writes the
// same sum.
use std::env;

type Table = [[bool; 8]; 8];

trait Arbiter {
    fn decide(&mut self, requests: &Table) -> Table;
}

struct Diagonal {
    ports: usize,
    turn: usize,
}

// Fills up by diagonals, from the diagonal `first` on.
fn fill(ports: usize, first: usize, requests: &Table, grants: &mut Table, inputs: &mut [bool; 8], outputs: &mut [bool; 8]) {
    for k in 0..ports {
        for input in 0..ports {
            let output = (first + k + ports - input) % ports;
            if requests[input][output] && !inputs[input] && !outputs[output] {
                grants[input][output] = true;
                inputs[input] = true;
                outputs[output] = true;
            }
        }
    }
}

impl Arbiter for Diagonal {
    fn decide(&mut self, requests: &Table) -> Table {
        let mut grants = [[false; 8]; 8];
        fill(self.ports, self.turn, requests, &mut grants, &mut [false; 8], &mut [false; 8]);
        self.turn = (self.turn + 1) % self.ports;
        grants
    }
}

struct Ripple {
    ports: usize,
    turn: usize,
}

impl Arbiter for Ripple {
    fn decide(&mut self, requests: &Table) -> Table {
        let n = self.ports;
        let mut grants = [[false; 8]; 8];
        let mut outputs = [false; 8];
        for u in 0..n {
            let input = (self.turn / n + u) % n;
            for v in 0..n {
                let output = (self.turn % n + v) % n;
                if requests[input][output] && !outputs[output] {
                    grants[input][output] = true;
                    outputs[output] = true;
                    break;
                }
            }
        }
        self.turn = (self.turn + 1) % (n * n);
        grants
    }
}

struct Reservation {
    below: Diagonal,
    period: usize,
    left: usize,
    reserved: [Option<usize>; 8],
}

impl Arbiter for Reservation {
    fn decide(&mut self, requests: &Table) -> Table {
        if self.left > 0 {
            self.left -= 1;
            return self.below.decide(requests);
        }
        self.left = self.period - 1;
        let mut grants = [[false; 8]; 8];
        let (mut inputs, mut outputs) = ([false; 8], [false; 8]);
        for input in 0..self.below.ports {
            if let Some(output) = self.reserved[input] {
                if requests[input][output] {
                    grants[input][output] = true;
                    inputs[input] = true;
                    outputs[output] = true;
                }
            }
        }
        fill(self.below.ports, 0, requests, &mut grants, &mut inputs, &mut outputs);
        grants
    }
}

fn next(state: u64) -> u64 {
    let x = state ^ (state << 13);
    let y = x ^ (x >> 7);
    y ^ (y << 17)
}

fn sum_of_grants<A: Arbiter>(mut arbiter: A, tables: &[Table], times: u32) -> u32 {
    let mut sum = 0u32;
    for k in 0..times {
        let grants = arbiter.decide(&tables[(k % 256) as usize]);
        let mut byte = 0u32;
        for (output, granted) in grants[(k % 8) as usize].iter().enumerate() {
            byte |= (*granted as u32) << output;
        }
        sum = sum.wrapping_mul(31).wrapping_add(byte);
    }
    sum
}

fn main() {
    let args: Vec<String> = env::args().collect();
    let words: u8 = args[2].parse().unwrap();
    let times: u32 = args[3].parse().unwrap();
    let dense = args[4] == "dense";
    // The number of ports is known only when the program runs, as in the library.
    let ports = if args.len() > 9 { 4 } else { 8 };
    let mut state = 88_172_645_463_325_252u64;
    let mut tables = Vec::new();
    for _ in 0..256 {
        state = next(state);
        let mut word = state;
        for _ in 1..words {
            state = next(state);
            word = if dense { word | state } else { word & state };
        }
        let mut table = [[false; 8]; 8];
        for (input, row) in table.iter_mut().enumerate() {
            for (output, requested) in row.iter_mut().enumerate() {
                *requested = (word >> (8 * input + output)) & 1 == 1;
            }
        }
        tables.push(table);
    }
    let diagonal = Diagonal { ports, turn: 0 };
    let sum = match args[1].as_str() {
        "reservation" => {
            let mut reserved = [None; 8];
            for (port, pair) in reserved.iter_mut().enumerate() {
                *pair = Some(port);
            }
            sum_of_grants(Reservation { below: diagonal, period: 4, left: 3, reserved }, &tables, times)
        }
        "ripple" => sum_of_grants(Ripple { ports, turn: 0 }, &tables, times),
        _ => sum_of_grants(diagonal, &tables, times),
    };
    println!("{sum}");
}
