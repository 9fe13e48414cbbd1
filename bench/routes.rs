//! A plain program that finds routes as `bench_routes` does, for comparison.

#[derive(Clone, Copy)]
struct Route {
    vci: u16,
    output: u8,
    new_vci: u16,
}

struct Routes {
    routes: [Route; 256],
    counts: [u8; 8],
}

impl Routes {
    fn find(&self, input: u8, vci: u16) -> Option<Route> {
        let start = input as usize * 32;
        let count = self.counts[input as usize] as usize;
        for route in &self.routes[start..start + count] {
            if route.vci == vci {
                return Some(*route);
            }
        }
        None
    }
}

fn vci_of(input: u8, k: u8) -> u16 {
    k as u16 * 977 + input as u16
}

fn filled() -> Routes {
    let mut tables = Routes { routes: [Route { vci: 0, output: 0, new_vci: 0 }; 256], counts: [32; 8] };
    for input in 0..8u8 {
        for k in 0..32u8 {
            let place = input as usize * 32 + k as usize;
            tables.routes[place] = Route { vci: vci_of(input, k), output: k % 8, new_vci: k as u16 };
        }
    }
    tables
}

fn main() {
    let times: u32 = std::env::args().nth(1).unwrap().parse().unwrap();
    let tables = filled();
    let mut state = 1u32;
    let mut sum = 0u32;
    for _ in 0..times {
        state = state.wrapping_mul(1_664_525).wrapping_add(1_013_904_223);
        let input = (state >> 29) as u8;
        let k = ((state >> 16) % 40) as u8;
        if let Some(route) = tables.find(input, vci_of(input, k)) {
            sum = sum.wrapping_add(route.output as u32 + route.new_vci as u32);
        }
    }
    println!("{sum}");
}
