// Times the proved search against a plain one, on three sites: a tree with a few loops, a grid, a dense core.
// Build and run: bench/run
use std::time::Instant;

extern "C" {
    fn paths_bench_search(map: *const u8, map_len: usize, items: *const u8, items_len: usize, times: u32) -> u64;
}

const STAR: u8 = 255;
const BUDGET: u32 = 65_536;

struct Plan {
    name: &'static str,
    nodes: u8,
    links: Vec<(u8, u8)>,
    items: Vec<u8>,
}

// The plain search: the same method, written without contracts.
struct Plain<'a> {
    items: &'a [u8],
    roads: Vec<Vec<(u8, u8)>>,
    marked: [bool; 48],
    count: u32,
    found: u128,
}

impl Plain<'_> {
    fn after(&self, live: u16, node: u8) -> u16 {
        let mut out = 0u16;
        for (k, item) in self.items.iter().enumerate() {
            let on = if *item == STAR {
                live >> (k + 1) & 1 == 1 || out >> k & 1 == 1
            } else {
                *item == node && live >> k & 1 == 1
            };
            if on {
                out |= 1 << (k + 1);
            }
        }
        out
    }

    fn at_node(&mut self, node: u8, live: u16, used: u128) -> Result<(), ()> {
        let live = self.after(live, node);
        if live == 0 {
            return Ok(());
        }
        if self.count >= BUDGET {
            return Err(());
        }
        self.count += 1;
        if live >> self.items.len() & 1 == 1 {
            self.found |= used;
        }
        self.marked[node as usize] = true;
        let answer = self.along_links(node, live, used);
        self.marked[node as usize] = false;
        answer
    }

    fn along_links(&mut self, node: u8, live: u16, used: u128) -> Result<(), ()> {
        for i in 0..self.roads[node as usize].len() {
            let (link, next) = self.roads[node as usize][i];
            if !self.marked[next as usize] {
                self.at_node(next, live, used | 3 << (2 * link))?;
            }
        }
        Ok(())
    }
}

fn plain(plan: &Plan) -> (u64, u32) {
    let mut roads = vec![Vec::new(); 48];
    for (i, (a, b)) in plan.links.iter().enumerate() {
        roads[*a as usize].push((i as u8, *b));
        roads[*b as usize].push((i as u8, *a));
    }
    let mut search = Plain { items: &plan.items, roads, marked: [false; 48], count: 0, found: 0 };
    let mut live = 1u16;
    for (k, item) in plan.items.iter().enumerate() {
        if *item == STAR && live >> k & 1 == 1 {
            live |= 1 << (k + 1);
        }
    }
    for node in 0..plan.nodes {
        if search.at_node(node, live, 0).is_err() {
            return (1000, search.count);
        }
    }
    let ports = search.found.count_ones() as u64;
    (if ports == 0 { 1001 } else { ports }, search.count)
}

fn map(plan: &Plan) -> Vec<u8> {
    let mut bytes = Vec::new();
    for n in 0..plan.nodes {
        bytes.extend([1, 0, 2, b'a' + n / 26, b'a' + n % 26]);
    }
    for (a, b) in &plan.links {
        bytes.extend([2, 0, 2, *a, *b]);
    }
    bytes.extend([3, 0, 1, b'c', 4, 0, 2, 1, b'u']);
    bytes
}

fn proved(plan: &Plan, times: u32) -> u64 {
    let map = map(plan);
    unsafe { paths_bench_search(map.as_ptr(), map.len(), plan.items.as_ptr(), plan.items.len(), times) }
}

fn tree() -> Plan {
    let mut links: Vec<(u8, u8)> = (1..48).map(|n| ((n - 1) / 2, n)).collect();
    links.extend((0..6).map(|i| (i + 7, i + 40)));
    Plan { name: "tree with loops", nodes: 48, links, items: vec![STAR] }
}

fn grid() -> Plan {
    let mut links = Vec::new();
    for y in 0..5u8 {
        for x in 0..5u8 {
            if x < 4 {
                links.push((5 * y + x, 5 * y + x + 1));
            }
            if y < 4 {
                links.push((5 * y + x, 5 * y + x + 5));
            }
        }
    }
    Plan { name: "grid", nodes: 25, links, items: vec![0, 1, 2, STAR, 24] }
}

fn core() -> Plan {
    let mut links = Vec::new();
    for m in 0..8u8 {
        for n in 0..m {
            links.push((m, n));
        }
    }
    links.extend((8..28).map(|n| (n % 8, n)));
    Plan { name: "dense core", nodes: 28, links, items: vec![0, STAR, 7] }
}

fn main() {
    for plan in [tree(), grid(), core()] {
        let (answer, count) = plain(&plan);
        let times = (20_000_000 / (count.max(1) + 2_000)).clamp(20, 5_000);
        assert_eq!(proved(&plan, 1), answer, "{}", plan.name);
        let mut best = (f64::MAX, f64::MAX);
        for _ in 0..5 {
            let start = Instant::now();
            for _ in 0..times { std::hint::black_box(plain(std::hint::black_box(&plan))); }
            best.0 = best.0.min(start.elapsed().as_secs_f64());
            let start = Instant::now();
            std::hint::black_box(proved(&plan, times));
            best.1 = best.1.min(start.elapsed().as_secs_f64());
        }
        let rate = |t: f64| count as f64 * times as f64 / t / 1e6;
        println!("{}: {} partial paths, plain {:.1} M/s, proved {:.1} M/s, {:.2} times as long", plan.name, count, rate(best.0), rate(best.1), best.1 / best.0);
    }
}
