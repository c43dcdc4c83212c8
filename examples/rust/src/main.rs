//! How many cells of Bernoulli traffic leave an input-queued switch of 16 ports, by the proved scheduler.

mod tiny_tera;

use tiny_tera::{Feed, Row, Switch, NONE};

const PORTS: usize = 16;
const SLOTS: u32 = 20_000;

/// The next of a sequence of random numbers (splitmix64).
fn next_random(state: &mut u64) -> u64 {
    *state = state.wrapping_add(0x9e37_79b9_7f4a_7c15);
    let mut z = *state;
    z = (z ^ (z >> 30)).wrapping_mul(0xbf58_476d_1ce4_e5b9);
    z = (z ^ (z >> 27)).wrapping_mul(0x94d0_49bb_1331_11eb);
    z ^ (z >> 31)
}

/// The cells that came and that left, where each input gets one with a probability of `percent` in each slot.
fn run(percent: u64, rounds: u32) -> (u64, u64) {
    let mut switch = Switch::new(PORTS, rounds);
    let mut waiting = [[0u32; PORTS]; PORTS];
    let mut rows = [Row::default(); PORTS];
    let (mut came, mut left, mut state) = (0, 0, 1);
    for _ in 0..SLOTS {
        for i in 0..PORTS {
            if next_random(&mut state) % 100 < percent {
                let j = next_random(&mut state) as usize % PORTS;
                waiting[i][j] += 1;
                rows[i].uni[0] |= 1 << j;
                came += 1;
            }
        }
        let feeds = switch.decide(&rows).expect("rows of this switch");
        for (j, feed) in feeds
            .iter()
            .enumerate()
            .filter(|(_, feed)| feed.input != NONE)
        {
            let i = feed.input as usize;
            waiting[i][j] -= 1;
            left += 1;
            if waiting[i][j] == 0 {
                rows[i].uni[0] &= !(1 << j);
            }
        }
    }
    (came, left)
}

/// How many outputs each of these slots matches where all queues are full, with one round. All are decided in one call.
fn full_load(slots: usize) -> Vec<usize> {
    let full = Row {
        uni: [(1 << PORTS) - 1, 0, 0, 0],
        ..Row::default()
    };
    let feeds = Switch::new(PORTS, 1)
        .decide_many(&vec![full; slots * PORTS])
        .expect("rows of this switch");
    let matched = |slot: &[Feed]| slot.iter().filter(|feed| feed.input != NONE).count();
    feeds.chunks(PORTS).map(matched).collect()
}

fn main() {
    println!("{PORTS} ports, {SLOTS} slots");
    for rounds in [1, 4] {
        for percent in [50, 90, 99] {
            let (came, left) = run(percent, rounds);
            println!(
                "rounds {rounds} load {percent} %: {:.2} % of the cells left",
                100.0 * left as f64 / came as f64
            );
        }
    }
    println!(
        "all queues full, one round: slots match {:?}",
        full_load(20)
    );
}
