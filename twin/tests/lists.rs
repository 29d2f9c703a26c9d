//! What a list can touch, and when it ends: document 02's two facts about lists, read once more and tried on random lists.
//!
//! Both run against the twin and, with the feature `desk`, against the archive as well.

mod common;

use common::cells::{block_at, cell, destination, destinations, list_cells, BLOCK};
use common::*;
use std::collections::BTreeSet;
use twin::card::Card;
use twin::random::Random;

/// The block that a busy board holds.
fn held(board: &[u32]) -> [u8; BLOCK] {
    std::array::from_fn(|number| board[at::BLOCK + number] as u8)
}

/// A board and memory: a started list, or a board in the middle of other work.
fn rig<C: Card>(r: &mut Random) -> Rig<C> {
    let length = make::length(r).min(1 << 16);
    let mut rig = Rig::<C>::new();
    rig.mem = make::memory(r, length);
    if r.chance(1, 3) {
        rig.board = make::board(r);
    } else {
        let list = make::list(r, &mut rig.mem);
        rig.start_list(list);
    }
    rig
}

/// "Over any run, a byte that differs afterwards is the destination, modulo L, of some byte tick of a block as it stood when
/// loaded." The run is made in one; the ticks are followed beside it, and the block is the one that memory held at its load.
fn touches<C: Card>() {
    let (mut differing, mut loads) = (0, 0);
    for seed in 0..3_000 {
        let r = &mut Random::new(seed);
        let mut ticks = rig::<C>(r);
        let mut run = Rig::<C>::new();
        run.board = ticks.board;
        run.mem.clone_from(&ticks.mem);
        let before = ticks.mem.clone();
        let budget = r.pick(&[1, 30, 300, 1_500]);
        run.run(budget);

        let mut loaded = held(&ticks.board);
        let mut reached = BTreeSet::new();
        for _ in 0..budget {
            match ticks.board[at::FLAGS] {
                1 => {
                    loaded = block_at(&ticks.mem, ticks.board[at::LIST]);
                    loads += 1;
                }
                2 => {
                    let [row, column] = [at::ROW, at::COLUMN].map(|word| ticks.board[word]);
                    reached.insert(cell(destination(&loaded, row, column), before.len()));
                }
                _ => {}
            }
            ticks.tick();
        }
        for (place, (old, new)) in before.iter().zip(&run.mem).enumerate() {
            if old != new {
                differing += 1;
                assert!(reached.contains(&place), "seed {seed}: {place:#X} differs");
            }
        }
    }
    println!("{}: {differing} bytes differ, {loads} loads.", C::NAME);
    assert!(differing > 10_000 && loads > 3_000);
}

/// The blocks of a list: up to the first with NEXT clear, eight at most.
fn blocks(mem: &[u8], list: u32) -> Option<Vec<[u8; BLOCK]>> {
    let mut blocks = Vec::new();
    for number in 0..8 {
        let block = block_at(mem, list + 21 * number);
        blocks.push(block);
        if block[20] & 8 == 0 {
            return Some(blocks);
        }
    }
    None
}

/// Whether no destination of a list falls on one of its own bytes, written or not.
fn spares_itself(blocks: &[[u8; BLOCK]], list: u32, length: usize) -> bool {
    let own = list_cells(list, blocks.len(), length);
    blocks
        .iter()
        .all(|block| destinations(block, length).is_disjoint(&own))
}

/// "goes idle after exactly the sum over its blocks of 1 + W·ZX·H·ZY ticks, across as many runs as wanted"; whether it did.
fn ends_at<C: Card>(rig: &mut Rig<C>, r: &mut Random, sum: u64) -> bool {
    let (mut asked, mut reported) = (0, 0);
    while asked < sum + 50 {
        let budget = match r.below(4) {
            0 => r.below(3),
            1 => r.between(1, 60),
            2 if asked < sum => (sum - asked) as u32 - r.below(2),
            _ => r.between(1, 3_000),
        };
        asked += u64::from(budget);
        reported += u64::from(rig.run(budget).0);
        let idle = rig.board[at::FLAGS] == 0;
        if idle != (asked >= sum) || reported != asked.min(sum) {
            return false;
        }
    }
    true
}

/// Lists that spare themselves end at the sum; of those that do not, some end elsewhere, so the condition is not empty.
fn ends<C: Card>() {
    let (mut spared, mut long, mut astray) = (0, 0, 0);
    for seed in 0..6_000 {
        let r = &mut Random::new(seed);
        let length = make::length(r).min(1 << 16);
        let mut rig = Rig::<C>::new();
        rig.mem = make::memory(r, length);
        let list = make::list(r, &mut rig.mem);
        let Some(blocks) = blocks(&rig.mem, list) else {
            continue;
        };
        let bytes = blocks.iter().map(|block| {
            let (rows, columns) = make::extents(block);
            1 + u64::from(rows) * u64::from(columns)
        });
        let sum = bytes.sum();
        if sum > 60_000 {
            continue;
        }
        rig.start_list(list);
        let spares = spares_itself(&blocks, list, length);
        let ended = ends_at(&mut rig, r, sum);
        if spares {
            assert!(ended, "seed {seed}: {} blocks, {sum} ticks", blocks.len());
            spared += 1;
            long += u32::from(blocks.len() > 2);
        } else {
            astray += u32::from(!ended);
        }
    }
    println!(
        "{}: {spared} lists end at the sum, {long} of three blocks or more; {astray} that write on themselves do not.",
        C::NAME
    );
    assert!(spared > 1_000 && long > 300 && astray > 20);
}

macro_rules! facts {
    ($($card:ident: $board:ty),*) => {
        $(mod $card {
            #[test]
            fn what_a_list_can_touch() {
                super::touches::<$board>()
            }

            #[test]
            fn when_it_ends() {
                super::ends::<$board>()
            }
        })*
    };
}

facts!(twin_has: twin::twin::Twin);
#[cfg(feature = "desk")]
facts!(desk_has: twin::desk::Desk);
