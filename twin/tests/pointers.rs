//! A pointer drawn in mode 5 and taken away by drawing it again: document 02's two laws, read once more and tried on random
//! lists of one block.
//!
//! Both run against the twin and, with the feature `desk`, against the archive as well.

mod common;

use common::cells::{block_at, destinations, list_cells, pointed, sources};
use common::*;
use twin::card::Card;
use twin::random::Random;

/// A mode 5 block with NEXT clear, put into memory; where it lies.
fn pointer(r: &mut Random, mem: &mut [u8], around: u32) -> u32 {
    let list = make::address(r);
    let mut block = make::block(r, &[list, around, around], false);
    block[20] = block[20] & 0xF0 | 5;
    make::put(mem, list, &block);
    list
}

/// Whether memory has such a list there, and a small one: a second list may lie over the first.
fn is_pointer(mem: &[u8], list: u32) -> bool {
    let block = block_at(mem, list);
    let (rows, columns) = make::extents(&block);
    block[20] & 15 == 5 && rows * columns < 3_000
}

/// Whether the destinations of the list at `a` meet neither a source nor a byte of the one at `z`.
fn spares(mem: &[u8], a: u32, z: u32) -> bool {
    let reached = destinations(&block_at(mem, a), mem.len());
    reached.is_disjoint(&sources(&block_at(mem, z), mem.len()))
        && reached.is_disjoint(&list_cells(z, 1, mem.len()))
}

/// The list drawn to its end, on the board that is there or on any other, in runs of any length; the ticks that it took. One that
/// writes on itself may not end, so this stops after many ticks.
fn draw<C: Card>(rig: &mut Rig<C>, r: &mut Random, list: u32) -> u32 {
    if r.chance(1, 2) {
        rig.board = make::board(r);
    }
    rig.point_to(list);
    rig.write(0x53, r.byte() | 1);
    let mut ticks = 0;
    while rig.board[at::FLAGS] != 0 && ticks < 20_000 {
        let budget = r.pick(&[0, 1, 7, 300, 5_000]);
        ticks += rig.run(budget).0;
    }
    ticks
}

/// A board with a memory in which the lists are.
fn rig<C: Card>(mem: &[u8]) -> Rig<C> {
    let mut rig = Rig::<C>::new();
    rig.mem = mem.to_vec();
    rig
}

/// "a list of one mode 5 block, NEXT clear, whose destinations meet neither its sources nor its own 21 bytes, modulo L, run to the end
/// twice, gives back memory as it was"; of the others some do not, so the condition is not empty.
fn taken_away<C: Card>() {
    let (mut erased, mut seen, mut repeated, mut unread, mut stained) = (0, 0, 0, 0, 0);
    for seed in 0..6_000 {
        let r = &mut Random::new(seed);
        let length = make::length(r).min(1 << 15);
        let mut before = make::memory(r, length);
        let around = r.below(524_288);
        let list = pointer(r, &mut before, around);
        if !is_pointer(&before, list) {
            continue;
        }
        let mut rig = rig::<C>(&before);
        let first = draw(&mut rig, r, list);
        let drawn = rig.mem.clone();
        let second = draw(&mut rig, r, list);
        if spares(&before, list, list) {
            assert!(rig.mem == before, "seed {seed}: list at {list:#X}");
            let block = block_at(&before, list);
            let (rows, columns) = make::extents(&block);
            assert_eq!([first, second], [1 + rows * columns; 2]);
            let cells = destinations(&block, length);
            erased += 1;
            seen += u32::from(drawn != before);
            repeated += u32::from(cells.len() < (rows * columns) as usize);
            unread += u32::from(!cells.is_disjoint(&pointed(&block, length)));
        } else {
            stained += u32::from(rig.mem != before);
        }
    }
    println!(
        "{}: {erased} pointers taken away, {seen} were seen, {repeated} had a cell twice, {unread} lay on a source that is not read; {stained} others stay.",
        C::NAME
    );
    assert!(erased > 1_000 && seen > 500 && repeated > 200 && unread > 50 && stained > 100);
}

/// "two such lists, each one's destinations meeting no source or block byte of either, give the same memory in both orders"; of the
/// others some do not.
fn in_both_orders<C: Card>() {
    let (mut alike, mut meeting, mut differing) = (0, 0, 0);
    for seed in 0..8_000 {
        let r = &mut Random::new(seed);
        let length = make::length(r).min(1 << 15);
        let mut before = make::memory(r, length);
        let around = r.below(524_288);
        let lists = [0, 1].map(|_| pointer(r, &mut before, around));
        if lists.iter().any(|&list| !is_pointer(&before, list)) {
            continue;
        }
        let [a, z] = lists;
        let [one, two] = [[a, z], [z, a]].map(|order| {
            let mut rig = rig::<C>(&before);
            for list in order {
                draw(&mut rig, r, list);
            }
            rig.mem
        });
        if [a, z]
            .iter()
            .all(|&by| spares(&before, by, a) && spares(&before, by, z))
        {
            assert!(one == two, "seed {seed}: lists at {a:#X} and {z:#X}");
            let [first, second] = [a, z].map(|list| destinations(&block_at(&before, list), length));
            alike += 1;
            meeting += u32::from(!first.is_disjoint(&second));
        } else {
            differing += u32::from(one != two);
        }
    }
    println!(
        "{}: {alike} pairs alike in both orders, {meeting} of them meet; {differing} others differ.",
        C::NAME
    );
    assert!(alike > 1_000 && meeting > 100 && differing > 100);
}

macro_rules! laws {
    ($($card:ident: $board:ty),*) => {
        $(mod $card {
            #[test]
            fn drawn_twice_is_taken_away() {
                super::taken_away::<$board>()
            }

            #[test]
            fn two_in_both_orders() {
                super::in_both_orders::<$board>()
            }
        })*
    };
}

laws!(twin_has: twin::twin::Twin);
#[cfg(feature = "desk")]
laws!(desk_has: twin::desk::Desk);
