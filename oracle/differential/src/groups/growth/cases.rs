//! What the cases share, and those at the edges.

use hybit_open::grow_undirected_region;

use super::{Call, Lent, Regions, rooms};
use crate::answer::Answer;
use crate::groups::layout::{Layout, built, numbered, offsets};
use crate::groups::mask::{Mask, words_needed};
use crate::groups::topology::{Pair, Topology, accepted_topology, faults, of_pairs};

/// Hop counts that fewer than 64 bits would not hold.
pub const FAR: [u64; 5] = [1 << 31, 1 << 32, (1 << 32) + 1, 1 << 63, u64::MAX];

/// Sides at the borders of words.
pub const BORDERS: [usize; 6] = [63, 64, 65, 127, 128, 129];

/// With lists of just the needed lengths.
pub fn grow(topology: &Topology, seeds: &Mask, hops: u64) -> Call {
    grow_in(topology, seeds, hops, exact(seeds.len))
}

pub fn grow_in(topology: &Topology, seeds: &Mask, hops: u64, lent: Lent) -> Call {
    Call::Grow {
        topology: topology.clone(),
        seeds: seeds.clone(),
        hops,
        lent,
    }
}

pub fn grow_field(topology: &Topology, layout: &Layout, seeds: &Mask, hops: u64) -> Call {
    grow_field_in(topology, layout, seeds, hops, exact(seeds.len))
}

pub fn grow_field_in(
    topology: &Topology,
    layout: &Layout,
    seeds: &Mask,
    hops: u64,
    lent: Lent,
) -> Call {
    Call::GrowField {
        topology: topology.clone(),
        layout: layout.clone(),
        seeds: seeds.clone(),
        hops,
        lent,
    }
}

/// Of a mask over the limit only some words, since the call is refused before
/// it writes.
fn exact(len: usize) -> Lent {
    rooms::lent([words_needed(len.min(1 << 20)); 3])
}

pub fn close(layout: &Layout, selected: &Mask) -> Call {
    Call::Close {
        layout: layout.clone(),
        selected: selected.clone(),
        out: vec![0x7777_7777_7777_7777; words_needed(selected.len.min(1 << 20))],
    }
}

pub fn owners(layout: &Layout, dof_owners: &[u32], ranks: u32, room: usize) -> Call {
    Call::Owners {
        layout: layout.clone(),
        dof_owners: dof_owners.to_vec(),
        ranks,
        out: vec![77; room],
    }
}

pub fn multiplicity(regions: &Regions, room: usize) -> Call {
    Call::Multiplicity {
        regions: regions.clone(),
        counts: vec![77; room],
    }
}

/// Blocks of these sizes, one after the other.
pub fn blocks_of(components: &[u32]) -> Layout {
    built(&numbered(components))
}

pub fn mask_of(len: usize, members: &[usize]) -> Mask {
    let mut words = vec![0; words_needed(len)];
    for member in members {
        words[member / 64] |= 1 << (member % 64);
    }
    Mask { len, words }
}

pub fn regions_of(node_count: usize, all: &[&[usize]]) -> Regions {
    let masks = all.iter().map(|members| mask_of(node_count, members).words);
    Regions {
        node_count,
        region_count: all.len(),
        words: masks.collect::<Vec<_>>().concat(),
    }
}

/// Every way to cut so many nodes into consecutive blocks.
pub fn cuts(nodes: usize) -> Vec<Vec<u32>> {
    if nodes == 0 {
        return vec![];
    }
    (0..1_u32 << (nodes - 1))
        .map(|cuts| {
            let mut sizes = vec![1];
            for node in 1..nodes {
                if cuts >> (node - 1) & 1 == 1 {
                    sizes.push(1);
                } else {
                    *sizes.last_mut().expect("a block") += 1;
                }
            }
            sizes
        })
        .collect()
}

/// One pair for each bit of a number.
pub fn pairs_of(side: usize, chosen: usize) -> Vec<Pair> {
    (0..side * side)
        .filter(|bit| chosen >> bit & 1 == 1)
        .map(|bit| (bit / side, bit % side))
        .collect()
}

/// Entries (0,1), (1,2) and so on; with `turn` every other one turned round.
pub fn chain(side: usize, turn: bool) -> Vec<Pair> {
    (1..side)
        .map(|end| match turn && end % 2 == 0 {
            true => (end, end - 1),
            false => (end - 1, end),
        })
        .collect()
}

/// How many hops the Rust makes if it may make any number; the last finds
/// nothing. It chooses hop counts only and decides no expectation.
pub fn most_hops(topology: &Topology, seeds: &Mask) -> u64 {
    let open = accepted_topology(topology).expect("a right topology");
    let grown = grow_undirected_region(&open, &seeds.open(), usize::MAX).expect("right seeds");
    grown.stats().hops_completed as u64
}

pub fn told_apart(call: &Call, answer: Answer) -> u64 {
    match (call, answer.number) {
        (Call::Grow { .. } | Call::GrowField { .. }, 0) => {
            let [requested, completed] = [answer.values[0], answer.values[1]];
            2 * completed.min(3) + u64::from(completed < requested)
        }
        (Call::Grow { topology, .. } | Call::GrowField { topology, .. }, 1 | 9) => {
            faulty_part(topology)
        }
        (Call::Grow { seeds, .. } | Call::GrowField { seeds, .. }, 11)
        | (
            Call::Close {
                selected: seeds, ..
            },
            11,
        ) => 10 * u64::from(answer.actual == seeds.len as u64) + wrong_list(call),
        (Call::Owners { .. }, 11) => wrong_list(call),
        (Call::Grow { lent, .. } | Call::GrowField { lent, .. }, 25) => {
            let shortest = lent.lengths().into_iter().min();
            let short = lent
                .lengths()
                .iter()
                .position(|&length| Some(length) == shortest);
            short.unwrap_or(3) as u64
        }
        (Call::GrowField { topology, .. }, 18) => {
            u64::from(topology.rows.nrows == topology.rows.ncols)
        }
        (Call::Multiplicity { .. }, 0) => {
            let [regions, nodes, _, _, overlap] = [0, 1, 2, 3, 4].map(|at| answer.values[at]);
            4 * regions.min(2) + 2 * u64::from(nodes > 64) + overlap.min(1)
        }
        (Call::Weight { regions, .. }, 0) => {
            2 * answer.values[0].min(1) + u64::from(regions.node_count > 64)
        }
        (Call::Weight { regions, node, .. }, 13) => u64::from(*node < regions.node_count as u64),
        (Call::Close { selected, .. }, 0) => selected.words.len() as u64,
        _ => answer.none_zero_or_more(),
    }
}

/// Of a refused topology: the rows, the columns or how they go together.
pub fn faulty_part(topology: &Topology) -> u64 {
    match faults::of_topology(topology) {
        100.. => 0,
        ..10 => 1,
        10..12 => 2,
        _ => 3,
    }
}

/// Which list of a layout has the wrong length; none if it is another list.
fn wrong_list(call: &Call) -> u64 {
    match call {
        Call::Close { layout, .. }
        | Call::GrowField { layout, .. }
        | Call::Owners { layout, .. } => layout.blocks.right_lists(),
        _ => 0,
    }
}

/// Calls small enough to be recorded.
pub fn edges(offer: &mut dyn FnMut(Call)) {
    edge_growths(offer);
    edge_faults(offer);
    edge_closures(offer);
    edge_regions(offer);
}

fn edge_growths(offer: &mut dyn FnMut(Call)) {
    for (side, pairs) in [
        (5, chain(5, false)),
        (6, chain(6, true)),
        (7, (1..7).map(|end| (end, 0)).collect()),
        (12, (1..12).map(|end| (0, end)).collect()),
        (4, vec![(0, 0), (2, 1), (1, 2), (1, 1)]),
        (0, vec![]),
    ] {
        let topology = of_pairs(side, side, &pairs);
        let last = side.saturating_sub(1);
        let seeds: &[&[usize]] = match side {
            0 => &[&[]],
            _ => &[&[0], &[last], &[], &[1, last]],
        };
        for members in seeds {
            let seeds = mask_of(side, members);
            for hops in [1, 2, 0, 3, u64::MAX] {
                offer(grow(&topology, &seeds, hops));
                for sizes in [vec![1; side], vec![2, side as u32 - 2.min(side as u32)]] {
                    if side > 2 {
                        offer(grow_field(&topology, &blocks_of(&sizes), &seeds, hops));
                    }
                }
            }
            for lengths in rooms::near(words_needed(side)) {
                offer(grow_in(&topology, &seeds, 2, rooms::lent(lengths)));
                let layout = blocks_of(&[side as u32]);
                let lent = rooms::lent(lengths);
                offer(grow_field_in(&topology, &layout, &seeds, 1, lent));
            }
        }
    }
}

fn edge_faults(offer: &mut dyn FnMut(Call)) {
    let right = of_pairs(3, 3, &[(0, 1), (1, 2)]);
    let layout = blocks_of(&[2, 1]);
    let seeds = mask_of(3, &[1]);
    let mut topologies = faults::disagreeing(&right);
    for side in faults::broken(&right.rows) {
        let mut wrong = right.clone();
        wrong.rows = side.clone();
        topologies.push(wrong.clone());
        wrong.columns = side;
        wrong.rows = right.rows.clone();
        topologies.push(wrong);
    }
    topologies.push(of_pairs(2, 3, &[(0, 1)]));
    topologies.push(of_pairs(3, 2, &[(0, 1)]));
    topologies.push(of_pairs(4, 4, &[(0, 1)]));
    for topology in topologies {
        offer(grow(&topology, &seeds, 1));
        offer(grow_field(&topology, &layout, &seeds, 1));
    }
    for seeds in wrong_masks(3) {
        offer(grow(&right, &seeds, 1));
        offer(grow_field(&right, &layout, &seeds, 1));
        offer(close(&layout, &seeds));
    }
    for wrong in wrong_layouts(&layout) {
        offer(grow_field(&right, &wrong, &seeds, 1));
        offer(close(&wrong, &seeds));
        offer(owners(&wrong, &[0, 0, 1], 2, 2));
    }
}

/// Wrong in length, in word count, or by a bit past the length.
pub fn wrong_masks(len: usize) -> Vec<Mask> {
    let words = words_needed(len);
    let mut all = vec![];
    for other in [
        len + 1,
        len.wrapping_sub(1),
        0,
        len + 64,
        1 << 20,
        usize::MAX,
    ] {
        for room in [words, words_needed(other.min(len + 64))] {
            all.push(Mask {
                len: other,
                words: vec![0; room],
            });
        }
    }
    for room in [words.saturating_sub(1), words + 1, 0, words + 5] {
        for content in [0, u64::MAX] {
            all.push(Mask {
                len,
                words: vec![content; room],
            });
        }
    }
    for bit in len..64 * words {
        let mut stray = mask_of(64 * words, &[bit]);
        stray.len = len;
        all.push(stray);
    }
    // Without nodes some of these are the right mask.
    all.retain(|mask| mask.len != len || mask.words.len() != words || words > 0);
    all
}

/// The first and the last block in every faulty way, lists of other lengths,
/// and offsets that are not the totals; some of the changes make another right
/// layout instead.
pub fn wrong_layouts(right: &Layout) -> Vec<Layout> {
    let mut all = vec![];
    let mut add = |change: &dyn Fn(&mut Layout)| {
        let mut wrong = right.clone();
        change(&mut wrong);
        all.push(wrong);
    };
    add(&|layout| layout.blocks.kinds.clear());
    for length in [0, 1, 3] {
        add(&|layout| layout.blocks.kinds.resize(length, 1));
        add(&|layout| layout.blocks.ids.resize(length, 9));
        add(&|layout| layout.blocks.fields.resize(length, 9));
        add(&|layout| layout.blocks.components.resize(length, 1));
    }
    for place in [0, right.blocks.kinds.len() - 1] {
        for kind in [0, 7, 254] {
            add(&|layout| layout.blocks.kinds[place] = kind);
        }
        add(&|layout| layout.blocks.components[place] = 0);
        add(&|layout| layout.blocks.components[place] = (1 << 20) + 1);
        add(&|layout| layout.blocks.components[place] = u32::MAX);
    }
    add(&|layout| {
        let last = layout.blocks.ids.len() - 1;
        layout.blocks.ids[last] = layout.blocks.ids[0];
        layout.blocks.fields[last] = layout.blocks.fields[0];
    });
    for offsets in offsets::damaged(&right.offsets) {
        add(&|layout| layout.offsets.clone_from(&offsets));
    }
    all
}

fn edge_closures(offer: &mut dyn FnMut(Call)) {
    for sizes in [
        &[3, 1, 2][..],
        &[64, 1],
        &[63, 2, 5],
        &[60, 70, 60],
        &[1, 190, 1],
        &[65],
    ] {
        let layout = blocks_of(sizes);
        let total = layout.offsets[layout.offsets.len() - 1] as usize;
        for members in [vec![total - 1], vec![0], vec![], vec![total / 2, 1]] {
            let selected = mask_of(total, &members);
            offer(close(&layout, &selected));
            for room in rooms::around(words_needed(total)) {
                offer(Call::Close {
                    layout: layout.clone(),
                    selected: selected.clone(),
                    out: vec![77; room],
                });
            }
        }
    }
    let layout = blocks_of(&[2, 3, 1]);
    for (dof_owners, ranks) in [
        ([4, 4, 2, 2, 2, 0], 5),
        ([4, 4, 2, 2, 2, 0], 4),
        ([1, 1, 2, 2, 3, 0], 9),
        ([0, 1, 9, 9, 9, 0], 2),
        ([0, 0, 9, 8, 9, 0], 2),
        ([0, 0, 0, 0, 0, 0], 0),
        ([u32::MAX; 6], u32::MAX),
        ([u32::MAX - 1; 6], u32::MAX),
    ] {
        for room in [3, 2, 0, 4, 8] {
            offer(owners(&layout, &dof_owners, ranks, room));
        }
        offer(owners(&layout, &dof_owners[1..], ranks, 3));
    }
}

fn edge_regions(offer: &mut dyn FnMut(Call)) {
    for regions in [
        regions_of(3, &[&[0, 1], &[1, 2], &[1]]),
        regions_of(65, &[&[0, 64], &[64], &[63, 64], &[]]),
        regions_of(70, &[&[0, 63, 64, 69], &[69, 1]]),
        regions_of(65, &[&[64]]),
        regions_of(66, &[]),
        regions_of(5, &[]),
        regions_of(0, &[&[], &[]]),
        regions_of(64, &[&[0, 63], &[63]]),
        regions_of(12, &[&[11][..]; 7]),
    ] {
        let nodes = regions.node_count;
        for room in [nodes, nodes.saturating_sub(1), 0, nodes + 1, nodes + 5] {
            offer(multiplicity(&regions, room));
        }
        for (region, node) in [
            (0, 0),
            (1, 1),
            (0, nodes as u64 - nodes.min(1) as u64),
            (2, 1),
            (regions.region_count as u64, 0),
            (0, nodes as u64),
            (u64::MAX, u64::MAX),
            (1 << 32, 0),
            (0, 1 << 32),
        ] {
            offer(Call::Weight {
                regions: regions.clone(),
                region,
                node,
            });
        }
        for wrong in wrong_regions(&regions) {
            offer(multiplicity(&wrong, nodes));
            offer(Call::Weight {
                regions: wrong,
                region: 0,
                node: 0,
            });
        }
    }
}

/// A word too few or too many, other counts, counts past the limits, and a bit
/// past the nodes in each of the regions.
pub fn wrong_regions(right: &Regions) -> Vec<Regions> {
    let mut all = vec![];
    let mut add = |change: &dyn Fn(&mut Regions)| {
        let mut wrong = right.clone();
        change(&mut wrong);
        all.push(wrong);
    };
    add(&|regions| regions.words.push(0));
    add(&|regions| regions.words.push(u64::MAX));
    add(&|regions| {
        regions.words.pop();
    });
    add(&|regions| regions.region_count += 1);
    add(&|regions| regions.region_count = 65_536);
    add(&|regions| regions.node_count += 64);
    add(&|regions| regions.node_count = 1 << 20);
    for far in [(1 << 20) + 1, 1 << 32, usize::MAX] {
        add(&|regions| regions.node_count = far);
        add(&|regions| regions.region_count = far);
    }
    add(&|regions| regions.region_count = 65_537);
    let own = words_needed(right.node_count);
    for region in 0..right.region_count.min(8) {
        for bit in right.node_count..64 * own {
            add(&|regions| regions.words[region * own + own - 1] |= 1 << (bit % 64));
        }
    }
    all
}
