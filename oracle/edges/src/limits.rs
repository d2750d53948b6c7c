//! Items 1 to 3: sizes without a limit.

use hybit_open::{self as open, DofBlock, DofEntityKind, DofMask, FieldAwareDofLayout};
use hybit_original as original;

use crate::{line, line_of_child};

pub fn run() {
    line(
        "1a",
        "Csr32Matrix::new(usize::MAX, 1, [], [], []), built without overflow checks",
        "1",
        || original::Csr32Matrix::new(usize::MAX, 1, vec![], vec![], vec![]).map(|_| "accepted"),
    );
    line(
        "1b",
        "Csr32Matrix::new(usize::MAX, 1, [0], [], []), built without overflow checks",
        "1",
        || original::Csr32Matrix::new(usize::MAX, 1, vec![0], vec![], vec![]).map(|_| "accepted"),
    );
    line(
        "1c",
        "Csr32Matrix::new(usize::MAX, 1, [], [], []), built with overflow checks",
        "1",
        || open::Csr32Matrix::new(usize::MAX, 1, vec![], vec![], vec![]).map(|_| "accepted"),
    );
    line(
        "2a",
        "Csr32Matrix::new(0, usize::MAX, [0], [], [])",
        "1",
        || wide().map(|_| "accepted"),
    );
    line(
        "2b",
        "AbtmDualTopology::from_csr32 of that matrix",
        "1",
        || original::AbtmDualTopology::from_csr32(&wide().unwrap()).map(|_| "accepted"),
    );
    line_of_child(
        "3a",
        "DofMask::new(usize::MAX), in a process of its own",
        "1",
        "new",
    );
    line("3b", "region_multiplicity(usize::MAX, [])", "1", || {
        original::region_multiplicity(usize::MAX, &[]).map(|_| "accepted")
    });
    line(
        "3c",
        "total of a layout of 4 blocks of u32::MAX components",
        "1",
        || layout(4).total_dofs(),
    );
    line_of_child(
        "3d",
        "field_mask on 65,536 blocks of u32::MAX components, in a process of its own",
        "1",
        "field_mask",
    );
    line_of_child(
        "3e",
        "close_to_field_blocks on that layout (hand-made mask without words), in a process of its own",
        "1",
        "closure",
    );
    line(
        "3f",
        "region_multiplicity(0, 65,537 masks of 0 nodes): region_count",
        "1",
        || {
            let masks = vec![original::DofMask::new(0); 65_537];
            original::region_multiplicity(0, &masks).map(|found| found.stats().region_count)
        },
    );
}

/// What `line_of_child` runs.
pub fn child(name: &str) {
    match name {
        "new" => println!("{} words", original::DofMask::new(usize::MAX).words().len()),
        // No block has field 1, so no page of the mask would be touched.
        "field_mask" => println!("{:?}", layout(65_536).field_mask(1).map(|_| "a mask")),
        "closure" => {
            let layout = layout(65_536);
            let selected = DofMask {
                len: layout.total_dofs() as usize,
                words: vec![],
            };
            let closed = open::close_to_field_blocks(&layout, &selected);
            println!("{:?}", closed.map(|_| "a mask"));
        }
        _ => println!("no such child"),
    }
}

fn wide() -> Result<original::Csr32Matrix, hybit_core::HybitError> {
    original::Csr32Matrix::new(0, usize::MAX, vec![0], vec![], vec![])
}

fn layout(blocks: u64) -> FieldAwareDofLayout {
    let block = |entity_id| DofBlock {
        entity_kind: DofEntityKind::Node,
        entity_id,
        field_id: 0,
        components: u32::MAX,
    };
    FieldAwareDofLayout::new((0..blocks).map(block).collect()).unwrap()
}
