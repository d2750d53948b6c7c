//! What a data station does with the cutter: one matrix of a crowded trace, a region for every peak, and the values of
//! the next injection gathered into the same regions.
//!
//! ```text
//! cargo run --release --example station
//! ```

use hybit_matrix::{
    Csr32Matrix, DofBlock, DofEntityKind, DofMask, FieldAwareDofLayout,
    PreparedFieldAwareLocalRegion, PreparedFieldAwareTopology, Refusal, region_multiplicity,
};

const PEAKS: usize = 400;

/// Height, place and width.
const UNKNOWNS: usize = 3;

/// Place and width (sigma) in thousandths of a minute.
struct Peak {
    place: u32,
    width: u32,
}

fn main() -> Result<(), Refusal> {
    print!("{}", report()?);
    Ok(())
}

/// The whole output.
pub fn report() -> Result<String, Refusal> {
    let mut random = Random(7);
    let peaks = trace(&mut random);
    let injections = [(); 2].map(|()| values(&peaks, &heights(&mut random)));
    let matrix = matrix(&peaks, injections[0].clone())?;
    let topology = PreparedFieldAwareTopology::new(&matrix, &layout(&peaks)?)?;
    let regions = (0..peaks.len())
        .map(|peak| {
            let height = DofMask::from_indices(matrix.nrows(), &[UNKNOWNS * peak])?;
            topology.prepare_region(&height, 1)
        })
        .collect::<Result<Vec<_>, _>>()?;
    for (peak, region) in regions.iter().enumerate() {
        check(&peaks, peak, region);
    }
    let first = gathered(&regions, &injections[0])?;
    let second = gathered(&regions, &injections[1])?;
    Ok(head(&peaks, &matrix, &topology)
        + &table(&peaks, &regions, &first, &second)
        + &totals(&regions, &first, &second)?)
}

/// Peaks in rising order, some far from the last and some close to it.
fn trace(random: &mut Random) -> Vec<Peak> {
    let mut place = 800;
    let peak = |_| {
        place += 35 + random.below(200);
        let width = 18 + random.below(12);
        Peak { place, width }
    };
    (0..PEAKS).map(peak).collect()
}

/// Of one injection, in detector units.
fn heights(random: &mut Random) -> Vec<f64> {
    let height = |_| f64::from(50 + random.below(950));
    (0..PEAKS).map(height).collect()
}

/// Two peaks overlap where they are closer than two and a half of their widths together: how much of that distance is
/// left between them, 1 for a peak and itself, or nothing.
fn nearness(one: &Peak, other: &Peak) -> Option<f64> {
    let reach = 2.5 * f64::from(one.width + other.width);
    let distance = f64::from(one.place.abs_diff(other.place));
    (distance < reach).then_some(1.0 - distance / reach)
}

/// What every unknown of a peak is stored with: the unknowns of its own and of later peaks that overlap it. So each
/// overlap stands once.
fn partners(peaks: &[Peak], peak: usize) -> impl Iterator<Item = (usize, usize, f64)> {
    let later = peaks.iter().enumerate().skip(peak);
    let near =
        later.filter_map(move |(other, found)| Some((other, nearness(&peaks[peak], found)?)));
    near.flat_map(|(other, near)| (0..UNKNOWNS).map(move |unknown| (other, unknown, near)))
}

/// The entries' values in the order of the matrix, which is the same for every injection.
fn values(peaks: &[Peak], heights: &[f64]) -> Vec<f64> {
    let mut values = vec![];
    for peak in 0..peaks.len() {
        for row in 0..UNKNOWNS {
            for (other, column, near) in partners(peaks, peak) {
                let share = near / (1 + row + column) as f64;
                values.push(share * heights[peak] * heights[other]);
            }
        }
    }
    values
}

fn matrix(peaks: &[Peak], values: Vec<f64>) -> Result<Csr32Matrix, Refusal> {
    let (mut row_ptr, mut col_idx) = (vec![0], vec![]);
    for peak in 0..peaks.len() {
        for _ in 0..UNKNOWNS {
            let columns =
                partners(peaks, peak).map(|(other, unknown, _)| UNKNOWNS * other + unknown);
            col_idx.extend(columns.map(|column| column as u32));
            row_ptr.push(col_idx.len() as u32);
        }
    }
    let side = UNKNOWNS * peaks.len();
    Csr32Matrix::new(side, side, row_ptr, col_idx, values)
}

/// One block for each peak.
fn layout(peaks: &[Peak]) -> Result<FieldAwareDofLayout, Refusal> {
    let block = |peak| DofBlock {
        entity_kind: DofEntityKind::Node,
        entity_id: peak as u64,
        field_id: 0,
        components: UNKNOWNS as u32,
    };
    FieldAwareDofLayout::new((0..peaks.len()).map(block).collect())
}

/// The region of a peak is that peak and those that overlap it, before or after it, each whole.
fn check(peaks: &[Peak], peak: usize, region: &PreparedFieldAwareLocalRegion) {
    let near = |&other: &usize| nearness(&peaks[peak], &peaks[other]).is_some();
    let unknowns = (0..peaks.len())
        .filter(near)
        .flat_map(|other| UNKNOWNS * other..UNKNOWNS * (other + 1));
    assert!(region.region().indices().into_iter().eq(unknowns));
    assert!(region.region().contains(UNKNOWNS * peak + 2), "its width");
    assert!(region.numeric_plan_stats().direct_source_map);
}

/// The local values of every region; nothing is searched here.
fn gathered(
    regions: &[PreparedFieldAwareLocalRegion],
    values: &[f64],
) -> Result<Vec<Vec<f64>>, Refusal> {
    let all = regions.iter();
    all.map(|region| region.gather_values(values)).collect()
}

fn head(peaks: &[Peak], matrix: &Csr32Matrix, topology: &PreparedFieldAwareTopology) -> String {
    format!(
        "{} peaks from {} to {} min, {} unknowns (height, place and width of each)\n\
         {} entries, each overlap stored once; topology built once, {} bytes\n\n",
        peaks.len(),
        minutes(&peaks[0]),
        minutes(&peaks[peaks.len() - 1]),
        matrix.nrows(),
        matrix.nnz(),
        topology.topology_stats().total_metadata_bytes(),
    )
}

fn minutes(peak: &Peak) -> String {
    format!("{}.{:03}", peak.place / 1_000, peak.place % 1_000)
}

/// A few peaks: what is fitted together with each, and the mean local value in both injections.
fn table(
    peaks: &[Peak],
    regions: &[PreparedFieldAwareLocalRegion],
    first: &[Vec<f64>],
    second: &[Vec<f64>],
) -> String {
    let mut table = format!(
        "{:>5} {:>8}  {:20} {:>8} {:>6} {:>13} {:>13}\n",
        "peak", "min", "fitted with peaks", "unknowns", "pairs", "mean, inj. 1", "mean, inj. 2"
    );
    for peak in (0..peaks.len()).step_by(29) {
        let region = &regions[peak];
        table += &format!(
            "{:>5} {:>8}  {:20} {:>8} {:>6} {:>13.1} {:>13.1}\n",
            peak + 1,
            minutes(&peaks[peak]),
            fitted_with(region, peak),
            region.pattern().nrows(),
            region.pattern().nnz(),
            mean(&first[peak]),
            mean(&second[peak]),
        );
    }
    table
}

fn mean(values: &[f64]) -> f64 {
    values.iter().sum::<f64>() / values.len() as f64
}

/// The other peaks of a region, numbered from 1.
fn fitted_with(region: &PreparedFieldAwareLocalRegion, peak: usize) -> String {
    let mut others = region.region().indices();
    others.iter_mut().for_each(|unknown| *unknown /= UNKNOWNS);
    others.dedup();
    others.retain(|&other| other != peak);
    let names: Vec<String> = others.iter().map(|other| (other + 1).to_string()).collect();
    match names.is_empty() {
        true => "none".to_string(),
        false => names.join(", "),
    }
}

fn totals(
    regions: &[PreparedFieldAwareLocalRegion],
    first: &[Vec<f64>],
    second: &[Vec<f64>],
) -> Result<String, Refusal> {
    let sizes = regions
        .iter()
        .map(|region| region.growth_stats().region_blocks);
    let pairs: usize = regions.iter().map(|region| region.pattern().nnz()).sum();
    let masks: Vec<DofMask> = regions
        .iter()
        .map(|region| region.region().clone())
        .collect();
    let shared = region_multiplicity(masks[0].len(), &masks)?.stats();
    assert_eq!(
        shared.covered_nodes,
        masks[0].len(),
        "every unknown is fitted"
    );
    Ok(format!(
        "\n{} regions, the largest of {} peaks; {} unknowns are in several, at most in {}\n\
         {} values gathered for each injection; checksums {:016x} and {:016x}\n",
        regions.len(),
        sizes.max().unwrap_or_default(),
        shared.overlap_nodes,
        shared.max_multiplicity,
        pairs,
        checksum(first),
        checksum(second),
    ))
}

/// Over the bits of all values in their order.
fn checksum(values: &[Vec<f64>]) -> u64 {
    let bits = values.iter().flatten().map(|value| value.to_bits());
    bits.fold(0, |sum: u64, bits| {
        (sum ^ bits).wrapping_mul(0x0100_0000_01b3)
    })
}

/// SplitMix64.
struct Random(u64);

impl Random {
    fn below(&mut self, limit: u32) -> u32 {
        self.0 = self.0.wrapping_add(0x9e37_79b9_7f4a_7c15);
        let mut mixed = (self.0 ^ (self.0 >> 30)).wrapping_mul(0xbf58_476d_1ce4_e5b9);
        mixed = (mixed ^ (mixed >> 27)).wrapping_mul(0x94d0_49bb_1331_11eb);
        ((mixed ^ (mixed >> 31)) % u64::from(limit)) as u32
    }
}
