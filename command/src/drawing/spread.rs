//! Labels in a row, each as near as may be to where it is wanted.

/// A label: where its middle is wanted, and how much of the row it takes,
/// the space to its neighbors included.
#[derive(Clone, Copy, Debug)]
pub struct Label {
    pub wanted: f64,
    pub extent: f64,
}

/// Labels that stand side by side without a gap.
struct Block {
    labels: usize,
    /// What the first label's middle is wanted at for the sake of each label,
    /// added up.
    sum: f64,
}

impl Block {
    fn first(&self) -> f64 {
        self.sum / self.labels as f64
    }
}

/// The middles of the labels, in order: none overlap, all stand between `least`
/// and `greatest` if there is room for them, and the squares of the ways that
/// they are moved add up to the least.
pub fn spread(labels: &[Label], least: f64, greatest: f64) -> Vec<f64> {
    let ways = ways_from_the_first(labels);
    let (first, last) = match (labels.first(), labels.last()) {
        (Some(first), Some(last)) => (first, last),
        _ => return Vec::new(),
    };
    let lowest = least + first.extent / 2.0;
    let highest = greatest - last.extent / 2.0 - ways[ways.len() - 1];
    let mut firsts = Vec::new();
    for block in blocks(labels, &ways) {
        let first = block.first().min(highest).max(lowest);
        firsts.resize(firsts.len() + block.labels, first);
    }
    firsts
        .iter()
        .zip(&ways)
        .map(|(first, way)| first + way)
        .collect()
}

/// How far each label stands from the first if there are no gaps.
fn ways_from_the_first(labels: &[Label]) -> Vec<f64> {
    let mut ways = Vec::new();
    let mut way = 0.0;
    for (index, label) in labels.iter().enumerate() {
        if index > 0 {
            way += (labels[index - 1].extent + label.extent) / 2.0;
        }
        ways.push(way);
    }
    ways
}

/// Labels that would overlap are put into one block, from the left.
fn blocks(labels: &[Label], ways: &[f64]) -> Vec<Block> {
    let mut blocks: Vec<Block> = Vec::new();
    for (label, way) in labels.iter().zip(ways) {
        let mut block = Block {
            labels: 1,
            sum: label.wanted - way,
        };
        while let Some(before) = blocks.pop() {
            if before.first() <= block.first() {
                blocks.push(before);
                break;
            }
            block = Block {
                labels: before.labels + block.labels,
                sum: before.sum + block.sum,
            };
        }
        blocks.push(block);
    }
    blocks
}

#[cfg(test)]
mod tests {
    use super::*;

    fn middles(labels: &[(f64, f64)], least: f64, greatest: f64) -> Vec<f64> {
        let label = |&(wanted, extent): &(f64, f64)| Label { wanted, extent };
        let labels: Vec<Label> = labels.iter().map(label).collect();
        spread(&labels, least, greatest)
    }

    #[test]
    fn labels_with_room_stay() {
        assert_eq!(
            middles(&[(10.0, 4.0), (20.0, 4.0)], 0.0, 99.0),
            [10.0, 20.0]
        );
    }

    #[test]
    fn labels_of_one_place_stand_around_it() {
        let labels = [(50.0, 10.0), (50.0, 10.0), (50.0, 10.0)];
        assert_eq!(middles(&labels, 0.0, 99.0), [40.0, 50.0, 60.0]);
    }

    #[test]
    fn a_block_pushes_its_neighbors() {
        let labels = [(36.0, 10.0), (50.0, 10.0), (50.0, 10.0)];
        let middles = middles(&labels, 0.0, 99.0);
        for (middle, expected) in middles.iter().zip([35.333, 45.333, 55.333]) {
            assert!((middle - expected).abs() < 0.001, "{middles:?}");
        }
    }

    #[test]
    fn labels_stay_between_the_limits() {
        assert_eq!(middles(&[(1.0, 10.0), (9.0, 6.0)], 0.0, 99.0), [5.0, 13.0]);
        assert_eq!(
            middles(&[(98.0, 6.0), (99.0, 10.0)], 0.0, 99.0),
            [86.0, 94.0]
        );
    }

    #[test]
    fn no_labels_have_no_places() {
        assert_eq!(middles(&[], 0.0, 99.0), [0.0; 0]);
    }
}
