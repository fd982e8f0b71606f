//! Neighboring points that are taken together: because they coincide, or
//! because they are too near to one another to be drawn apart.

/// The points from the first to the last, counted from 1.
#[derive(Clone, Copy, Debug, PartialEq, Eq)]
pub struct Group {
    pub first: usize,
    pub last: usize,
}

impl Group {
    pub fn is_single(self) -> bool {
        self.first == self.last
    }

    /// As it stands beside a mark: `3`, `1-4`.
    pub fn numbers(self) -> String {
        if self.is_single() {
            self.first.to_string()
        } else {
            format!("{}-{}", self.first, self.last)
        }
    }

    /// As it stands in a sentence; of one that is not single.
    pub fn named(self) -> String {
        let Group { first, last } = self;
        let between = if first + 1 == last { "and" } else { "to" };
        format!("points {first} {between} {last}")
    }

    /// The distances of its points.
    pub fn of(self, distances: &[u32]) -> &[u32] {
        &distances[self.first - 1..self.last]
    }
}

/// All points in groups that reach less far than `reach` from their first
/// point; the distances do not decrease.
pub fn groups(distances: &[u32], reach: f64) -> Vec<Group> {
    let mut groups: Vec<Group> = Vec::new();
    for (index, &distance) in distances.iter().enumerate() {
        let number = index + 1;
        match groups.last_mut() {
            Some(group) if f64::from(distance - distances[group.first - 1]) < reach => {
                group.last = number;
            }
            _ => groups.push(Group {
                first: number,
                last: number,
            }),
        }
    }
    groups
}

/// The groups of points that have one distance.
pub fn coinciding(distances: &[u32]) -> Vec<Group> {
    let mut groups = groups(distances, 1.0);
    groups.retain(|group| !group.is_single());
    groups
}

#[cfg(test)]
mod tests {
    use super::*;

    fn numbers(distances: &[u32], reach: f64) -> Vec<String> {
        let groups = groups(distances, reach);
        groups.into_iter().map(Group::numbers).collect()
    }

    #[test]
    fn near_points_are_taken_together() {
        let distances = [1_000, 1_000, 1_001, 1_700, 2_000];
        assert_eq!(numbers(&distances, 1.0), ["1-2", "3", "4", "5"]);
        assert_eq!(numbers(&distances, 2.0), ["1-3", "4", "5"]);
        assert_eq!(numbers(&distances, 701.0), ["1-4", "5"]);
    }

    #[test]
    fn only_points_of_one_distance_coincide() {
        assert_eq!(coinciding(&[1_000, 1_001, 1_002]), []);
        let groups = coinciding(&[1_000, 1_000, 1_000, 1_001, 2_000, 2_000]);
        let named: Vec<String> = groups.into_iter().map(Group::named).collect();
        assert_eq!(named, ["points 1 to 3", "points 5 and 6"]);
    }
}
