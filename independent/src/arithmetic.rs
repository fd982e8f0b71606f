//! Rounded division and the nearest whole square root.

/// The quotient to the nearest whole number, halves upward (-1/2 gives 0).
/// The denominator is above 0, and the quotient of every line fits an i64.
pub fn rounded(numerator: i128, denominator: i128) -> i64 {
    (numerator + denominator / 2).div_euclid(denominator) as i64
}

/// The whole number nearest the square root. There are no halves: the square
/// of a half-way number is never whole.
pub fn nearest_root(number: u64) -> u64 {
    let root = whole_root(number);
    if number - root * root > root {
        root + 1
    } else {
        root
    }
}

/// The largest whole number whose square is at most the number. The number is
/// below 2^52, where the root as a double falls short of every whole number that
/// the true root falls short of.
pub fn whole_root(number: u64) -> u64 {
    (number as f64).sqrt() as u64
}

#[cfg(test)]
mod tests {
    use super::*;

    #[test]
    fn halves_go_upward() {
        assert_eq!(rounded(5, 2), 3);
        assert_eq!(rounded(-5, 2), -2);
        assert_eq!(rounded(-1, 2), 0);
        assert_eq!(rounded(-3, 5), -1);
        assert_eq!(rounded(4, 3), 1);
        assert_eq!(rounded(5, 3), 2);
    }

    #[test]
    fn no_whole_number_is_nearer_the_root() {
        for number in 0..20_000_u64 {
            let root = nearest_root(number);
            // |root - sqrt| < 1/2 is (2 root - 1)^2 < 4 number < (2 root + 1)^2.
            assert!(4 * number < (2 * root + 1).pow(2));
            assert!(root == 0 || (2 * root - 1).pow(2) < 4 * number);
        }
    }

    #[test]
    fn roots_on_either_side_of_squares() {
        for root in (1..1 << 26).step_by(997).chain([(1 << 26) - 1]) {
            assert_eq!(whole_root(root * root - 1), root - 1);
            assert_eq!(whole_root(root * root), root);
            assert_eq!(whole_root(root * root + 2 * root), root);
        }
    }
}
