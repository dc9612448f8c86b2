//! The rounding rule. Only a message's value goes another way, on an exact half.

/// "Round" means to the nearest, halves away from zero.
///
/// Returns `numerator / denominator` rounded; the denominator is above 0. Half a
/// denominator, rounded down, is enough: an odd denominator has no halves.
#[inline]
pub const fn nearest(numerator: i64, denominator: i64) -> i64 {
    if numerator < 0 {
        -((denominator / 2 - numerator) / denominator)
    } else {
        (denominator / 2 + numerator) / denominator
    }
}

#[cfg(test)]
mod tests {
    use super::nearest;

    /// The rule said again without a division: no other whole number is nearer,
    /// and of two that are as near, the answer is the one further from zero.
    #[test]
    fn is_the_nearest_and_takes_halves_away_from_zero() {
        for denominator in 1..=12 {
            for numerator in -60..=60 {
                let answer = nearest(numerator, denominator);
                let off = (2 * (answer * denominator - numerator)).abs();
                assert!(off <= denominator, "{numerator}/{denominator} -> {answer}");
                if off == denominator {
                    assert!((answer * denominator).abs() > numerator.abs());
                }
            }
        }
    }

    #[test]
    fn halves() {
        assert_eq!(nearest(5, 2), 3);
        assert_eq!(nearest(-5, 2), -3);
        assert_eq!(nearest(1, 3), 0);
        assert_eq!(nearest(-2, 3), -1);
    }
}
