//! The growth factors, reckoned when the program is compiled.

/// Entry d is 1,000,000,000 times the sum for k = 0 to 8 of x^k/k!, x = d/3650, rounded down.
pub const GROWTH: [u64; 367] = {
    let mut table = [0; 367];
    let mut day = 0;
    while day < 367 {
        table[day] = factor(day as u128);
        day += 1;
    }
    table
};

/// The sum over the common denominator 8! × 3650^8, then nine decimal places by long division.
const fn factor(day: u128) -> u64 {
    let mut numerator: u128 = 1;
    let mut denominator: u128 = 1;
    let mut k = 8;
    // Horner from the inside: 1 + x/k × (what follows)
    while k > 0 {
        // 1 + day × n / (3650 × k × d)
        let below = denominator * 3650 * k;
        numerator = below + day * numerator;
        denominator = below;
        k -= 1;
    }
    let mut whole = numerator / denominator;
    let mut rest = numerator % denominator;
    let mut place = 0;
    while place < 9 {
        rest *= 10;
        whole = whole * 10 + rest / denominator;
        rest %= denominator;
        place += 1;
    }
    whole as u64
}

#[cfg(test)]
mod tests {
    use super::*;

    #[test]
    fn the_entries_that_the_paper_names() {
        assert_eq!((GROWTH[0], GROWTH[73], GROWTH[365]), (1_000_000_000, 1_020_201_340, 1_105_170_918));
    }
}
