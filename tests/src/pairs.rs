//! Pairs i < j: their numbers from 1, which go by rows, and the two orders in which
//! judging compares them.

/// The modes of judging: pairs are compared by rows, or by columns.
pub const BY_ROWS: u32 = 1;
pub const BY_COLUMNS: u32 = 2;
pub const MODES: [u32; 2] = [BY_ROWS, BY_COLUMNS];

/// How many pairs a graph of this order has.
pub fn pair_count(order: u32) -> u32 {
    order * (order - 1) / 2
}

/// The number of the pair (i, j), i < j.
pub fn pair_number(order: u32, i: u32, j: u32) -> u32 {
    (i - 1) * (2 * order - i) / 2 + (j - i)
}

/// All pairs in row order: (1,2), (1,3), .., (1,n), (2,3), and so on.
pub fn pairs(order: u32) -> impl Iterator<Item = (u32, u32)> {
    (1..=order).flat_map(move |i| (i + 1..=order).map(move |j| (i, j)))
}

/// What a mode compares pairs by: their row and then their column, or the other way
/// round. Taken twice it is the pair again.
pub fn rank<T>(mode: u32, (i, j): (T, T)) -> (T, T) {
    if mode == BY_COLUMNS { (j, i) } else { (i, j) }
}

/// Whether a pair comes before another one.
pub fn is_before<T: Ord>(mode: u32, pair: (T, T), other: (T, T)) -> bool {
    rank(mode, pair) < rank(mode, other)
}

/// All pairs in the order of a mode.
pub fn pairs_in_order(mode: u32, order: u32) -> Vec<(u32, u32)> {
    let mut all: Vec<_> = pairs(order).collect();
    all.sort_by_key(|&pair| rank(mode, pair));
    all
}

#[cfg(test)]
mod tests {
    use super::*;

    #[test]
    fn numbers_follow_row_order() {
        for order in 1..=32 {
            let numbers: Vec<u32> = pairs(order).map(|(i, j)| pair_number(order, i, j)).collect();
            let expected: Vec<u32> = (1..=pair_count(order)).collect();
            assert_eq!(numbers, expected);
        }
    }

    #[test]
    fn the_two_orders() {
        for order in 1..=32 {
            assert!(pairs(order).eq(pairs_in_order(BY_ROWS, order)));
            let columns = (2..=order).flat_map(|j| (1..j).map(move |i| (i, j)));
            assert!(columns.eq(pairs_in_order(BY_COLUMNS, order)));
        }
        let first = [(1, 2), (1, 3), (2, 3), (1, 4), (2, 4), (3, 4), (1, 5)];
        assert_eq!(pairs_in_order(BY_COLUMNS, 5)[..7], first);
        assert!(is_before(BY_ROWS, (1, 4), (2, 3)) && is_before(BY_COLUMNS, (2, 3), (1, 4)));
        assert!(MODES.iter().all(|&mode| !is_before(mode, (1, 2), (1, 2))));
    }
}
