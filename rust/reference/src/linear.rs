//! Linear algebra over GF(2). A row is packed 64 bits to a number, place 0 lowest.

/// The sum modulo 2 of the products place by place, as far as the shorter row goes.
pub fn product(a: &[u64], b: &[u64]) -> u16 {
    (a.iter().zip(b).fold(0, |sum, (x, y)| sum ^ (x & y)).count_ones() % 2) as u16
}

pub fn get(row: &[u64], place: usize) -> bool {
    row[place / 64] >> (place % 64) & 1 == 1
}

/// The places of a row that are 1, rising.
pub fn ones(row: &[u64]) -> impl Iterator<Item = usize> + '_ {
    row.iter().enumerate().flat_map(|(k, &number)| {
        // Each number is the one before it without its lowest 1.
        let numbers = std::iter::successors(Some(number), |&number| Some(number & number.wrapping_sub(1)));
        numbers.take_while(|&number| number != 0).map(move |number| 64 * k + number.trailing_zeros() as usize)
    })
}

pub fn flip(row: &mut [u64], place: usize) {
    row[place / 64] ^= 1 << (place % 64);
}

pub fn put(row: &mut [u64], place: usize, bit: bool) {
    if get(row, place) != bit {
        flip(row, place);
    }
}

/// Gauss-Jordan elimination on places 0 to `unknowns` − 1; places beyond are carried along. The rows must determine every
/// unknown: afterwards row k has its only one of these places at k, and the rows from `unknowns` on have none.
pub fn eliminate(rows: &mut [Vec<u64>], unknowns: usize) {
    for place in 0..unknowns {
        let found = (place..rows.len()).find(|&r| get(&rows[r], place)).expect("an unknown is not determined");
        rows.swap(place, found);
        let pivot = rows[place].clone();
        for (r, row) in rows.iter_mut().enumerate() {
            if r != place && get(row, place) {
                for (x, y) in row[place / 64..].iter_mut().zip(&pivot[place / 64..]) {
                    *x ^= y;
                }
            }
        }
    }
}
