//! The four relations, their sets as numbers, converse and composition.

/// Same board.
pub const E: u8 = 1;
/// The first board is strictly above the second.
pub const A: u8 = 2;
/// The first board is strictly below the second.
pub const B: u8 = 4;
/// Side: neither same, above nor below.
pub const S: u8 = 8;
/// All four relations.
pub const ALL: u8 = 15;
/// The four single relations in the order of codes, of signs and of tries.
pub const SINGLES: [u8; 4] = [E, A, B, S];

/// The sixteen compositions of single relations: row p to q, column q to r.
const SIXTEEN: [[u8; 4]; 4] = [[1, 2, 4, 8], [2, 2, 7, 10], [4, 15, 4, 8], [8, 8, 12, 15]];

/// The converse of a set: A exchanged with B.
pub fn converse(set: u8) -> u8 {
    let mut answer = set & (E | S);
    if set & A != 0 {
        answer |= B;
    }
    if set & B != 0 {
        answer |= A;
    }
    answer
}

/// The union of the compositions of all pairs of members.
const fn union_over_members(first: usize, second: usize) -> u8 {
    let mut union = 0;
    let mut i = 0;
    while i < 4 {
        let mut j = 0;
        while j < 4 {
            if first >> i & 1 == 1 && second >> j & 1 == 1 {
                union |= SIXTEEN[i][j];
            }
            j += 1;
        }
        i += 1;
    }
    union
}

/// The union over members, worked out beforehand for every pair of sets.
const fn all_unions() -> [[u8; 16]; 16] {
    let mut unions = [[0; 16]; 16];
    let mut first = 0;
    while first < 16 {
        let mut second = 0;
        while second < 16 {
            unions[first][second] = union_over_members(first, second);
            second += 1;
        }
        first += 1;
    }
    unions
}

static UNIONS: [[u8; 16]; 16] = all_unions();

/// What p to r may be, given p to q (first) and q to r (second).
pub fn composition(first: u8, second: u8) -> u8 {
    UNIONS[(first & ALL) as usize][(second & ALL) as usize]
}

/// Whether the set has exactly one member.
pub fn is_single(set: u8) -> bool {
    SINGLES.contains(&set)
}

/// Whether every member of the first set is in the second; true of an empty set.
pub fn lies_within(set: u8, other: u8) -> bool {
    set & !other == 0
}

/// Whether the set holds some member of the other.
pub fn has(set: u8, other: u8) -> bool {
    set & other != 0
}
