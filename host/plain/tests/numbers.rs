//! The two functions on plain numbers against an independent implementation: all pairs of boundary values and a million
//! random ones.
use juopmorin::{place, word_index, Place};

/// A level: its tick is 2^shift, it has 2^size buckets, and it serves differences below 2^limit.
struct Level {
    shift: u32,
    size: u32,
    limit: u32,
}

const LEVELS: [Level; 4] = [
    Level { shift: 30, size: 6, limit: 36 },
    Level { shift: 36, size: 6, limit: 42 },
    Level { shift: 42, size: 5, limit: 47 },
    Level { shift: 47, size: 2, limit: 49 },
];

/// By the table of levels, in 128 bits.
fn expected_place(reading: u64, deadline: u64) -> Place {
    let difference = (deadline as u128).saturating_sub(reading as u128);
    for (number, level) in LEVELS.iter().enumerate() {
        if difference < 1u128 << level.limit {
            let tick = deadline as u128 / (1u128 << level.shift);
            return Place { level: number as u8, index: (tick % (1u128 << level.size)) as u8 };
        }
    }
    Place { level: 4, index: 0 }
}

const SEEDS: [u128; 4] = [0xc3a5_c85c_97cb_3127, 0xb492_b66f_be98_f273, 0x9ae1_6a3b_2f90_404f, 0xcbf2_9ce4_8422_2325];

/// By the rule, in 128 bits with remainders.
fn expected_word(hash: u64, depth: u64, mask: u64) -> Option<u64> {
    let words = mask as u128 + 1;
    if depth > 3 || words > 65_536 || words.count_ones() != 1 {
        return None;
    }
    let seed = SEEDS[depth as usize];
    let modulus = 1u128 << 64;
    // the product of two numbers below 2^64 fits 128 bits
    let x = (hash as u128 + seed) % modulus * seed % modulus;
    Some(((x + x / (1 << 32)) % modulus % words) as u64)
}

/// Around every power of two, and around the multiples of a tick that the levels turn at.
fn boundaries() -> Vec<u64> {
    let mut all = vec![0, u64::MAX];
    for power in 0..64u32 {
        for times in [1u64, 3] {
            let Some(edge) = (1u64 << power).checked_mul(times) else { continue };
            all.extend([edge - 1, edge, edge.wrapping_add(1)]);
        }
    }
    all.sort_unstable();
    all.dedup();
    all
}

/// Numbers of every size: a step of xorshift, cut to a random count of bits.
struct Random(u64);

impl Random {
    fn next(&mut self) -> u64 {
        self.0 ^= self.0 << 13;
        self.0 ^= self.0 >> 7;
        self.0 ^= self.0 << 17;
        self.0
    }

    fn any_size(&mut self) -> u64 {
        let bits = self.next() % 64;
        self.next() >> bits
    }
}

#[test]
fn place_on_all_pairs_of_boundaries() {
    let edges = boundaries();
    assert!(edges.len() > 250);
    for &reading in &edges {
        for &deadline in &edges {
            assert_eq!(place(reading, deadline), expected_place(reading, deadline), "{reading} {deadline}");
        }
    }
}

#[test]
fn place_on_a_million_random_pairs() {
    let mut random = Random(0x9e37_79b9_7f4a_7c15);
    for _ in 0..1_000_000 {
        let reading = random.any_size();
        // half of them near the reading
        let deadline = if random.next() % 2 == 0 { random.any_size() } else { reading.wrapping_add(random.any_size()) };
        assert_eq!(place(reading, deadline), expected_place(reading, deadline), "{reading} {deadline}");
    }
}

#[test]
fn word_index_on_boundaries() {
    let edges = boundaries();
    for &hash in &edges {
        for depth in [0, 1, 2, 3, 4, 5, u64::MAX] {
            for &mask in &edges {
                assert_eq!(word_index(hash, depth, mask), expected_word(hash, depth, mask), "{hash} {depth} {mask}");
            }
        }
    }
}

#[test]
fn word_index_on_a_million_random_triples() {
    let mut random = Random(0xd1b5_4a32_d192_ed03);
    for _ in 0..1_000_000 {
        let hash = random.any_size();
        let depth = random.next() % 5;
        let mask = if random.next() % 8 == 0 { random.any_size() } else { (1 << (random.next() % 18)) - 1 };
        assert_eq!(word_index(hash, depth, mask), expected_word(hash, depth, mask), "{hash} {depth} {mask}");
    }
}

#[test]
fn worked_numbers() {
    assert_eq!(place(0, 0), Place { level: 0, index: 0 });
    assert_eq!(place(0, 1 << 30), Place { level: 0, index: 1 });
    assert_eq!(place(0, 1 << 36), Place { level: 1, index: 1 });
    assert_eq!(place(0, u64::MAX), Place { level: 4, index: 0 });
    assert_eq!(place(1, 1 << 36), Place { level: 0, index: 0 });
    assert_eq!(word_index(0, 4, 7), None);
    assert_eq!(word_index(0, 0, 0), Some(0));
}
