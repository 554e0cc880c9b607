//! Images for tests, and random numbers.

/// A small generator (xorshift): the same numbers on every run. Its state is not 0.
pub struct Random(pub u64);

impl Random {
    pub fn below(&mut self, end: usize) -> usize {
        self.0 ^= self.0 << 13;
        self.0 ^= self.0 >> 7;
        self.0 ^= self.0 << 17;
        ((self.0 >> 16) % end as u64) as usize
    }
}

const NONE: u32 = u32::MAX;

/// A trait with 64 functions of 32 parameters of u8, in row 0, and in row 1 an implementation of it with no functions:
/// its signatures pass the first room.
pub fn wide_trait() -> Vec<u8> {
    let texts: Vec<u8> = (0..64).flat_map(|name| [b'a' + name / 8, b'a' + name % 8]).collect();
    let names: Vec<u32> = (0..64).flat_map(|name| [2 * name, 2, NONE, NONE]).collect();
    let mut pool = vec![0, 0, 64];
    for name in 0..64 {
        pool.extend([name, 32]);
        pool.extend([name, 1].repeat(32));
        pool.push(0);
    }
    let implementation = pool.len() as u32;
    // Trait number and name, a target of type u8, no type arguments, no functions.
    pool.extend([0, 0, 1, 0, 0]);
    let definitions = [3, 0, 4, implementation];

    let names_at = texts.len() as u32;
    let pool_at = names_at + 4 * names.len() as u32;
    let definitions_at = pool_at + 4 * pool.len() as u32;
    let end = definitions_at + 4 * definitions.len() as u32 + 24;
    let trailer = [names_at, pool_at, pool_at, definitions_at, 1, end];
    let words = names.iter().chain(&pool).chain(&definitions).chain(&trailer);
    texts.into_iter().chain(words.flat_map(|word| word.to_le_bytes())).collect()
}
