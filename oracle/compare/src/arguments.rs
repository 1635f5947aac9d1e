//! The arguments of a comparison: how many random cases, and the seed.

pub struct Arguments {
    pub count: u64,
    pub seed: u64,
}

impl Arguments {
    /// `COUNT SEED`, each with a value where it is left out.
    pub fn read(count: u64) -> Self {
        let mut words = std::env::args().skip(1);
        let mut number = |otherwise| match words.next() {
            Some(word) => word
                .parse()
                .unwrap_or_else(|_| panic!("not a number: {word}")),
            None => otherwise,
        };
        Self {
            count: number(count),
            seed: number(1),
        }
    }
}
