//! How much of each kind a store holds, and the buffers that it takes.

/// The capacities of a store: how many things of each kind may be live at one time.
#[derive(Clone, Copy, Debug, PartialEq, Eq, Hash)]
pub struct Capacities {
    pub operations: u32,
    pub blocks: u32,
    pub regions: u32,
    pub values: u32,
    pub uses: u32,
}

impl Capacities {
    /// The largest store.
    pub const LARGEST: Capacities = Capacities { operations: 4096, blocks: 1024, regions: 1024, values: 8192, uses: 16384 };

    /// Whether each is from 1 to its limit.
    pub const fn are_allowed(&self) -> bool {
        let most = Capacities::LARGEST;
        let low = self.operations == 0 || self.blocks == 0 || self.regions == 0 || self.values == 0 || self.uses == 0;
        let high =
            self.operations > most.operations || self.blocks > most.blocks || self.regions > most.regions || self.values > most.values || self.uses > most.uses;
        !low && !high
    }

    /// The words of the store's buffer, as the library's `recipe_words` has them: 0 where a capacity is 0 or over its limit. It can size an array.
    ///
    /// ```
    /// const SMALL: recipe_store::Capacities = recipe_store::Capacities { operations: 8, blocks: 4, regions: 4, values: 16, uses: 32 };
    /// static BUFFER: [u32; SMALL.store_words()] = [0; SMALL.store_words()];
    /// assert_eq!(BUFFER.len(), 593);
    /// ```
    pub const fn store_words(&self) -> usize {
        if !self.are_allowed() {
            return 0;
        }
        let (o, b, r) = (self.operations as usize, self.blocks as usize, self.regions as usize);
        let (v, u) = (self.values as usize, self.uses as usize);
        15 + 14 * o + 11 * b + 7 * r + 8 * v + 8 * u + marks(o) + marks(b) + marks(r) + marks(v) + marks(u)
    }

    /// The words of the scratch: one for each operation place.
    pub const fn scratch_words(&self) -> usize {
        self.operations as usize
    }

    /// Bytes that are enough for a listing of the fullest store after this many answers.
    pub const fn listing_bytes(&self, answers: usize) -> usize {
        // The longest lines, with numbers of ten digits, and what each thing adds to the line of another.
        let per_operation = 56 + 11;
        let per_block = 48 + 11;
        let per_region = 39 + 11;
        let per_value = 38 + 11;
        let per_use = 22 + 11;
        62 + 41 * answers
            + per_operation * self.operations as usize
            + per_block * self.blocks as usize
            + per_region * self.regions as usize
            + per_value * self.values as usize
            + per_use * self.uses as usize
    }

    pub(crate) const fn numbers(&self) -> [u32; 5] {
        [self.operations, self.blocks, self.regions, self.values, self.uses]
    }
}

/// The words of an occupancy map.
pub(crate) const fn marks(places: usize) -> usize {
    2 * ((places + 63) / 64)
}
