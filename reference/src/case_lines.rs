//! What the cases for other implementations have in common: how they stand in a
//! stream, memory drawn from a seed, and digests of what is left in memory.

/// What to do with the file of a case, by its number in the stream.
#[derive(Clone, Copy)]
pub(crate) enum Task {
    Run = 0,
    LoadAndWrite = 1,
    /// The same with other labels for the writer.
    WriteLabels = 2,
    /// The same with a few other labels for the writer.
    WriteFewLabels = 3,
}

/// A case as it stands in a stream. What its task has no use for is 0.
pub(crate) struct Entry<'a> {
    pub(crate) file: &'a [u8],
    pub(crate) budget: u32,
    /// Length of the lent trace or output.
    pub(crate) bytes: u32,
    /// Lengths of the lent amounts, presence and labels.
    pub(crate) cells: [u16; 3],
    pub(crate) task: Task,
    pub(crate) seed: u32,
}

impl Entry<'_> {
    /// A header of 24 bytes and the file. The header is little-endian: the
    /// file's length, the budget and the length of the lent bytes (32 bits
    /// each), the lengths of the lent amounts, presence and labels and the task
    /// (16 bits each), and the seed (32 bits).
    pub(crate) fn encode(&self) -> Vec<u8> {
        let mut bytes = Vec::new();
        for field in [self.file.len() as u32, self.budget, self.bytes] {
            bytes.extend(field.to_le_bytes());
        }
        let [amounts, presence, labels] = self.cells;
        for field in [amounts, presence, labels, self.task as u16] {
            bytes.extend(field.to_le_bytes());
        }
        bytes.extend(self.seed.to_le_bytes());
        bytes.extend(self.file);
        bytes
    }
}

/// Numbers of 31 bits, by a method short enough to be written down anywhere.
pub(crate) struct Draws(u64);

impl Draws {
    pub(crate) fn new(seed: u32) -> Draws {
        Draws(seed.into())
    }

    fn next(&mut self) -> u64 {
        self.0 = (self.0 * 1_103_515_245 + 12_345) % (1 << 31);
        self.0
    }

    /// Amounts of which every second is negative.
    pub(crate) fn amounts(&mut self, count: usize) -> Vec<i32> {
        let signs = [1, -1].into_iter().cycle();
        signs
            .take(count)
            .map(|sign| sign * self.next() as i32)
            .collect()
    }

    /// Words of two numbers each.
    pub(crate) fn words(&mut self, count: usize) -> Vec<u64> {
        let mut word = || {
            let high = self.next();
            (high << 33) + self.next() * 2
        };
        (0..count).map(|_| word()).collect()
    }

    /// Changes about half of these labels, eight words for each place: some
    /// become empty, some the own place alone, and some gain a place.
    pub(crate) fn few_labels(&mut self, words: &mut [u64]) {
        for (place, label) in words.chunks_exact_mut(8).enumerate() {
            match self.next() / 65_536 % 8 {
                0..=3 => {}
                4..=5 => label.fill(0),
                6 if place < 512 => {
                    label.fill(0);
                    label[place / 64] = 1 << (place % 64);
                }
                6 => {}
                _ => {
                    let more = (self.next() / 65_536 % 512) as usize;
                    label[more / 64] |= 1 << (more % 64);
                }
            }
        }
    }

    /// Bytes of one number each, from its middle.
    pub(crate) fn bytes(&mut self, count: usize) -> Vec<u8> {
        (0..count).map(|_| (self.next() >> 16) as u8).collect()
    }
}

/// The digest of amounts, by their bits.
pub(crate) fn digest_of_amounts(amounts: &[i32]) -> u64 {
    digest(amounts.iter().map(|&amount| amount as u32))
}

/// The digest of words, each as two numbers, the low half first.
pub(crate) fn digest_of_words(words: &[u64]) -> u64 {
    digest(
        words
            .iter()
            .flat_map(|&word| [word as u32, (word >> 32) as u32]),
    )
}

pub(crate) fn digest_of_bytes(bytes: &[u8]) -> u64 {
    digest(bytes.iter().map(|&byte| byte.into()))
}

/// A number that stands for a sequence. The modulus is the largest prime below
/// 2 to the 32.
fn digest(numbers: impl Iterator<Item = u32>) -> u64 {
    numbers.fold(1, |digest, number| {
        (digest * 16_777_619 + u64::from(number)) % 4_294_967_291
    })
}

#[cfg(test)]
mod tests {
    use super::*;

    #[test]
    fn a_digest_depends_on_every_number_and_their_order() {
        assert_eq!(digest([].into_iter()), 1);
        assert_eq!(digest([5].into_iter()), 16_777_624);
        // 16,777,620 · 16,777,619 + 2 is 65,539 · 4,294,967,291 + 654,801,933.
        assert_eq!(digest([1, 2].into_iter()), 654_801_933);
        assert_eq!(digest([2, 1].into_iter()), 671_579_551);
    }

    #[test]
    fn every_form_of_memory_is_taken_as_numbers() {
        assert_eq!(digest_of_amounts(&[1, 2]), 654_801_933);
        assert_eq!(digest_of_bytes(&[1, 2]), 654_801_933);
        assert_eq!(digest_of_words(&[0x2_0000_0001]), 654_801_933);
        assert_eq!(digest_of_amounts(&[-1]), digest([u32::MAX].into_iter()));
    }

    #[test]
    fn draws_follow_their_rule() {
        let mut draws = Draws::new(1);
        assert_eq!(draws.next(), 1_103_527_590);
        assert_eq!(draws.next(), 377_401_575);
        assert_eq!(Draws::new(u32::MAX).next(), 1_043_980_748);
    }

    #[test]
    fn memory_is_drawn_from_these_numbers() {
        let amounts = Draws::new(1).amounts(2);
        assert_eq!(amounts, [1_103_527_590, -377_401_575]);
        let word = (1_103_527_590 << 33) + 2 * 377_401_575;
        assert_eq!(Draws::new(1).words(1), [word]);
        // 1,103,527,590 is 16,838 · 65,536 + 32,422, and 16,838 is 65 · 256 + 198.
        assert_eq!(Draws::new(1).bytes(1), [198]);
    }
}
