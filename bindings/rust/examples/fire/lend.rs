//! What is lent: buffers full of a pattern, between guards; and the random numbers that say what stands in them.

/// The items of a guard. Without guards each buffer is an allocation of its own.
pub const GUARD: usize = 64;

/// Random numbers (SplitMix64).
pub struct Random(pub u64);

impl Random {
    pub fn next(&mut self) -> u64 {
        self.0 = self.0.wrapping_add(0x9e37_79b9_7f4a_7c15);
        let mut x = self.0;
        x = (x ^ (x >> 30)).wrapping_mul(0xbf58_476d_1ce4_e5b9);
        x = (x ^ (x >> 27)).wrapping_mul(0x94d0_49bb_1331_11eb);
        x ^ (x >> 31)
    }

    pub fn below(&mut self, most: usize) -> usize {
        (self.next() % most.max(1) as u64) as usize
    }

    pub fn one_in(&mut self, n: usize) -> bool {
        self.below(n) == 0
    }

    pub fn one_of<T: Copy>(&mut self, them: &[T]) -> T {
        them[self.below(them.len())]
    }
}

/// Whether each of these is this item. A chunk is looked at as a whole, which is faster.
pub fn all<T: Copy + PartialEq>(items: &[T], item: T) -> bool {
    items.chunks(1_024).all(|chunk| chunk.iter().fold(true, |so_far, &it| so_far & (it == item)))
}

/// A buffer between guards, all of it filled with a pattern.
pub struct Buffer<T> {
    memory: Vec<T>,
    guard: usize,
    pattern: T,
}

impl<T: Copy + PartialEq> Buffer<T> {
    pub fn new(length: usize, guard: usize, pattern: T) -> Self {
        Buffer { memory: vec![pattern; length + 2 * guard], guard, pattern }
    }

    /// One that holds this part.
    pub fn of(part: &Part<T>, guard: usize, pattern: T) -> Self {
        let mut buffer = Buffer::new(part.length, guard, pattern);
        buffer.lent().iter_mut().zip(&part.held).for_each(|(to, from)| *to = *from);
        buffer
    }

    pub fn lent(&mut self) -> &mut [T] {
        let end = self.memory.len() - self.guard;
        &mut self.memory[self.guard..end]
    }

    pub fn held(&self) -> &[T] {
        &self.memory[self.guard..self.memory.len() - self.guard]
    }

    pub fn guards_stand(&self) -> bool {
        let (front, back) = (&self.memory[..self.guard], &self.memory[self.memory.len() - self.guard..]);
        all(front, self.pattern) && all(back, self.pattern)
    }

    /// Whether the pattern stands from here on.
    pub fn untouched(&self, from: usize) -> bool {
        all(&self.held()[from..], self.pattern)
    }

    /// Whether from here on all is as it was when the buffer was made of this part.
    pub fn as_it_was(&self, part: &Part<T>, from: usize) -> bool {
        let end = part.held.len().min(part.length);
        let from = from.min(part.length);
        self.held()[from.min(end)..end] == part.held[from.min(end)..end] && self.untouched(from.max(end))
    }
}

/// What a slice holds: these items, cut or followed by the pattern to be this long.
#[derive(Clone)]
pub struct Part<T> {
    pub held: Vec<T>,
    pub length: usize,
}

impl<T> Part<T> {
    /// As long as its items.
    pub fn exact(held: Vec<T>) -> Self {
        Part { length: held.len(), held }
    }
}

/// Bytes that are read from the front.
pub struct Reader<'a>(pub &'a [u8]);

impl<'a> Reader<'a> {
    pub fn part(&mut self, length: usize) -> &'a [u8] {
        let (part, rest) = self.0.split_at(length);
        self.0 = rest;
        part
    }

    pub fn word(&mut self) -> usize {
        u32::from_le_bytes(self.part(4).try_into().expect("four bytes")) as usize
    }

    pub fn words(&mut self, count: usize) -> Vec<u32> {
        (0..count).map(|_| self.word() as u32).collect()
    }
}
