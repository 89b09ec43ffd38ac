//! Lent memory as bytes, each word low byte first, and nowhere aligned.

/// Bytes that begin one past a multiple of eight.
pub struct Unaligned {
    memory: Vec<u8>,
    start: usize,
}

impl Unaligned {
    fn holding(bytes: &[u8]) -> Self {
        let mut memory = vec![0; bytes.len() + 8];
        let start = (9 - memory.as_ptr() as usize % 8) % 8;
        memory[start..][..bytes.len()].copy_from_slice(bytes);
        memory.truncate(start + bytes.len());
        Unaligned { memory, start }
    }

    /// The words, and behind them as many bytes as are no word.
    fn lent<W: Word>(words: &[W]) -> Self {
        let mut bytes = vec![REST; W::SIZE * words.len() + W::SIZE - 1];
        put(words, &mut bytes);
        Unaligned::holding(&bytes)
    }

    pub fn bytes(&self) -> &[u8] {
        &self.memory[self.start..]
    }

    pub fn bytes_mut(&mut self) -> &mut [u8] {
        &mut self.memory[self.start..]
    }

    /// The words that the bytes show, if those behind them are as they were.
    fn left<W: Word>(&self) -> Vec<W> {
        let words = self.bytes().chunks_exact(W::SIZE);
        let kept = words.remainder().iter().all(|&byte| byte == REST);
        assert!(kept, "bytes that are no word were written");
        words.map(W::from_bytes).collect()
    }
}

impl PartialEq for Unaligned {
    fn eq(&self, other: &Self) -> bool {
        self.bytes() == other.bytes()
    }
}

/// Stands in every lent byte that is no word's: no case gives such a byte there.
const REST: u8 = 0xAD;

/// The events, and all that is lent.
#[derive(PartialEq)]
pub struct Bytes {
    pub events: Unaligned,
    pub chart: Unaligned,
    pub table: Unaligned,
    pub script: Unaligned,
}

impl Bytes {
    pub fn lent(events: &[u16], chart: &[u64], table: &[u32], script: &[u16]) -> Self {
        let events: Vec<u8> = events
            .iter()
            .flat_map(|event| event.to_le_bytes())
            .collect();
        Bytes {
            events: Unaligned::holding(&events),
            chart: Unaligned::lent(chart),
            table: Unaligned::lent(table),
            script: Unaligned::lent(script),
        }
    }

    /// The words of the chart, of the table and of the script that the bytes show after a call.
    pub fn left(&self) -> (Vec<u64>, Vec<u32>, Vec<u16>) {
        (self.chart.left(), self.table.left(), self.script.left())
    }
}

/// A word as bytes, and back.
pub trait Word: Copy {
    const SIZE: usize;

    fn put(self, bytes: &mut [u8]);

    fn from_bytes(bytes: &[u8]) -> Self;
}

macro_rules! words {
    ($($word:ty)*) => {
        $(impl Word for $word {
            const SIZE: usize = size_of::<$word>();

            fn put(self, bytes: &mut [u8]) {
                bytes.copy_from_slice(&self.to_le_bytes());
            }

            fn from_bytes(bytes: &[u8]) -> Self {
                Self::from_le_bytes(bytes.try_into().expect("the bytes of a word"))
            }
        })*
    };
}

words!(u16 u32 u64);

/// Puts the words at the front of the bytes.
pub fn put<W: Word>(words: &[W], bytes: &mut [u8]) {
    for (bytes, word) in bytes.chunks_exact_mut(W::SIZE).zip(words) {
        word.put(bytes);
    }
}
