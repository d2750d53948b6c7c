//! A call taken apart into named numbers and lists, in the order in which it
//! is printed and recorded.

pub struct Parts<'call> {
    pub numbers: Vec<(&'static str, u64)>,
    pub lists: Vec<(&'static str, List<'call>)>,
    /// Which lists the call may write, counted from 0.
    pub written: Vec<usize>,
}

pub enum List<'call> {
    U8(&'call mut [u8]),
    U32(&'call mut [u32]),
    U64(&'call mut [u64]),
    F64(&'call mut [f64]),
}

impl<'call> Parts<'call> {
    pub fn new() -> Self {
        Self {
            numbers: vec![],
            lists: vec![],
            written: vec![],
        }
    }

    pub fn number(mut self, name: &'static str, number: u64) -> Self {
        self.numbers.push((name, number));
        self
    }

    /// A list that the call only reads.
    pub fn read(mut self, name: &'static str, list: List<'call>) -> Self {
        self.lists.push((name, list));
        self
    }

    /// A list that the call may write.
    pub fn written(mut self, name: &'static str, list: List<'call>) -> Self {
        self.written.push(self.lists.len());
        self.read(name, list)
    }

    /// Places in a record that only other calls of the group have lists for.
    pub fn absent(mut self, places: usize) -> Self {
        for _ in 0..places {
            self = self.read("", List::U64(&mut []));
        }
        self
    }

    /// The same among the lists that a call may write.
    pub fn absent_written(mut self, places: usize) -> Self {
        for _ in 0..places {
            self = self.written("", List::U64(&mut []));
        }
        self
    }

    pub fn longest(&self) -> usize {
        let lengths = self.lists.iter().map(|(_, list)| list.len());
        lengths.max().unwrap_or_default()
    }

    pub fn show_numbers(&self) -> String {
        self.numbers
            .iter()
            .map(|(name, number)| format!("  {name} = {number}\n"))
            .collect()
    }

    pub fn show_lists(&self) -> String {
        self.lists
            .iter()
            .filter(|(name, _)| !name.is_empty())
            .map(|(name, list)| format!("  {name} = {}\n", shown(&list.widened())))
            .collect()
    }
}

impl List<'_> {
    pub fn len(&self) -> usize {
        match self {
            List::U8(list) => list.len(),
            List::U32(list) => list.len(),
            List::U64(list) => list.len(),
            List::F64(list) => list.len(),
        }
    }

    /// The elements as 64 bits each.
    pub fn widened(&self) -> Vec<u64> {
        match self {
            List::U8(list) => list.iter().map(|&element| element.into()).collect(),
            List::U32(list) => list.iter().map(|&element| element.into()).collect(),
            List::U64(list) => list.to_vec(),
            List::F64(list) => list.iter().map(|element| element.to_bits()).collect(),
        }
    }

    /// Changes one bit of one element, of an f64 the sign: 0.0 and -0.0 must be
    /// told apart.
    pub fn spoil(&mut self, place: usize) {
        match self {
            List::U8(list) => list[place] ^= 1,
            List::U32(list) => list[place] ^= 1,
            List::U64(list) => list[place] ^= 1 << 63,
            List::F64(list) => list[place] = -list[place],
        }
    }
}

/// The whole list; a run of equal elements is written once: `0 (x 5)`.
fn shown(list: &[u64]) -> String {
    let runs: Vec<String> = list
        .chunk_by(|a, b| a == b)
        .map(|run| match run.len() {
            1 => run[0].to_string(),
            times => format!("{} (x {times})", run[0]),
        })
        .collect();
    format!("[{}], {} in all", runs.join(", "), list.len())
}
