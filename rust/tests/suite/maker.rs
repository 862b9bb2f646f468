//! Documents made at random from a seed, with a value of each kind, every second one damaged.

/// Numbers at random, by xorshift.
pub struct Random(u64);

impl Random {
    pub fn new(seed: u64) -> Random {
        Random(seed)
    }

    fn next(&mut self) -> u64 {
        self.0 ^= self.0 << 13;
        self.0 ^= self.0 >> 7;
        self.0 ^= self.0 << 17;
        self.0
    }

    /// A number under another one.
    pub fn under(&mut self, end: usize) -> usize {
        (self.next() >> 16) as usize % end
    }

    fn bytes(&mut self, len: usize) -> Vec<u8> {
        (0..len).map(|_| self.next() as u8).collect()
    }

    fn one_of<T: Copy>(&mut self, all: &[T]) -> T {
        all[self.under(all.len())]
    }
}

/// The document of these elements.
pub fn framed(elements: &[u8]) -> Vec<u8> {
    [&(elements.len() as i32 + 5).to_le_bytes()[..], elements, &[0]].concat()
}

fn string(text: &str) -> Vec<u8> {
    [&(text.len() as i32 + 1).to_le_bytes()[..], text.as_bytes(), &[0]].concat()
}

const LETTERS: [char; 12] = ['a', 'b', 'c', 'x', 'y', 'z', ' ', '0', '1', 'é', '日', '😀'];
const TAGS: [u8; 19] = [1, 2, 5, 6, 7, 8, 9, 10, 11, 12, 13, 14, 15, 16, 17, 18, 19, 0x7F, 0xFF];

impl Random {
    fn text(&mut self, most: usize) -> String {
        (0..self.under(most)).map(|_| self.one_of(&LETTERS)).collect()
    }

    fn binary(&mut self) -> Vec<u8> {
        let subtype = self.one_of(&[0, 0, 1, 2, 4, 5, 9, 64, 128]);
        let len = self.under(9);
        let mut bytes = self.bytes(len);
        if subtype == 2 {
            bytes = [(len as i32).to_le_bytes().to_vec(), bytes].concat();
        }
        [&(bytes.len() as i32).to_le_bytes()[..], &[subtype], &bytes].concat()
    }

    fn regex(&mut self) -> Vec<u8> {
        let options: String = (0..self.under(4)).map(|_| self.one_of(&['i', 'l', 'm', 's', 'u', 'x'])).collect();
        [self.text(9).as_bytes(), b"\0", options.as_bytes(), b"\0"].concat()
    }

    fn payload(&mut self, tag: u8, depth: usize) -> Vec<u8> {
        match tag {
            2 | 13 | 14 => string(&self.text(20)),
            5 => self.binary(),
            8 => vec![self.under(2) as u8],
            11 => self.regex(),
            12 => [string(&self.text(9)), self.bytes(12)].concat(),
            15 => {
                let parts = [string(&self.text(9)), self.document(depth + 1, false)].concat();
                [(parts.len() as i32 + 4).to_le_bytes().to_vec(), parts].concat()
            }
            7 => self.bytes(12),
            16 => self.bytes(4),
            19 => self.bytes(16),
            1 | 9 | 17 | 18 => self.bytes(8),
            _ => Vec::new(),
        }
    }

    /// A document, or what is an array: mostly with the right keys.
    pub fn document(&mut self, depth: usize, is_array: bool) -> Vec<u8> {
        let mut elements = Vec::new();
        let most = if depth == 0 { 24 } else { 7 };
        for number in 0..self.under(most) {
            let is_right = is_array && self.under(8) > 0;
            let key = if is_right { number.to_string() } else { self.text(5) };
            let goes_down = depth < 4 && self.under(4) == 0;
            let tag = if goes_down { self.one_of(&[3, 4]) } else { self.one_of(&TAGS) };
            let payload = if goes_down { self.document(depth + 1, tag == 4) } else { self.payload(tag, depth) };
            elements.extend([&[tag], key.as_bytes(), b"\0", &payload].concat());
        }
        framed(&elements)
    }

    /// The document with a byte changed, or a part cut out, repeated or overwritten; mostly with its length put right.
    fn damaged(&mut self, data: Vec<u8>) -> Vec<u8> {
        let at = 4 + self.under(data.len() - 4);
        let to = data.len().min(at + 1 + self.under(7));
        let mut data = data;
        match self.under(6) {
            0 | 1 => data[at] ^= 1 << self.under(8),
            2 => drop(data.drain(at..to)),
            3 => data = [&data[..to], &data[at..]].concat(),
            4 => {
                let number: i32 = self.one_of(&[-1, -4, 0, 1, 4, 5, data.len() as i32]);
                data.splice(at..data.len().min(at + 4), number.to_le_bytes());
            }
            _ => data.truncate(at),
        }
        if self.under(10) > 0 && data.len() >= 5 {
            framed(&data[4..data.len() - 1])
        } else {
            data
        }
    }
}

/// This many documents, every second one damaged, and some with each element twice.
pub fn all(seed: u64, count: usize) -> impl Iterator<Item = Vec<u8>> {
    let mut random = Random::new(seed);
    (0..count).map(move |number| {
        let mut data = random.document(0, false);
        if number % 5 == 4 {
            data = framed(&data[4..data.len() - 1].repeat(2));
        }
        if number % 2 == 0 {
            data
        } else {
            random.damaged(data)
        }
    })
}
