//! The octets that are read and written, the same at each run.

/// Numbers in an order without a pattern.
pub struct Numbers(u64);

impl Numbers {
    pub fn new(seed: u64) -> Numbers {
        Numbers(seed)
    }

    /// The next of 31 bits.
    pub fn next(&mut self) -> u64 {
        self.0 = self.0.wrapping_mul(6364136223846793005).wrapping_add(1442695040888963407);
        self.0 >> 33
    }

    /// The next below a bound.
    pub fn below(&mut self, bound: u64) -> u64 {
        self.next() % bound
    }

    /// So many octets.
    pub fn octets(&mut self, len: usize) -> Vec<u8> {
        (0..len).map(|_| self.next() as u8).collect()
    }

    /// An integer of one to eight contents octets, each number of them as often, and either sign.
    pub fn integer(&mut self) -> i64 {
        let bits = 8 * (self.below(8) + 1) - 1;
        let wide = self.next() << 33 ^ self.next() << 20 ^ self.next();
        let magnitude = (wide & (u64::MAX >> (64 - bits))) as i64;
        if self.below(2) == 0 { magnitude } else { !magnitude }
    }

    /// So many of these characters.
    fn text(&mut self, characters: &[u8], len: usize) -> Vec<u8> {
        (0..len).map(|_| characters[self.below(characters.len() as u64) as usize]).collect()
    }
}

fn length(len: usize) -> Vec<u8> {
    if len < 128 {
        return vec![len as u8];
    }
    let octets = len.to_be_bytes();
    let first = octets.iter().position(|octet| *octet != 0).unwrap();
    let mut all = vec![0x80 | (8 - first) as u8];
    all.extend(&octets[first..]);
    all
}

/// An encoding of this tag and these contents octets.
pub fn tlv(tag: u8, contents: &[u8]) -> Vec<u8> {
    let mut all = vec![tag];
    all.extend(length(contents.len()));
    all.extend(contents);
    all
}

/// An INTEGER.
pub fn integer(value: i64) -> Vec<u8> {
    let octets = value.to_be_bytes();
    let magnitude = (value ^ (value >> 63)) as u64;
    let len = (64 - magnitude.leading_zeros() as usize) / 8 + 1;
    tlv(0x02, &octets[8 - len..])
}

/// A SEQUENCE of so many encodings.
pub fn sequence(count: usize, mut encoding: impl FnMut() -> Vec<u8>) -> Vec<u8> {
    let mut contents = Vec::new();
    for _ in 0..count {
        contents.extend(encoding());
    }
    tlv(0x30, &contents)
}

/// How many encodings stand in octets, at each depth.
pub fn count(octets: &[u8]) -> usize {
    let mut all = 0;
    let mut rest = octets;
    while !rest.is_empty() {
        let long = if rest[1] < 128 { 0 } else { (rest[1] - 128) as usize };
        let len = if long == 0 {
            rest[1] as usize
        } else {
            rest[2..2 + long].iter().fold(0, |n, octet| n << 8 | *octet as usize)
        };
        let contents = &rest[2 + long..2 + long + len];
        all += 1;
        if rest[0] & 0x20 != 0 {
            all += count(contents);
        }
        rest = &rest[2 + long + len..];
    }
    all
}

/// A tree of values of a mebibyte, up to seven deep.
pub fn tree() -> Vec<u8> {
    let mut numbers = Numbers::new(1);
    let mut contents = Vec::new();
    while contents.len() < (1 << 20) - 400 {
        contents.extend(branch(&mut numbers, 6));
    }
    tlv(0x30, &contents)
}

fn branch(numbers: &mut Numbers, depth: u64) -> Vec<u8> {
    if depth == 0 {
        return leaf(numbers);
    }
    let tag = if numbers.below(8) == 0 { 0x31 } else { 0x30 };
    let mut contents = Vec::new();
    for _ in 0..numbers.below(5) + 1 {
        let less = if depth > 1 { numbers.below(2) } else { 0 };
        contents.extend(branch(numbers, depth - 1 - less));
    }
    tlv(tag, &contents)
}

fn leaf(numbers: &mut Numbers) -> Vec<u8> {
    match numbers.below(6) {
        0 => integer(numbers.integer()),
        1 => octet_string(numbers),
        2 => utf8_string(numbers),
        3 => object_identifier(numbers),
        4 => tlv(0x01, &[0xff]),
        _ => tlv(0x05, &[]),
    }
}

/// An OCTET STRING of up to 47 octets.
pub fn octet_string(numbers: &mut Numbers) -> Vec<u8> {
    let len = numbers.below(48) as usize;
    tlv(0x04, &numbers.octets(len))
}

/// A BIT STRING of up to 31 octets, with unused bits.
pub fn bit_string(numbers: &mut Numbers) -> Vec<u8> {
    let len = numbers.below(32) as usize;
    let mut contents = vec![0];
    contents.extend(numbers.octets(len));
    if len > 0 {
        let unused = numbers.below(8) as u8;
        contents[0] = unused;
        contents[len] &= 0xff << unused;
    }
    tlv(0x03, &contents)
}

/// A UTF8String of up to 31 letters.
pub fn utf8_string(numbers: &mut Numbers) -> Vec<u8> {
    let len = numbers.below(32) as usize;
    tlv(0x0c, &numbers.text(b"abcdefghijklmnopqrstuvwxyz", len))
}

/// A PrintableString of 10 to 40 characters.
pub fn printable_string(numbers: &mut Numbers) -> Vec<u8> {
    let len = numbers.below(31) as usize + 10;
    tlv(0x13, &numbers.text(b"ABCDEFGHIJKLMNOPQRSTUVWXYZabcdefghijklmnopqrstuvwxyz0123456789 '()+,-./:=?", len))
}

/// An OBJECT IDENTIFIER of two to nine contents octets.
pub fn object_identifier(numbers: &mut Numbers) -> Vec<u8> {
    let mut contents = vec![0x2a];
    for _ in 0..numbers.below(8) + 1 {
        contents.push(numbers.below(127) as u8 + 1);
    }
    tlv(0x06, &contents)
}

/// A UTCTime of the years 1970 to 2049.
pub fn utc_time(numbers: &mut Numbers) -> Vec<u8> {
    let (year, month, day) = ((70 + numbers.below(80)) % 100, numbers.below(12) + 1, numbers.below(28) + 1);
    let (hour, minute, second) = (numbers.below(24), numbers.below(60), numbers.below(60));
    tlv(0x17, format!("{year:02}{month:02}{day:02}{hour:02}{minute:02}{second:02}Z").as_bytes())
}

/// A GeneralizedTime of the years 1970 to 2999.
pub fn generalized_time(numbers: &mut Numbers) -> Vec<u8> {
    let (year, month, day) = (1970 + numbers.below(1030), numbers.below(12) + 1, numbers.below(28) + 1);
    let (hour, minute, second) = (numbers.below(24), numbers.below(60), numbers.below(60));
    tlv(0x18, format!("{year:04}{month:02}{day:02}{hour:02}{minute:02}{second:02}Z").as_bytes())
}

/// An order of items.
#[derive(Clone, Copy, PartialEq)]
pub enum Order {
    Rising,
    Falling,
    Random,
}

fn ordered<T>(mut items: Vec<T>, order: Order) -> Vec<T> {
    match order {
        Order::Rising => {}
        Order::Falling => items.reverse(),
        Order::Random => {
            let mut numbers = Numbers::new(7);
            for i in (1..items.len()).rev() {
                items.swap(i, numbers.below(i as u64 + 1) as usize);
            }
        }
    }
    items
}

/// A SET of so many INTEGERs of two contents octets.
pub fn integer_set(count: usize, order: Order) -> Vec<u8> {
    let values = ordered((4096..4096 + count as i64).collect(), order);
    tlv(0x31, &values.into_iter().flat_map(integer).collect::<Vec<u8>>())
}

/// A SET of so many OCTET STRINGs of three octets.
pub fn octet_set(count: usize, order: Order) -> Vec<u8> {
    let values = ordered((0..count as u32).collect(), order);
    tlv(0x31, &values.into_iter().flat_map(|value| tlv(0x04, &value.to_be_bytes()[1..])).collect::<Vec<u8>>())
}

/// The certificates that the system trusts, several times over, up to a mebibyte; none where it has
/// none.
pub fn certificates() -> Option<Vec<u8>> {
    let all = each_certificate()?.concat();
    let times = (1 << 20) / all.len().max(1);
    (times > 0).then(|| tlv(0x30, &all.repeat(times)))
}

/// The certificates that the system trusts, each by itself.
pub fn each_certificate() -> Option<Vec<Vec<u8>>> {
    let mut paths: Vec<_> = std::fs::read_dir("/usr/share/ca-certificates/mozilla").ok()?.flatten().map(|entry| entry.path()).collect();
    paths.sort();
    paths.into_iter().map(|path| Some(from_base64(&std::fs::read_to_string(path).ok()?))).collect()
}

fn from_base64(text: &str) -> Vec<u8> {
    let (mut octets, mut bits, mut held) = (Vec::new(), 0, 0u32);
    for line in text.lines().filter(|line| !line.starts_with('-')) {
        for character in line.bytes().filter(|character| *character != b'=') {
            let digit = match character {
                b'A'..=b'Z' => character - b'A',
                b'a'..=b'z' => character - b'a' + 26,
                b'0'..=b'9' => character - b'0' + 52,
                b'+' => 62,
                _ => 63,
            };
            held = held << 6 | u32::from(digit);
            bits += 6;
            if bits >= 8 {
                bits -= 8;
                octets.push((held >> bits) as u8);
            }
        }
    }
    octets
}
