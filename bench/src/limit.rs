//! The limit: a loop written by hand over the octets, with the library's checks and nothing beside them. It has no error
//! that says what was wrong, and no order of faults.
//!
//! The checks are the known tags and whether they are constructed, the fewest octets of each length, the bounds, and the
//! contents octets of each field.

// What is read stands in fields at which nothing looks.
#![allow(dead_code)]

use std::hint::black_box;

/// Of each first octet whether it is a tag of one octet that is known.
static KNOWN: [bool; 256] = known();

const fn known() -> [bool; 256] {
    let primitive = [1usize, 2, 3, 4, 5, 6, 9, 10, 12, 13, 18, 19, 20, 21, 22, 23, 24, 25, 26, 27, 28, 30];
    let mut table = [false; 256];
    let mut i = 64;
    while i < 256 {
        table[i] = i & 31 != 31;
        i += 1;
    }
    let mut i = 0;
    while i < primitive.len() {
        table[primitive[i]] = true;
        i += 1;
    }
    table[0x30] = true;
    table[0x31] = true;
    table
}

/// Octets that are left to read.
#[derive(Clone, Copy)]
pub struct Span {
    at: *const u8,
    end: *const u8,
}

/// A value: its tag octet and its contents octets.
#[derive(Clone, Copy)]
pub struct Value {
    tag: u8,
    contents: Span,
}

impl Span {
    fn of(octets: &[u8]) -> Span {
        let range = octets.as_ptr_range();
        Span { at: range.start, end: range.end }
    }

    #[inline(always)]
    fn len(self) -> usize {
        self.end as usize - self.at as usize
    }

    #[inline(always)]
    fn is_empty(self) -> bool {
        self.at == self.end
    }

    /// The first octet, 0 where there is none.
    #[inline(always)]
    fn first(self) -> u8 {
        // SAFETY: an octet is there.
        if self.is_empty() { 0 } else { unsafe { *self.at } }
    }

    /// The octet at a place that is known to be there.
    #[inline(always)]
    unsafe fn octet(self, place: usize) -> u8 {
        unsafe { *self.at.add(place) }
    }

    /// The next value, behind which the octets are then.
    #[inline(always)]
    fn next(&mut self) -> Option<Value> {
        if self.len() < 2 {
            return None;
        }
        // SAFETY: two octets are there; `long` asks for more before it reads them, and what is skipped is there.
        unsafe {
            let (tag, short) = (self.octet(0), self.octet(1) as usize);
            if !KNOWN[tag as usize] {
                return None;
            }
            let (header, len) = if short < 128 { (2, short) } else { self.long(short)? };
            if header + len > self.len() {
                return None;
            }
            let contents = Span { at: self.at.add(header), end: self.at.add(header + len) };
            self.at = contents.end;
            Some(Value { tag, contents })
        }
    }

    /// The length of the header and of the contents octets, in the long form.
    #[inline(always)]
    unsafe fn long(self, short: usize) -> Option<(usize, usize)> {
        let octets = short & 0x7f;
        if octets == 0 || octets > 4 || self.len() < 2 + octets {
            return None;
        }
        let mut len = 0;
        for place in 0..octets {
            len = len << 8 | unsafe { self.octet(2 + place) } as usize;
        }
        let least = if octets == 1 { 128 } else { 1 << (8 * (octets - 1)) };
        if len < least { None } else { Some((2 + octets, len)) }
    }

    /// The contents octets of the next value, which is to have the tag.
    #[inline(always)]
    fn of_tag(&mut self, tag: u8) -> Option<Span> {
        let value = self.next()?;
        if value.tag == tag { Some(value.contents) } else { None }
    }

    /// The contents octets of the next value, where it has the tag.
    #[inline(always)]
    fn if_tag(&mut self, tag: u8) -> Option<Option<Span>> {
        if self.first() == tag { Some(Some(self.of_tag(tag)?)) } else { Some(None) }
    }

    /// Nothing is left.
    #[inline(always)]
    fn done(self) -> Option<()> {
        if self.is_empty() { Some(()) } else { None }
    }
}

fn walk_in(mut octets: Span) -> Option<usize> {
    let mut count = 0;
    while !octets.is_empty() {
        let value = octets.next()?;
        count += 1;
        if value.tag & 0x20 != 0 {
            count += walk_in(value.contents)?;
        }
    }
    Some(count)
}

/// How many values stand in the octets, at each depth.
pub fn walk(octets: &[u8]) -> usize {
    walk_in(Span::of(octets)).unwrap_or(0)
}

#[inline(always)]
fn integer(contents: Span) -> Option<Span> {
    // SAFETY: as many octets are there as are read.
    unsafe {
        match contents.len() {
            0 => None,
            1 => Some(contents),
            _ => {
                let (first, second) = (contents.octet(0), contents.octet(1));
                let is_longer = first == 0 && second < 128 || first == 255 && second >= 128;
                if is_longer { None } else { Some(contents) }
            }
        }
    }
}

#[inline(always)]
fn bits(contents: Span) -> Option<Span> {
    // SAFETY: as many octets are there as are read.
    unsafe {
        if contents.is_empty() || contents.octet(0) > 7 || contents.len() == 1 && contents.octet(0) != 0 {
            return None;
        }
        let unused = contents.octet(0);
        if contents.octet(contents.len() - 1) & !(0xff << unused) != 0 && unused != 0 { None } else { Some(contents) }
    }
}

/// An identifier of at most 39 octets, each part in its fewest.
#[inline(always)]
fn identifier(contents: Span) -> Option<Span> {
    if contents.is_empty() || contents.len() > 39 {
        return None;
    }
    let mut begins = true;
    for place in 0..contents.len() {
        // SAFETY: the place is within.
        let octet = unsafe { contents.octet(place) };
        if begins && octet == 0x80 {
            return None;
        }
        begins = octet < 0x80;
    }
    if begins { Some(contents) } else { None }
}

#[derive(Clone, Copy)]
pub struct Algorithm {
    pub id: Span,
    pub parameters: Option<Value>,
}

#[inline(always)]
fn algorithm_in(mut all: Span) -> Option<Algorithm> {
    let id = identifier(all.of_tag(6)?)?;
    let parameters = if all.is_empty() { None } else { Some(all.next()?) };
    all.done()?;
    Some(Algorithm { id, parameters })
}

fn algorithm(all: &mut Span) -> Option<Algorithm> {
    algorithm_in(all.of_tag(0x30)?)
}

#[inline(always)]
fn two(octets: Span, place: usize) -> Option<u32> {
    // SAFETY: the caller has asked for the length.
    let (high, low) = unsafe { (octets.octet(place).wrapping_sub(48), octets.octet(place + 1).wrapping_sub(48)) };
    if high > 9 || low > 9 { None } else { Some(high as u32 * 10 + low as u32) }
}

/// A UTCTime or a GeneralizedTime, as year, month, day, hour, minute and second in one number.
fn time_of(value: Value) -> Option<u64> {
    let (year, place) = match (value.tag, value.contents.len()) {
        (0x17, 13) => {
            let year = two(value.contents, 0)?;
            (if year >= 50 { 1900 + year } else { 2000 + year }, 2)
        }
        (0x18, 15) => (two(value.contents, 0)? * 100 + two(value.contents, 2)?, 4),
        _ => return None,
    };
    let part = |number: usize| two(value.contents, place + 2 * number);
    let (month, day, hour, minute, second) = (part(0)?, part(1)?, part(2)?, part(3)?, part(4)?);
    // SAFETY: the length was asked for.
    let end = unsafe { value.contents.octet(place + 10) };
    if end != b'Z' || !(1..=12).contains(&month) || hour > 23 || minute > 59 || second > 59 || year < 1970 {
        return None;
    }
    let leap = year % 4 == 0 && (year % 100 != 0 || year % 400 == 0);
    let days = [31, 28 + u32::from(leap), 31, 30, 31, 30, 31, 31, 30, 31, 30, 31][month as usize - 1];
    if day == 0 || day > days {
        return None;
    }
    let parts = [month, day, hour, minute, second];
    Some(parts.iter().fold(year as u64, |all, part| all << 8 | u64::from(*part)))
}

/// Extensions that are checked, of which there is one at least.
fn extensions(all: Span) -> Option<Span> {
    let mut rest = all;
    while !rest.is_empty() {
        let mut one = rest.of_tag(0x30)?;
        identifier(one.of_tag(6)?)?;
        if let Some(truth) = one.if_tag(1)? {
            // SAFETY: one octet is there.
            if truth.len() != 1 || unsafe { truth.octet(0) } != 0xff {
                return None;
            }
        }
        one.of_tag(4)?;
        one.done()?;
    }
    if all.is_empty() { None } else { Some(all) }
}

/// A name that is checked. A set of more than one item is to be in the order of its items' encodings.
fn check_name(mut all: Span) -> Option<()> {
    while !all.is_empty() {
        let mut set = all.of_tag(0x31)?;
        if set.is_empty() {
            return None;
        }
        let mut last: Option<&[u8]> = None;
        while !set.is_empty() {
            let begin = set.at;
            let mut one = set.of_tag(0x30)?;
            identifier(one.of_tag(6)?)?;
            one.next()?;
            one.done()?;
            // SAFETY: the item's octets.
            let octets = unsafe { std::slice::from_raw_parts(begin, set.at as usize - begin as usize) };
            if last.is_some_and(|last| last > octets) {
                return None;
            }
            last = Some(octets);
        }
    }
    Some(())
}

/// Each attribute of a name that was checked.
fn go_through(mut all: Span) -> Option<()> {
    while !all.is_empty() {
        let mut set = all.of_tag(0x31)?;
        while !set.is_empty() {
            let mut one = set.of_tag(0x30)?;
            black_box((one.of_tag(6)?, one.next()?));
        }
    }
    Some(())
}

pub struct Certificate {
    pub version: u8,
    pub serial: Span,
    pub algorithms: [Algorithm; 3],
    pub names: [Span; 2],
    pub times: [u64; 2],
    pub key: Span,
    pub identifiers: [Option<Span>; 2],
    pub extensions: Option<Span>,
    pub signature: Span,
}

fn version(all: &mut Span) -> Option<u8> {
    match all.if_tag(0xa0)? {
        Some(mut tagged) => {
            let number = integer(tagged.of_tag(2)?)?;
            tagged.done()?;
            // SAFETY: one octet is there.
            let octet = unsafe { number.octet(0) };
            if number.len() == 1 && (1..128).contains(&octet) { Some(octet) } else { None }
        }
        None => Some(0),
    }
}

fn tagged_extensions(all: &mut Span, tag: u8) -> Option<Option<Span>> {
    match all.if_tag(tag)? {
        Some(mut tagged) => {
            let list = tagged.of_tag(0x30)?;
            tagged.done()?;
            Some(Some(extensions(list)?))
        }
        None => Some(None),
    }
}

fn bits_if(all: &mut Span, tag: u8) -> Option<Option<Span>> {
    match all.if_tag(tag)? {
        Some(contents) => Some(Some(bits(contents)?)),
        None => Some(None),
    }
}

fn certificate_of(mut parts: Span) -> Option<Certificate> {
    let mut signed = parts.of_tag(0x30)?;
    let outer = algorithm(&mut parts)?;
    let signature = bits(parts.of_tag(3)?)?;
    parts.done()?;
    let version = version(&mut signed)?;
    let serial = integer(signed.of_tag(2)?)?;
    let inner = algorithm(&mut signed)?;
    let issuer = signed.of_tag(0x30)?;
    let mut validity = signed.of_tag(0x30)?;
    let times = [time_of(validity.next()?)?, time_of(validity.next()?)?];
    validity.done()?;
    let subject = signed.of_tag(0x30)?;
    let mut info = signed.of_tag(0x30)?;
    let of_key = algorithm(&mut info)?;
    let key = bits(info.of_tag(3)?)?;
    info.done()?;
    let identifiers = [bits_if(&mut signed, 0x81)?, bits_if(&mut signed, 0x82)?];
    let extensions = tagged_extensions(&mut signed, 0xa3)?;
    signed.done()?;
    let (algorithms, names) = ([outer, inner, of_key], [issuer, subject]);
    Some(Certificate { version, serial, algorithms, names, times, key, identifiers, extensions, signature })
}

fn whole(octets: &[u8]) -> Option<Span> {
    let mut all = Span::of(octets);
    let parts = all.of_tag(0x30)?;
    all.done()?;
    Some(parts)
}

/// A certificate whose names are checked.
fn checked(parts: Span) -> Option<Certificate> {
    let certificate = certificate_of(parts)?;
    for name in certificate.names {
        check_name(name)?;
    }
    Some(certificate)
}

/// Reads a certificate, and checks its names.
pub fn certificate(octets: &[u8]) -> usize {
    let read = || checked(whole(octets)?);
    usize::from(black_box(read()).is_some())
}

/// Reads a certificate, and goes through its names when they are checked.
pub fn certificate_names(octets: &[u8]) -> usize {
    let read = || {
        let certificate = checked(whole(octets)?)?;
        for name in certificate.names {
            go_through(name)?;
        }
        Some(certificate)
    };
    usize::from(black_box(read()).is_some())
}

/// Entries of a list of revoked certificates that are checked.
fn check_entries(mut all: Span) -> Option<()> {
    while !all.is_empty() {
        let mut one = all.of_tag(0x30)?;
        integer(one.of_tag(2)?)?;
        time_of(one.next()?)?;
        if let Some(list) = one.if_tag(0x30)? {
            extensions(list)?;
        }
        one.done()?;
    }
    Some(())
}

/// The entries of a list of revoked certificates, if it has some.
fn entries_of(octets: &[u8]) -> Option<Option<Span>> {
    let mut parts = whole(octets)?;
    let mut signed = parts.of_tag(0x30)?;
    black_box(algorithm(&mut parts)?);
    black_box(bits(parts.of_tag(3)?)?);
    parts.done()?;
    if let Some(version) = signed.if_tag(2)? {
        black_box(integer(version)?);
    }
    black_box(algorithm(&mut signed)?);
    check_name(signed.of_tag(0x30)?)?;
    black_box(time_of(signed.next()?)?);
    if matches!(signed.first(), 0x17 | 0x18) {
        black_box(time_of(signed.next()?)?);
    }
    let entries = signed.if_tag(0x30)?;
    if let Some(list) = entries {
        check_entries(list)?;
    }
    black_box(tagged_extensions(&mut signed, 0xa0)?);
    signed.done()?;
    Some(entries)
}

/// Reads a list of revoked certificates, and checks its entries.
pub fn revoked_checked(octets: &[u8]) -> usize {
    usize::from(black_box(entries_of(octets)).is_some())
}

/// Reads a list of revoked certificates, and goes through its entries when they are checked: how many there are.
pub fn revoked(octets: &[u8]) -> usize {
    let Some(Some(mut entries)) = entries_of(octets) else {
        return 0;
    };
    let mut count = 0;
    while let Some(mut one) = entries.of_tag(0x30) {
        black_box((one.of_tag(2), one.next(), one.if_tag(0x30)));
        count += 1;
    }
    count
}

fn integers(octets: &[u8]) -> Option<Vec<i64>> {
    let mut all = whole(octets)?;
    let mut list = Vec::new();
    // Eight contents octets are read at once as long as they are there.
    while all.len() >= 10 {
        // SAFETY: ten octets are there.
        let (tag, len, octets) = unsafe { (all.octet(0), all.octet(1) as usize, (all.at.add(2) as *const u64).read_unaligned()) };
        if tag != 2 || len == 0 || len > 8 {
            return None;
        }
        let number = octets.swap_bytes() as i64;
        if len > 1 && (number >> 55 == 0 || number >> 55 == -1) {
            return None;
        }
        list.push(number >> (64 - 8 * len));
        all.at = unsafe { all.at.add(2 + len) };
    }
    while !all.is_empty() {
        let contents = integer(all.of_tag(2)?)?;
        if contents.len() > 8 {
            return None;
        }
        // SAFETY: the places are within.
        let octet = |place| unsafe { contents.octet(place) };
        let first = i64::from(octet(0) as i8);
        list.push((1..contents.len()).fold(first, |all, place| all << 8 | i64::from(octet(place))));
    }
    Some(list)
}

/// Reads a SEQUENCE of INTEGERs that an i64 has room for.
pub fn read_i64(octets: &[u8]) -> usize {
    black_box(integers(octets)).map_or(0, |list| list.len())
}

fn len_of(value: i64) -> usize {
    (64 - (value ^ (value >> 63)).leading_zeros() as usize) / 8 + 1
}

/// Writes a SEQUENCE of these.
pub fn write_i64(values: &[i64]) -> Vec<u8> {
    let len: usize = values.iter().map(|value| 2 + len_of(*value)).sum();
    let mut octets = Vec::with_capacity(len + 16);
    octets.push(0x30);
    if len < 128 {
        octets.push(len as u8);
    } else {
        let (all, zeros) = ((len as u64).to_be_bytes(), (len as u64).leading_zeros() as usize / 8);
        octets.push(0x88 - zeros as u8);
        octets.extend_from_slice(&all[zeros..]);
    }
    // SAFETY: there is room for what `len` counts and for seven octets more.
    unsafe {
        let mut at = octets.as_mut_ptr().add(octets.len());
        for value in values {
            let len = len_of(*value);
            (at as *mut u16).write_unaligned(u16::from_le_bytes([2, len as u8]));
            (at.add(2) as *mut u64).write_unaligned(((*value as u64) << (64 - 8 * len)).swap_bytes());
            at = at.add(2 + len);
        }
        octets.set_len(at as usize - octets.as_ptr() as usize);
    }
    octets
}

/// The attributes of a signer, each with a set of any values.
fn check_attributes(mut all: Span) -> Option<()> {
    while !all.is_empty() {
        let mut one = all.of_tag(0x30)?;
        identifier(one.of_tag(6)?)?;
        let mut values = one.of_tag(0x31)?;
        one.done()?;
        while !values.is_empty() {
            values.next()?;
        }
    }
    Some(())
}

fn signer(mut one: Span) -> Option<[Span; 3]> {
    integer(one.of_tag(2)?)?;
    let mut identified = one.of_tag(0x30)?;
    check_name(identified.of_tag(0x30)?)?;
    let serial = integer(identified.of_tag(2)?)?;
    identified.done()?;
    algorithm(&mut one)?;
    let attributes = one.if_tag(0xa0)?.unwrap_or(Span { at: one.at, end: one.at });
    check_attributes(attributes)?;
    algorithm(&mut one)?;
    let signature = one.of_tag(4)?;
    if let Some(others) = one.if_tag(0xa1)? {
        check_attributes(others)?;
    }
    one.done()?;
    Some([serial, attributes, signature])
}

fn certificates(mut all: Span) -> Option<()> {
    while !all.is_empty() {
        black_box(checked(all.of_tag(0x30)?)?);
    }
    Some(())
}

fn signed_in(mut all: Span) -> Option<[Span; 2]> {
    integer(all.of_tag(2)?)?;
    let digests = all.of_tag(0x31)?;
    let mut rest = digests;
    while !rest.is_empty() {
        black_box(algorithm(&mut rest)?);
    }
    let mut content = all.of_tag(0x30)?;
    identifier(content.of_tag(6)?)?;
    if let Some(mut tagged) = content.if_tag(0xa0)? {
        tagged.of_tag(4)?;
        tagged.done()?;
    }
    content.done()?;
    if let Some(set) = all.if_tag(0xa0)? {
        certificates(set)?;
    }
    let signers = all.of_tag(0x31)?;
    all.done()?;
    let mut rest = signers;
    while !rest.is_empty() {
        black_box(signer(rest.of_tag(0x30)?)?);
    }
    Some([digests, signers])
}

/// Reads a message with SignedData, which has no list of revoked certificates.
pub fn signed(octets: &[u8]) -> usize {
    let read = || {
        let mut parts = whole(octets)?;
        identifier(parts.of_tag(6)?)?;
        let mut tagged = parts.of_tag(0xa0)?;
        parts.done()?;
        let all = tagged.of_tag(0x30)?;
        tagged.done()?;
        signed_in(all)
    };
    usize::from(black_box(read()).is_some())
}

fn explicit_time(all: &mut Span, tag: u8) -> Option<Option<u64>> {
    match all.if_tag(tag)? {
        Some(mut tagged) => {
            let time = time_of(tagged.next()?)?;
            tagged.done()?;
            Some(Some(time))
        }
        None => Some(None),
    }
}

/// The status of one certificate: its number and the times.
fn single(mut one: Span) -> Option<(Span, u64, Option<u64>)> {
    let mut identified = one.of_tag(0x30)?;
    algorithm(&mut identified)?;
    identified.of_tag(4)?;
    identified.of_tag(4)?;
    let serial = integer(identified.of_tag(2)?)?;
    identified.done()?;
    let status = one.next()?;
    match status.tag {
        0x80 | 0x82 => status.contents.done()?,
        0xa1 => {
            let mut revoked = status.contents;
            time_of(revoked.next()?)?;
            if let Some(mut reason) = revoked.if_tag(0xa0)? {
                integer(reason.of_tag(10)?)?;
                reason.done()?;
            }
            revoked.done()?;
        }
        _ => return None,
    }
    let this = time_of(one.next()?)?;
    let next = explicit_time(&mut one, 0xa0)?;
    black_box(tagged_extensions(&mut one, 0xa1)?);
    one.done()?;
    Some((serial, this, next))
}

fn basic(octets: Span) -> Option<Span> {
    let mut outer = octets;
    let mut all = outer.of_tag(0x30)?;
    outer.done()?;
    let mut data = all.of_tag(0x30)?;
    version(&mut data)?;
    let responder = data.next()?;
    let mut tagged = responder.contents;
    match responder.tag {
        0xa1 => check_name(tagged.of_tag(0x30)?)?,
        0xa2 => drop(tagged.of_tag(4)?),
        _ => return None,
    }
    tagged.done()?;
    black_box(time_of(data.next()?)?);
    let singles = data.of_tag(0x30)?;
    let mut rest = singles;
    while !rest.is_empty() {
        black_box(single(rest.of_tag(0x30)?)?);
    }
    black_box(tagged_extensions(&mut data, 0xa1)?);
    data.done()?;
    black_box(algorithm(&mut all)?);
    black_box(bits(all.of_tag(3)?)?);
    if let Some(mut tagged) = all.if_tag(0xa0)? {
        certificates(tagged.of_tag(0x30)?)?;
        tagged.done()?;
    }
    all.done()?;
    Some(singles)
}

/// Reads an answer of OCSP and the basic answer in it.
pub fn status(octets: &[u8]) -> usize {
    let read = || {
        let mut parts = whole(octets)?;
        integer(parts.of_tag(10)?)?;
        let mut tagged = parts.of_tag(0xa0)?;
        parts.done()?;
        let mut bytes = tagged.of_tag(0x30)?;
        tagged.done()?;
        identifier(bytes.of_tag(6)?)?;
        let response = bytes.of_tag(4)?;
        bytes.done()?;
        basic(response)
    };
    usize::from(black_box(read()).is_some())
}
