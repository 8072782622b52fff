//! One call, made to the archive and to the reference: the numbers and every byte must agree.

use gii_bch::{Refusal, Sheet, Verdict};
use reference::{Parameters, calls, parameters};

#[derive(Clone, Copy, Debug, PartialEq, Eq, PartialOrd, Ord)]
pub enum Name {
    Write,
    WriteMany,
    Alter,
    Mend,
    MendPage,
    ReadOut,
    Judge,
    Syndromes,
    NestedSyndromes,
    AllSyndromes,
    Quote,
    PageBytes,
    DataBytes,
    Distance,
}

pub const NAMES: [Name; 14] = [
    Name::Write,
    Name::WriteMany,
    Name::Alter,
    Name::Mend,
    Name::MendPage,
    Name::ReadOut,
    Name::Judge,
    Name::Syndromes,
    Name::NestedSyndromes,
    Name::AllSyndromes,
    Name::Quote,
    Name::PageBytes,
    Name::DataBytes,
    Name::Distance,
];

impl Name {
    /// Whether the call gives a size in place of an answer.
    pub fn is_size(self) -> bool {
        matches!(self, Name::PageBytes | Name::DataBytes | Name::Distance)
    }

    /// Whether the call is given or lent a page, or pages: all but all syndromes, the quote and the sizes.
    pub fn has_page(self) -> bool {
        !matches!(self, Name::AllSyndromes | Name::Quote) && !self.is_size()
    }

    /// Whether the call reads the page that it is lent, and gives it back changed: alter, mend and mend page.
    pub fn changes_page(self) -> bool {
        matches!(self, Name::Alter | Name::Mend | Name::MendPage)
    }

    /// Whether the call is given bytes that are only read: all but alter, mend, mend page, the quote and the sizes.
    pub fn reads(self) -> bool {
        self.has_page() && !self.changes_page() || self == Name::AllSyndromes
    }

    /// Whether the call is lent bytes to write: all but judge and the sizes.
    pub fn writes(self) -> bool {
        self != Name::Judge && !self.is_size()
    }

    /// Whether the call is lent a list beside the page or the pages: write many and mend.
    pub fn lists(self) -> bool {
        matches!(self, Name::WriteMany | Name::Mend)
    }

    /// The number that a call gives where a condition is the first that it meets: the condition's, and no size.
    pub fn refused_by(self, condition: u32) -> u32 {
        if self.is_size() { 0 } else { condition }
    }

    /// Whether the number is a refusal of the call.
    pub fn refuses(self, number: u32) -> bool {
        if self.is_size() { number == 0 } else { (1..32).contains(&number) }
    }
}

#[derive(Clone)]
pub struct Call {
    pub name: Name,
    pub p: Parameters,
    /// The width of write and of write many, the block of alter, the index of mend and of syndromes, the level of all
    /// syndromes; of no meaning to the others.
    pub number: u32,
    /// The pages of write many; of no meaning to the others.
    pub count: u32,
    /// The bit and the value of alter; of no meaning to the others.
    pub bit: u32,
    pub value: u32,
    /// The bytes that are only read: the blocks of write and of write many, the odd list of all syndromes, else the page; none
    /// for alter, mend, mend page, the quote and the sizes.
    pub read: Vec<u8>,
    /// The bytes lent to be written: page or pages, blocks or list; none for judge and the sizes. Alter, mend and mend page
    /// read their page first.
    pub lent: Vec<u8>,
    /// The list of write many, or the places of mend, lent beside the pages or the page; none for the others.
    pub list: Vec<u8>,
    /// The byte for the number of flips of mend; of no meaning to the others.
    pub flips: u8,
}

/// What a call gives: its number, and what the lent buffers hold afterwards.
#[derive(Clone, Debug, PartialEq, Eq)]
pub struct Outcome {
    pub number: u32,
    pub lent: Vec<u8>,
    pub list: Vec<u8>,
    pub flips: u8,
}

/// The archive or the reference, to which a call is made on buffers in place of its own: `Call::by_archive`,
/// `Call::by_reference`.
pub type Side = fn(&Call, &[u8], &mut [u8], &mut [u8], &mut u8) -> u32;

impl Call {
    /// A call with one lent buffer and one number at most: any but write many, alter and mend.
    pub fn new(name: Name, p: &Parameters, number: u32, read: Vec<u8>, lent: Vec<u8>) -> Call {
        Call { name, p: *p, number, count: 0, bit: 0, value: 0, read, lent, list: Vec::new(), flips: 0 }
    }

    /// A call of alter.
    pub fn alter(p: &Parameters, page: Vec<u8>, block: u32, bit: u32, value: u32) -> Call {
        Call { bit, value, ..Call::new(Name::Alter, p, block, Vec::new(), page) }
    }

    /// A call of mend.
    pub fn mend(p: &Parameters, page: Vec<u8>, index: u32, places: Vec<u8>, flips: u8) -> Call {
        Call { list: places, flips, ..Call::new(Name::Mend, p, index, Vec::new(), page) }
    }

    /// A call of mend page.
    pub fn mend_page(p: &Parameters, page: Vec<u8>) -> Call {
        Call::new(Name::MendPage, p, 0, Vec::new(), page)
    }

    /// What the call gives where it is refused by this number: every byte stays.
    pub fn refused(&self, number: u32) -> Outcome {
        Outcome { number, lent: self.lent.clone(), list: self.list.clone(), flips: self.flips }
    }

    /// What the call gives, made to one side.
    pub fn outcome(&self, side: Side) -> Outcome {
        let mut outcome = self.refused(0);
        let Outcome { lent, list, flips, .. } = &mut outcome;
        outcome.number = side(self, &self.read, lent, list, flips);
        outcome
    }

    /// The call made to the reference, on buffers in place of the call's own.
    pub fn by_reference(&self, read: &[u8], lent: &mut [u8], list: &mut [u8], flips: &mut u8) -> u32 {
        let Call { name, p, number, count, bit, value, .. } = self;
        match name {
            Name::Write => calls::write(p, *number, read, lent),
            Name::WriteMany => calls::write_many(p, *number, *count, read, lent, list),
            Name::Alter => calls::alter(p, lent, *number, *bit, *value),
            Name::Mend => calls::mend(p, lent, *number, list, flips),
            Name::MendPage => calls::mend_page(p, lent),
            Name::ReadOut => calls::read_out(p, read, lent),
            Name::Judge => calls::judge(p, read),
            Name::Syndromes => calls::syndromes(p, read, *number, lent),
            Name::NestedSyndromes => calls::nested_syndromes(p, read, *number, lent),
            Name::AllSyndromes => calls::all_syndromes(p, *number, read, lent),
            Name::Quote => calls::quote(p, lent),
            Name::PageBytes => calls::page_bytes(p),
            Name::DataBytes => calls::data_bytes(p),
            Name::Distance => calls::distance(p),
        }
    }

    /// The call made to the archive, likewise.
    pub fn by_archive(&self, read: &[u8], lent: &mut [u8], list: &mut [u8], flips: &mut u8) -> u32 {
        let Call { name, p, number, count, bit, value, .. } = self;
        let sheet = sheet(p);
        let done = |()| Verdict::Member;
        let answer = |answer: Result<Verdict, Refusal>| answer.map_or_else(Refusal::number, Verdict::number);
        let size = |size: Result<usize, Refusal>| size.map_or(0, |size| size as u32);
        match name {
            Name::Write => answer(sheet.write(*number, read, lent).map(done)),
            Name::WriteMany => answer(sheet.write_many(*number, *count, read, lent, list).map(done)),
            Name::Alter => answer(sheet.alter(lent, *number, *bit, *value).map(done)),
            Name::Mend => answer(sheet.mend(lent, *number, list, flips).map(done)),
            Name::MendPage => answer(sheet.mend_page(lent).map(done)),
            Name::ReadOut => answer(sheet.read_out(read, lent)),
            Name::Judge => answer(sheet.judge(read)),
            Name::Syndromes => answer(sheet.syndromes(read, *number, lent).map(done)),
            Name::NestedSyndromes => answer(sheet.nested_syndromes(read, *number, lent).map(done)),
            Name::AllSyndromes => answer(sheet.all_syndromes(*number, read, lent).map(done)),
            Name::Quote => answer(sheet.quote_into(lent).map(done)),
            Name::PageBytes => size(sheet.page_bytes()),
            Name::DataBytes => size(sheet.data_bytes()),
            Name::Distance => size(sheet.distance()),
        }
    }

    /// Of a call that has listed odd syndromes: how all that the archive makes of them part from the sums of the word.
    fn all_part(&self, odd: &[u8]) -> Option<String> {
        if !matches!(self.name, Name::Syndromes | Name::NestedSyndromes) {
            return None;
        }
        let (sheet, index) = (parameters::Sheet::of(&self.p), self.number as usize);
        let (word, level) = match self.name {
            Name::Syndromes => (sheet.word_of(&self.read, index), 0),
            _ => (sheet.nested_word(&sheet.words_of(&self.read), index), sheet.v - index),
        };
        let mut guarded = Guarded::new(&vec![0xA5; 2 * odd.len()], 0);
        let answer = self::sheet(&self.p).all_syndromes(level as u32, odd, guarded.inner());
        let (whole, all) = (guarded.whole(), guarded.inner());
        // The odd ones are sums, since they agree.
        let mut even = vec![0; odd.len()];
        calls::put_values(&sheet, &word, (2..).step_by(2), &mut even);
        let sums: Vec<u8> = odd.chunks(2).zip(even.chunks(2)).flat_map(|(odd, even)| [odd, even].concat()).collect();
        let alike = whole && answer == Ok(()) && all == sums;
        (!alike).then(|| format!("lists {odd:02X?}, all from it, {answer:?}, are {all:02X?}, are to be {sums:02X?}"))
    }

    /// The outcome on which both sides agree, or how they part. `shift` moves the buffers in memory. Odd syndromes that agree
    /// are given back to the archive, and all that it makes of them must be sums of the word.
    pub fn compare(&self, shift: usize) -> Result<Outcome, String> {
        let expected = self.outcome(Call::by_reference);
        let mut read = Guarded::new(&self.read, shift % 16);
        let mut lent = Guarded::new(&self.lent, shift / 16 % 16);
        let mut list = Guarded::new(&self.list, (shift / 16 + shift) % 16);
        let mut flips = Guarded::new(&[self.flips], (shift / 16 + 2 * shift) % 16);
        let answer = self.by_archive(read.inner(), lent.inner(), list.inner(), &mut flips.inner()[0]);

        let found = if !(read.whole() && lent.whole() && list.whole() && flips.whole()) {
            "writes beside its buffer".to_string()
        } else if read.inner() != self.read {
            "alters the bytes that it reads".to_string()
        } else if answer != expected.number {
            format!("gives {answer}, the reference {}", expected.number)
        } else if let Some(k) = differ(lent.inner(), &expected.lent) {
            let (is, was, to_be) = (lent.inner()[k], self.lent[k], expected.lent[k]);
            format!("answers {answer}, byte {k} is {is:02X}, was {was:02X}, is to be {to_be:02X}")
        } else if let Some(k) = differ(list.inner(), &expected.list) {
            let (is, was, to_be) = (list.inner()[k], self.list[k], expected.list[k]);
            format!("answers {answer}, byte {k} of the list is {is}, was {was}, is to be {to_be}")
        } else if flips.inner() != [expected.flips] {
            let (is, was, to_be) = (flips.inner()[0], self.flips, expected.flips);
            format!("answers {answer}, flips are {is}, were {was}, are to be {to_be}")
        } else if let Some(part) = Some(lent.inner()).filter(|_| answer == 0).and_then(|odd| self.all_part(odd)) {
            part
        } else {
            return Ok(expected);
        };
        let Call { name, p, number, count, bit, value, .. } = self;
        let (read, lent, list) = (shown(&self.read), shown(&self.lent), shown(&self.list));
        let numbers = format!("width, block, index or level {number}, {count} pages, bit {bit}, value {value}");
        Err(format!("{name:?} {found}\n{p:?}, {numbers}\nread {read}\nlent {lent}\nlist {list}"))
    }
}

/// The first byte that is not the expected one.
fn differ(bytes: &[u8], expected: &[u8]) -> Option<usize> {
    (0..expected.len()).find(|&k| bytes[k] != expected[k])
}

/// The reference's parameters as the archive's.
pub fn sheet(p: &Parameters) -> Sheet {
    Sheet::new(p.q, p.m, p.v, p.t).shortened(p.s)
}

/// The length and the bytes, or the first of them.
fn shown(bytes: &[u8]) -> String {
    let rest = if bytes.len() > 64 { " .." } else { "" };
    format!("{} bytes: {:02X?}{rest}", bytes.len(), &bytes[..bytes.len().min(64)])
}

const GUARD: usize = 64;

/// Some bytes between guard bytes.
struct Guarded {
    bytes: Vec<u8>,
    start: usize,
    length: usize,
}

impl Guarded {
    fn new(inner: &[u8], shift: usize) -> Guarded {
        let start = GUARD + shift;
        let mut bytes: Vec<u8> = (0..start + inner.len() + GUARD).map(guard).collect();
        bytes[start..start + inner.len()].copy_from_slice(inner);
        Guarded { bytes, start, length: inner.len() }
    }

    fn inner(&mut self) -> &mut [u8] {
        &mut self.bytes[self.start..self.start + self.length]
    }

    fn whole(&self) -> bool {
        let end = self.start + self.length;
        (0..self.start).chain(end..self.bytes.len()).all(|k| self.bytes[k] == guard(k))
    }
}

fn guard(place: usize) -> u8 {
    (place * 73 + 41) as u8
}
