//! Pages of generalized integrated interleaved BCH (GII-BCH) codes: writing, altering, mending, reading out, judging,
//! syndromes, sizes.
//!
//! The work is done by `libgii_bch.a`, a library proved by machine. This crate is not proved: it links the archive, lends
//! it slices and gives its numbers names. A slice is never null, exactly as long as it says, and a mutable one overlaps no
//! other, which is all that the archive asks of its callers: no safe call here can break its rules.
//!
//! ```
//! use gii_bch::{Sheet, Verdict};
//!
//! let sheet = Sheet::new(4, 2, 1, [1, 2, 0, 0]);
//! let blocks = [0x01, 0x01, 0x00];
//! let mut page = vec![0; sheet.page_bytes()?];
//! sheet.write(64, &blocks, &mut page)?;
//! assert_eq!(page, [0xC2, 0x01, 0x13, 0x00]);
//!
//! let mut back = vec![0; sheet.data_bytes()?];
//! assert_eq!(sheet.read_out(&page, &mut back)?, Verdict::Member);
//! assert_eq!(back, blocks);
//!
//! page[0] ^= 1;
//! assert_eq!(sheet.judge(&page)?, Verdict::SubWord(0));
//! # Ok::<(), gii_bch::Refusal>(())
//! ```
//!
//! A page is *blank* when every stored coefficient of every sub-word is 1, whatever its spare bits are: so boards are
//! delivered, erased, every byte FF. A blank page is no member, and none is ever written.
//!
//! A sheet may be *shortened* by s, for chips with small pages: the top s coefficients of every sub-word are 0 and are not
//! stored, and every block has s data bits less. Check bits, syndromes and the distance stay those of the full sheet.
//!
//! ```
//! use gii_bch::{Sheet, Verdict};
//!
//! let sheet = Sheet::new(12, 4, 1, [4, 12, 0, 0]).shortened(3071);
//! assert_eq!((sheet.page_bytes()?, sheet.data_bytes()?), (512, 476));
//! let mut page = [0; 512];
//! sheet.write(64, &[0x55; 476], &mut page)?;
//! assert_eq!(sheet.judge(&page)?, Verdict::Member);
//! # Ok::<(), gii_bch::Refusal>(())
//! ```
//!
//! `build.rs` links the archive that the variable `GII_ARCHIVE` names (a path from `rust/`), or
//! `crates/gii_bch/out/libgii_bch.a` of the repository, which `rt lib` makes there. It is for x86-64 and takes at
//! most 128 KiB of stack for [`Sheet::write_many`], at most 64 KiB for [`Sheet::mend`], at most 96 KiB for
//! [`Sheet::mend_page`] and at most 32 KiB for every other call. Calls may run at once in several threads.

#![no_std]
#![deny(missing_docs)]

use core::array::from_fn;
use core::fmt;

/// Declares C functions, whose first eight parameters are those of the sheet.
macro_rules! c_functions {
    ($(fn $name:ident($($parameter:ident: $kind:ty),*);)*) => {
        mod c {
            unsafe extern "C" {
                $(pub fn $name(
                    q: u32, m: u32, v: u32, t0: u32, t1: u32, t2: u32, t3: u32, s: u32, $($parameter: $kind),*
                ) -> u32;)*
            }
        }
    };
}

c_functions! {
    fn gii_write(width: u32, blocks: *const u8, blocks_len: usize, page: *mut u8, page_len: usize);
    fn gii_write_many(
        width: u32, count: u32, blocks: *const u8, blocks_len: usize, pages: *mut u8, pages_len: usize, list: *mut u8,
        list_len: usize
    );
    fn gii_alter(page: *mut u8, page_len: usize, block: u32, bit: u32, value: u32);
    fn gii_mend(page: *mut u8, page_len: usize, index: u32, places: *mut u8, places_len: usize, flips: *mut u8);
    fn gii_mend_page(page: *mut u8, page_len: usize);
    fn gii_read_out(page: *const u8, page_len: usize, blocks: *mut u8, blocks_len: usize);
    fn gii_judge(page: *const u8, page_len: usize);
    fn gii_syndromes(page: *const u8, page_len: usize, index: u32, list: *mut u8, list_len: usize);
    fn gii_nested_syndromes(page: *const u8, page_len: usize, index: u32, list: *mut u8, list_len: usize);
    fn gii_all_syndromes(level: u32, odd: *const u8, odd_len: usize, list: *mut u8, list_len: usize);
    fn gii_quote(list: *mut u8, list_len: usize);
    fn gii_page_bytes();
    fn gii_data_bytes();
    fn gii_distance();
}

/// Calls a C function with the parameters of a sheet before the others, and gives its number.
macro_rules! call {
    ($name:ident, $sheet:expr $(, $argument:expr)*) => {{
        let &Sheet { q, m, v, t: [t0, t1, t2, t3], s } = $sheet;
        // Every pointer given below is a slice's, with its length, or that of one byte lent to be written.
        unsafe { c::$name(q, m, v, t0, t1, t2, t3, s $(, $argument)*) }
    }};
}

/// The parameters of a code. n is 2^q − 1.
#[derive(Clone, Copy, Debug, PartialEq, Eq, Hash)]
#[non_exhaustive]
pub struct Sheet {
    /// 4, 8 or 12: the field is GF(2^q).
    pub q: u32,
    /// The number of sub-words, v + 1 to 8.
    pub m: u32,
    /// 1 to 3: there are v + 1 levels of strength.
    pub v: u32,
    /// The strengths: 1 ≤ t_0 < t_1 ≤ .. ≤ t_v ≤ 64 and 2 t_v ≤ n − 1; those past t_v are 0.
    pub t: [u32; 4],
    /// The shortening: so many of the top coefficients of every sub-word are 0 and are not stored. 0 for full sub-words, at
    /// most n − w_v − 1.
    pub s: u32,
}

/// What a sheet comes to: the check bits and the data bits of its sub-words.
#[derive(Clone, Copy, Debug, PartialEq, Eq, Hash)]
pub struct Quote {
    /// The degrees w_0 to w_v of the generators; 0 past v.
    pub degrees: [u16; 4],
    /// The data bits of each block: n − s − w_(v−i) of block i for i < v, n − s − w_0 from i = v on; 0 past the last block.
    pub data_bits: [u16; 8],
}

/// Bytes of a quote: twelve numbers of two bytes.
pub const QUOTE_BYTES: usize = 24;

/// The most pages that [`Sheet::write_many`] writes in one call.
pub const COUNT_MAX: u32 = 16;

/// What the list of [`Sheet::mend`] holds behind the places that are flipped.
pub const NO_PLACE: u16 = 65535;

/// What a page was found to be.
#[derive(Clone, Copy, Debug, PartialEq, Eq, PartialOrd, Ord, Hash)]
pub enum Verdict {
    /// A member of the code.
    Member,
    /// This sub-word is the lowest that is no multiple of g_0.
    SubWord(u32),
    /// Every sub-word is a multiple of g_0; this nested word l is the lowest that is no multiple of g_(v−l).
    NestedWord(u32),
    /// Blank: every stored coefficient is 1, whatever the spare bits are.
    Blank,
}

/// Why a call was refused: the first of the conditions that it met, in the order in which they stand here, but that the
/// shortening comes after the clash and before the width, and a count of pages before the blocks. Every byte lent to it is
/// as it was.
#[derive(Clone, Copy, Debug, PartialEq, Eq, PartialOrd, Ord, Hash)]
#[non_exhaustive]
pub enum Refusal {
    /// q is not 4, 8 or 12.
    Field = 1,
    /// v or m is out of range.
    Shape = 2,
    /// A rule on the strengths is broken, or one past t_v is not 0.
    Strengths = 3,
    /// d × j is a multiple of n for some d below m and some j up to 2 t_v.
    Clash = 4,
    /// The width is not 1 to 64.
    Width = 5,
    /// The blocks' length is not exact.
    Blocks = 6,
    /// The page's length, or that of many pages, is not exact.
    Page = 7,
    /// A spare bit of the page, or an unused bit of the blocks, that is read is 1.
    Stray = 8,
    /// There is no such sub-word, nested word, block, bit or level; the value is above 1; or the count of pages is not 1 to
    /// 16.
    Index = 9,
    /// A list's length, or that of the places, is not exact.
    List = 10,
    /// The page would be blank: that of the blocks, where s is 0 and every data bit is 1, or the altered one.
    Blank = 13,
    /// s is above n − w_v − 1, so that some block would have no data bit.
    Shortening = 14,
    /// No multiple of g_0 with zeros in its top s places is within t_0 flips of the sub-word.
    Unmended = 15,
    /// The page cannot be mended through its nested words.
    UnmendedPage = 17,
}

const REFUSALS: [Refusal; 14] = [
    Refusal::Field,
    Refusal::Shape,
    Refusal::Strengths,
    Refusal::Clash,
    Refusal::Width,
    Refusal::Blocks,
    Refusal::Page,
    Refusal::Stray,
    Refusal::Index,
    Refusal::List,
    Refusal::Blank,
    Refusal::Shortening,
    Refusal::Unmended,
    Refusal::UnmendedPage,
];

const SUB_WORD: u32 = 32;
const NESTED_WORD: u32 = 64;
const BLANK: u32 = 96;

/// The archive's number by name.
fn answer(number: u32) -> Result<Verdict, Refusal> {
    match number {
        0 => Ok(Verdict::Member),
        SUB_WORD..=39 => Ok(Verdict::SubWord(number - SUB_WORD)),
        NESTED_WORD..=66 => Ok(Verdict::NestedWord(number - NESTED_WORD)),
        BLANK => Ok(Verdict::Blank),
        _ => match REFUSALS.into_iter().find(|refusal| refusal.number() == number) {
            Some(refusal) => Err(refusal),
            None => panic!("the archive answers {number}, which this version does not know"),
        },
    }
}

/// The answer of a call that judges nothing.
fn done(number: u32) -> Result<(), Refusal> {
    answer(number).map(|verdict| assert_eq!(verdict, Verdict::Member))
}

impl Verdict {
    /// The number of `enum gii_answer`: 0, 32 + i, 64 + l or 96.
    pub fn number(self) -> u32 {
        match self {
            Verdict::Member => 0,
            Verdict::SubWord(i) => SUB_WORD + i,
            Verdict::NestedWord(l) => NESTED_WORD + l,
            Verdict::Blank => BLANK,
        }
    }
}

impl Refusal {
    /// The number of `enum gii_answer`: 1 to 10, 13 to 15 or 17.
    pub fn number(self) -> u32 {
        self as u32
    }
}

impl fmt::Display for Verdict {
    fn fmt(&self, f: &mut fmt::Formatter) -> fmt::Result {
        match self {
            Verdict::Member => f.write_str("a member"),
            Verdict::SubWord(i) => write!(f, "sub-word {i} fails"),
            Verdict::NestedWord(l) => write!(f, "nested word {l} fails"),
            Verdict::Blank => f.write_str("blank"),
        }
    }
}

impl fmt::Display for Refusal {
    fn fmt(&self, f: &mut fmt::Formatter) -> fmt::Result {
        f.write_str(match self {
            Refusal::Field => "q is not 4, 8 or 12",
            Refusal::Shape => "v or m is out of range",
            Refusal::Strengths => "a rule on the strengths is broken",
            Refusal::Clash => "some d × j is a multiple of n",
            Refusal::Width => "the width is not 1 to 64",
            Refusal::Blocks => "the blocks' length is not exact",
            Refusal::Page => "the page's length is not exact",
            Refusal::Stray => "a spare or unused bit is 1",
            Refusal::Index => {
                "no such sub-word, nested word, block, bit or level, a value above 1, or not 1 to 16 pages"
            }
            Refusal::List => "the list's length is not exact",
            Refusal::Blank => "the page would be blank",
            Refusal::Shortening => "s leaves a block without data",
            Refusal::Unmended => "no multiple of g_0 within t_0 flips of the sub-word",
            Refusal::UnmendedPage => "the page cannot be mended through its nested words",
        })
    }
}

impl core::error::Error for Refusal {}

impl Sheet {
    /// These parameters, accepted or not, with full sub-words. The strengths past t_v are to be 0.
    pub const fn new(q: u32, m: u32, v: u32, t: [u32; 4]) -> Sheet {
        Sheet { q, m, v, t, s: 0 }
    }

    /// The same parameters with sub-words shortened by s, whatever they were shortened by before. A shortened page is the
    /// full one of blocks whose top s data bits are 0, without the top s coefficients of each sub-word.
    ///
    /// ```
    /// # use gii_bch::{Refusal, Sheet};
    /// let full = Sheet::new(4, 2, 1, [1, 2, 0, 0]);
    /// let sheet = full.shortened(5);
    /// assert_eq!(sheet.quote()?.data_bits[..2], [2, 6]);
    /// // 15 − 5 coefficients of a sub-word are stored, on two bytes, of which the top six bits are spare.
    /// let mut page = [0; 4];
    /// sheet.write(64, &[0x01, 0x01], &mut page)?;
    /// assert_eq!(page, [0xC2, 0x01, 0x13, 0x00]);
    ///
    /// // Of the 7 data bits of block 0 at least one is to stay.
    /// assert_eq!(full.shortened(6).test(), Ok(()));
    /// assert_eq!(full.shortened(7).test(), Err(Refusal::Shortening));
    /// # Ok::<(), gii_bch::Refusal>(())
    /// ```
    pub const fn shortened(self, s: u32) -> Sheet {
        Sheet { s, ..self }
    }

    /// Whether the parameters are accepted; else their refusal: field, shape, strengths, clash or shortening.
    pub fn test(&self) -> Result<(), Refusal> {
        self.quote().map(|_| ())
    }

    /// What the sheet comes to, in numbers. Refuses the parameters.
    ///
    /// ```
    /// # use gii_bch::{Refusal, Sheet};
    /// let quote = Sheet::new(12, 8, 3, [28, 32, 39, 58]).quote()?;
    /// assert_eq!(quote.degrees, [336, 384, 462, 690]);
    /// assert_eq!(quote.data_bits, [3405, 3633, 3711, 3759, 3759, 3759, 3759, 3759]);
    ///
    /// let quote = Sheet::new(12, 8, 3, [28, 32, 39, 58]).shortened(1900).quote()?;
    /// assert_eq!(quote.degrees, [336, 384, 462, 690]);
    /// assert_eq!(quote.data_bits, [1505, 1733, 1811, 1859, 1859, 1859, 1859, 1859]);
    ///
    /// let quote = Sheet::new(4, 2, 1, [1, 2, 0, 0]).quote()?;
    /// assert_eq!(quote.degrees, [4, 8, 0, 0]);
    /// assert_eq!(quote.data_bits, [7, 11, 0, 0, 0, 0, 0, 0]);
    ///
    /// // 3 × 5 is a multiple of 15.
    /// assert_eq!(Sheet::new(4, 4, 2, [1, 2, 3, 0]).quote(), Err(Refusal::Clash));
    /// # Ok::<(), gii_bch::Refusal>(())
    /// ```
    pub fn quote(&self) -> Result<Quote, Refusal> {
        let mut list = [0; QUOTE_BYTES];
        self.quote_into(&mut list)?;
        let number = |place: usize| u16::from_le_bytes([list[2 * place], list[2 * place + 1]]);
        Ok(Quote { degrees: from_fn(number), data_bits: from_fn(|i| number(4 + i)) })
    }

    /// The same as a list of [`QUOTE_BYTES`] bytes: the degrees, then the data bits, two bytes a number, low byte first;
    /// [`numbers`] reads them. Refuses the parameters, the list's length.
    ///
    /// ```
    /// # use gii_bch::{QUOTE_BYTES, Refusal, Sheet, numbers};
    /// let sheet = Sheet::new(4, 2, 1, [1, 2, 0, 0]);
    /// let mut list = [0xA5; QUOTE_BYTES];
    /// sheet.quote_into(&mut list)?;
    /// assert!(numbers(&list).eq([4, 8, 0, 0, 7, 11, 0, 0, 0, 0, 0, 0]));
    ///
    /// let mut short = [0xA5; QUOTE_BYTES - 1];
    /// assert_eq!(sheet.quote_into(&mut short), Err(Refusal::List));
    /// assert_eq!(short, [0xA5; QUOTE_BYTES - 1]);
    /// # Ok::<(), gii_bch::Refusal>(())
    /// ```
    pub fn quote_into(&self, list: &mut [u8]) -> Result<(), Refusal> {
        done(call!(gii_quote, self, list.as_mut_ptr(), list.len()))
    }

    /// A size that the archive gives: 0 stands for a refusal of the parameters, since no accepted ones have a size of 0.
    fn size(&self, size: u32) -> Result<usize, Refusal> {
        match size {
            0 => Err(self.test().expect_err("the archive gives a size of 0 to parameters that it accepts")),
            size => Ok(size as usize),
        }
    }

    /// Bytes of a page: m sub-words of (n − s) / 8, rounded up. Refuses the parameters.
    ///
    /// ```
    /// # use gii_bch::{Refusal, Sheet};
    /// assert_eq!(Sheet::new(12, 8, 3, [28, 32, 39, 58]).page_bytes(), Ok(4096));
    /// assert_eq!(Sheet::new(12, 8, 3, [28, 32, 39, 58]).shortened(1900).page_bytes(), Ok(2200)); // 8 × 275
    /// assert_eq!(Sheet::new(5, 2, 1, [1, 2, 0, 0]).page_bytes(), Err(Refusal::Field));
    /// ```
    pub fn page_bytes(&self) -> Result<usize, Refusal> {
        self.size(call!(gii_page_bytes, self))
    }

    /// Bytes of all blocks, each on whole bytes. Refuses the parameters.
    ///
    /// ```
    /// # use gii_bch::{Refusal, Sheet};
    /// assert_eq!(Sheet::new(12, 8, 3, [28, 32, 39, 58]).data_bytes(), Ok(3695));
    /// assert_eq!(Sheet::new(12, 8, 3, [28, 32, 39, 58]).shortened(1900).data_bytes(), Ok(1798));
    /// assert_eq!(Sheet::new(4, 1, 1, [1, 2, 0, 0]).data_bytes(), Err(Refusal::Shape));
    /// ```
    pub fn data_bytes(&self) -> Result<usize, Refusal> {
        self.size(call!(gii_data_bytes, self))
    }

    /// Two different members differ in at least so many bits: the smallest of (v + 1)(2 t_0 + 1) and b (2 t_(v−b+1) + 1) for
    /// b from 1 to v, whatever s is. Refuses the parameters.
    ///
    /// ```
    /// # use gii_bch::{Refusal, Sheet};
    /// assert_eq!(Sheet::new(12, 8, 3, [28, 32, 39, 58]).distance(), Ok(117)); // 2 × 58 + 1
    /// assert_eq!(Sheet::new(8, 4, 2, [4, 8, 16, 0]).distance(), Ok(27)); // 3 × (2 × 4 + 1)
    /// assert_eq!(Sheet::new(4, 2, 1, [2, 2, 0, 0]).distance(), Err(Refusal::Strengths));
    /// ```
    pub fn distance(&self) -> Result<usize, Refusal> {
        self.size(call!(gii_distance, self))
    }

    /// Data bits of block i, by the quote. Refuses the parameters, the index.
    pub fn block_bits(&self, i: u32) -> Result<usize, Refusal> {
        let quote = self.quote()?;
        if i >= self.m {
            return Err(Refusal::Index);
        }
        Ok(quote.data_bits[i as usize].into())
    }

    /// Bytes of the list of a sub-word's odd syndromes: t_0 numbers of two bytes.
    pub fn list_bytes(&self) -> Result<usize, Refusal> {
        self.test()?;
        Ok(2 * self.t[0] as usize)
    }

    /// Bytes of the list of nested word l's odd syndromes: t_(v−l) numbers of two bytes.
    pub fn nested_list_bytes(&self, l: u32) -> Result<usize, Refusal> {
        self.test()?;
        if l >= self.v {
            return Err(Refusal::Index);
        }
        Ok(2 * self.t[(self.v - l) as usize] as usize)
    }

    /// Bytes of the list of all syndromes of a level, 0 for a sub-word, v − l for nested word l: 2 t_level numbers of two
    /// bytes.
    pub fn all_bytes(&self, level: u32) -> Result<usize, Refusal> {
        self.test()?;
        if level > self.v {
            return Err(Refusal::Index);
        }
        Ok(4 * self.t[level as usize] as usize)
    }

    /// Bytes of the list of the places that [`Sheet::mend`] flips: t_0 numbers of two bytes.
    pub fn places_bytes(&self) -> Result<usize, Refusal> {
        self.test()?;
        Ok(2 * self.t[0] as usize)
    }

    /// The page of the blocks, check bits and all. `width` is the number of coefficients taken in a step, 1 to 64; it never
    /// alters a byte. Refuses the parameters, the width, both lengths, an unused bit of the blocks, blocks whose page would
    /// be blank: where s is 0, those whose data bits are all 1, and where s is above 0 none.
    ///
    /// ```
    /// # use gii_bch::{Refusal, Sheet, Verdict};
    /// let sheet = Sheet::new(4, 2, 1, [1, 2, 0, 0]);
    /// let mut page = [0xA5; 4];
    /// assert_eq!(sheet.write(64, &[0x7F, 0xFF, 0x07], &mut page), Err(Refusal::Blank));
    /// assert_eq!(page, [0xA5; 4]);
    ///
    /// sheet.write(64, &[0x7E, 0xFF, 0x07], &mut page)?;
    /// assert_eq!(sheet.judge(&page)?, Verdict::Member);
    ///
    /// let sheet = sheet.shortened(1);
    /// sheet.write(64, &[0x3F, 0xFF, 0x03], &mut page)?;
    /// assert_eq!(sheet.judge(&page)?, Verdict::Member);
    /// # Ok::<(), gii_bch::Refusal>(())
    /// ```
    pub fn write(&self, width: u32, blocks: &[u8], page: &mut [u8]) -> Result<(), Refusal> {
        done(call!(gii_write, self, width, blocks.as_ptr(), blocks.len(), page.as_mut_ptr(), page.len()))
    }

    /// The pages of `count` sets of blocks, 1 to [`COUNT_MAX`] of them: what as many calls of [`Sheet::write`] do, but what
    /// each of them would work out of the sheet is worked out once. The sets of blocks stand one behind another, and so do the
    /// pages. `list` has one byte for each page, the number that [`Sheet::write`] of it alone gives: 0, or 8
    /// ([`Refusal::Stray`]: an unused bit of its blocks), or 13 ([`Refusal::Blank`]: it would be blank). A page that is listed
    /// as 8 or 13 keeps its bytes, and the others are written.
    ///
    /// The call is done whatever is listed. It refuses the parameters, the width, the count (by [`Refusal::Index`]), and then
    /// the lengths: those of the blocks and of the pages are `count` times a single one, that of the list is `count`.
    ///
    /// ```
    /// # use gii_bch::{Refusal, Sheet};
    /// let sheet = Sheet::new(4, 2, 1, [1, 2, 0, 0]);
    /// let blocks = [
    ///     [0x01, 0x01, 0x00],
    ///     [0x81, 0x01, 0x00], // the top bit of a block of seven data bits
    ///     [0x7F, 0xFF, 0x07], // every data bit
    ///     [0x00, 0x01, 0x00],
    /// ];
    /// let (mut pages, mut list) = ([[0xA5; 4]; 4], [0xA5; 4]);
    /// sheet.write_many(64, 4, blocks.as_flattened(), pages.as_flattened_mut(), &mut list)?;
    /// assert_eq!(list, [0, 8, 13, 0]);
    /// assert_eq!(pages, [[0xC2, 0x01, 0x13, 0x00], [0xA5; 4], [0xA5; 4], [0x13, 0x00, 0x13, 0x00]]);
    ///
    /// // The count is a number of its own, and is looked at before the lengths.
    /// let refused = sheet.write_many(64, 17, blocks.as_flattened(), pages.as_flattened_mut(), &mut list);
    /// assert_eq!(refused, Err(Refusal::Index));
    /// let refused = sheet.write_many(64, 3, blocks.as_flattened(), pages.as_flattened_mut(), &mut list);
    /// assert_eq!(refused, Err(Refusal::Blocks));
    /// # Ok::<(), gii_bch::Refusal>(())
    /// ```
    pub fn write_many(
        &self,
        width: u32,
        count: u32,
        blocks: &[u8],
        pages: &mut [u8],
        list: &mut [u8],
    ) -> Result<(), Refusal> {
        done(call!(
            gii_write_many,
            self,
            width,
            count,
            blocks.as_ptr(),
            blocks.len(),
            pages.as_mut_ptr(),
            pages.len(),
            list.as_mut_ptr(),
            list.len()
        ))
    }

    /// Bit `bit` of block `block` of a stored page made `value`, 0 or 1, with the check bits that go with it: a member comes
    /// to be the page of its blocks with this bit altered, and no block is sent again. Where the bit has the value already, no
    /// byte changes; else the page of this bit alone is added, bit by bit modulo 2, to any page, member or not. Of the
    /// sub-words only number `block` and those below both `block` and v change, and but for the bit only their check bits.
    ///
    /// Refuses the parameters, the length, a spare bit anywhere in the page, blank or not, the block, the bit or the value (by
    /// [`Refusal::Index`]), a page that would be blank, even if the bit has the value already.
    ///
    /// ```
    /// # use gii_bch::{Refusal, Sheet};
    /// let sheet = Sheet::new(4, 2, 1, [1, 2, 0, 0]);
    /// let mut page = [0; 4];
    /// sheet.write(64, &[0x01, 0x01, 0x00], &mut page)?;
    /// sheet.alter(&mut page, 1, 9, 1)?;
    /// let mut altered = [0; 4];
    /// sheet.write(64, &[0x01, 0x01, 0x02], &mut altered)?;
    /// assert_eq!(page, altered);
    ///
    /// // Block 1 has eleven data bits; a bit is 0 or 1.
    /// assert_eq!(sheet.alter(&mut page, 1, 11, 0), Err(Refusal::Index));
    /// assert_eq!(sheet.alter(&mut page, 1, 10, 2), Err(Refusal::Index));
    /// assert_eq!(page, altered);
    ///
    /// // Every data bit but one is 1.
    /// sheet.write(64, &[0x7F, 0xFF, 0x03], &mut page)?;
    /// assert_eq!(sheet.alter(&mut page, 1, 10, 1), Err(Refusal::Blank));
    /// # Ok::<(), gii_bch::Refusal>(())
    /// ```
    pub fn alter(&self, page: &mut [u8], block: u32, bit: u32, value: u32) -> Result<(), Refusal> {
        done(call!(gii_alter, self, page.as_mut_ptr(), page.len(), block, bit, value))
    }

    /// Sub-word `index` of a stored page made a multiple of g_0 by at most t_0 flips: the only one, if there is one, that is 0
    /// in its top s places and differs from the sub-word in at most t_0 places. `places` comes to hold the places that are
    /// flipped, k for the coefficient of x^k, rising, two bytes a number, low byte first, and [`NO_PLACE`] behind them;
    /// [`numbers`] reads them; `flips`, how many they are. No byte of another sub-word changes. The other sub-words and the
    /// nested words are of no account: the page need be no member, before or afterwards.
    ///
    /// Refuses the parameters, the page's length, a spare bit anywhere in the page, blank or not, the index, the length of
    /// the places, which is [`Sheet::places_bytes`], a sub-word without such a multiple (by [`Refusal::Unmended`]).
    ///
    /// ```
    /// # use gii_bch::{NO_PLACE, Refusal, Sheet, numbers};
    /// let sheet = Sheet::new(8, 2, 1, [3, 5, 0, 0]);
    /// let mut page = [0; 64];
    /// sheet.write(64, &vec![0x35; sheet.data_bytes()?], &mut page)?;
    /// let written = page;
    ///
    /// // The coefficients of x^250 and x^9 of sub-word 1.
    /// page[32 + 31] ^= 0x04;
    /// page[32 + 1] ^= 0x02;
    /// let (mut places, mut flips) = ([0; 6], 0);
    /// sheet.mend(&mut page, 1, &mut places, &mut flips)?;
    /// assert_eq!(page, written);
    /// assert_eq!(flips, 2);
    /// assert!(numbers(&places).eq([9, 250, NO_PLACE]));
    ///
    /// // x^10 + x^7 + x^6 is a multiple of g_0, but its highest coefficient is not stored.
    /// let sheet = Sheet::new(4, 2, 1, [1, 2, 0, 0]).shortened(5);
    /// let (mut page, mut places, mut flips) = ([0xC0, 0x00, 0x00, 0x00], [0xA5; 2], 0xA5);
    /// assert_eq!(sheet.mend(&mut page, 0, &mut places, &mut flips), Err(Refusal::Unmended));
    /// assert_eq!((page, places, flips), ([0xC0, 0x00, 0x00, 0x00], [0xA5; 2], 0xA5));
    /// # Ok::<(), gii_bch::Refusal>(())
    /// ```
    pub fn mend(&self, page: &mut [u8], index: u32, places: &mut [u8], flips: &mut u8) -> Result<(), Refusal> {
        done(call!(gii_mend, self, page.as_mut_ptr(), page.len(), index, places.as_mut_ptr(), places.len(), flips))
    }

    /// A stored page made a member, also where up to v of its sub-words have more than t_0 faults. First every sub-word is
    /// mended as by [`Sheet::mend`]; b is how many could not be. While b is 1 to v there is a round, at level a = v − b + 1:
    /// from S_1 to S_(2 t_a) of nested words 0 to b − 1, of the page as the round finds it, those of the b unknown errors are
    /// worked out; each broken sub-word whose syndromes are those of an error of at most t_a stored places has these flipped.
    /// In the end the page is a member, though where a sub-word has more than t_0 faults it may be another than was written.
    ///
    /// Refuses the parameters, the length, a spare bit anywhere in the page, blank or not, a page of which no member comes so
    /// (by [`Refusal::UnmendedPage`]): more than v sub-words cannot be mended at first, a round mends none, or what comes of
    /// it is no member, or blank.
    ///
    /// ```
    /// # use gii_bch::{Refusal, Sheet};
    /// let sheet = Sheet::new(8, 4, 2, [4, 8, 16, 0]);
    /// let mut page = [0; 128];
    /// sheet.write(64, &vec![0x05; sheet.data_bytes()?], &mut page)?;
    /// let written = page;
    ///
    /// // 16 places of sub-word 0, 8 of sub-word 3, and one of sub-word 1.
    /// (0..16).for_each(|k| page[2 * k] ^= 0x10);
    /// (0..8).for_each(|k| page[96 + 3 * k] ^= 0x02);
    /// page[40] ^= 0x80;
    /// let damaged = page;
    /// sheet.mend_page(&mut page)?;
    /// assert_eq!(page, written);
    ///
    /// // A third sub-word with more than four faults.
    /// let mut worse = damaged;
    /// (0..8).for_each(|k| worse[64 + 3 * k] ^= 0x20);
    /// let before = worse;
    /// assert_eq!(sheet.mend_page(&mut worse), Err(Refusal::UnmendedPage));
    /// assert_eq!(worse, before);
    /// # Ok::<(), gii_bch::Refusal>(())
    /// ```
    pub fn mend_page(&self, page: &mut [u8]) -> Result<(), Refusal> {
        done(call!(gii_mend_page, self, page.as_mut_ptr(), page.len()))
    }

    /// The data bits of the page, member or not, blank or not, and what [`Sheet::judge`] gives for it. Nothing is corrected.
    /// Refuses the parameters, both lengths, a spare bit of a page that is not blank.
    ///
    /// ```
    /// # use gii_bch::{Sheet, Verdict};
    /// let sheet = Sheet::new(4, 2, 1, [1, 2, 0, 0]);
    /// let mut blocks = [0xA5; 3];
    /// // An erased page: every data bit is 1, and no spare bit comes with them.
    /// assert_eq!(sheet.read_out(&[0xFF; 4], &mut blocks)?, Verdict::Blank);
    /// assert_eq!(blocks, [0x7F, 0xFF, 0x07]);
    ///
    /// // So too where sub-words are shortened.
    /// assert_eq!(sheet.shortened(1).read_out(&[0xFF; 4], &mut blocks)?, Verdict::Blank);
    /// assert_eq!(blocks, [0x3F, 0xFF, 0x03]);
    /// # Ok::<(), gii_bch::Refusal>(())
    /// ```
    pub fn read_out(&self, page: &[u8], blocks: &mut [u8]) -> Result<Verdict, Refusal> {
        answer(call!(gii_read_out, self, page.as_ptr(), page.len(), blocks.as_mut_ptr(), blocks.len()))
    }

    /// Whether the page is a member of the code. Refuses the parameters, the length, a spare bit of a page that is not blank.
    ///
    /// What comes of a member by changes within w_v neighbouring coefficients of one sub-word, w_v being `degrees[v]` of the
    /// quote, is never a member; where s is 0 the coefficient of x^0 follows that of x^(n−1).
    ///
    /// ```
    /// # use gii_bch::{Refusal, Sheet, Verdict};
    /// let sheet = Sheet::new(4, 2, 1, [1, 2, 0, 0]);
    /// assert_eq!(sheet.judge(&[0xFF, 0xFF, 0xFF, 0xFF]), Ok(Verdict::Blank));
    /// assert_eq!(sheet.judge(&[0xFF, 0x7F, 0xFF, 0x7F]), Ok(Verdict::Blank));
    /// assert_eq!(sheet.judge(&[0xFE, 0x7F, 0xFF, 0x7F]), Ok(Verdict::SubWord(0)));
    /// assert_eq!(sheet.judge(&[0xFE, 0xFF, 0xFF, 0xFF]), Err(Refusal::Stray));
    /// ```
    pub fn judge(&self, page: &[u8]) -> Result<Verdict, Refusal> {
        answer(call!(gii_judge, self, page.as_ptr(), page.len()))
    }

    /// S_1, S_3, .., S_(2 t_0 − 1) of sub-word `index`, the odd ones alone, two bytes a number, low byte first; [`numbers`]
    /// reads them. The others are squares of these, which [`Sheet::all_syndromes`] gives. Refuses the parameters, the page's
    /// length, a spare bit anywhere in the page, blank or not, the index, the list's length, which is [`Sheet::list_bytes`].
    ///
    /// ```
    /// # use gii_bch::{Refusal, Sheet, numbers};
    /// let sheet = Sheet::new(4, 2, 1, [2, 3, 0, 0]);
    /// let mut list = vec![0; sheet.list_bytes()?];
    /// // The coefficient of x: α and α^3.
    /// sheet.syndromes(&[0x02, 0, 0, 0], 0, &mut list)?;
    /// assert!(numbers(&list).eq([2, 8]));
    ///
    /// // No longer list, as for all four.
    /// assert_eq!(sheet.syndromes(&[0x02, 0, 0, 0], 0, &mut [0; 8]), Err(Refusal::List));
    /// # Ok::<(), gii_bch::Refusal>(())
    /// ```
    pub fn syndromes(&self, page: &[u8], index: u32, list: &mut [u8]) -> Result<(), Refusal> {
        done(call!(gii_syndromes, self, page.as_ptr(), page.len(), index, list.as_mut_ptr(), list.len()))
    }

    /// S_1, S_3, .., S_(2 t_(v−l) − 1) of nested word l, l being `index`; else as [`Sheet::syndromes`].
    pub fn nested_syndromes(&self, page: &[u8], index: u32, list: &mut [u8]) -> Result<(), Refusal> {
        done(call!(gii_nested_syndromes, self, page.as_ptr(), page.len(), index, list.as_mut_ptr(), list.len()))
    }

    /// S_1, S_2, .., S_2t, t being t_level, from the list of the odd ones, S_1, S_3, ..: the level is 0 for the list of
    /// [`Sheet::syndromes`], v − l for that of [`Sheet::nested_syndromes`] of nested word l. S_2j is the square of S_j, as it is
    /// of every word. The odd ones are copied as they are given, all 16 bits; a number that is no element, 2^q or above, is
    /// squared as a polynomial modulo that of the field.
    ///
    /// Refuses the parameters, a level above v (by [`Refusal::Index`]), the lengths: 2 t bytes of `odd`, 4 t of `list`, which is
    /// [`Sheet::all_bytes`].
    ///
    /// ```
    /// # use gii_bch::{Refusal, Sheet, numbers};
    /// let sheet = Sheet::new(4, 2, 1, [1, 2, 0, 0]);
    /// let mut odd = vec![0; sheet.nested_list_bytes(0)?];
    /// sheet.nested_syndromes(&[0x02, 0, 0, 0], 0, &mut odd)?;
    /// assert!(numbers(&odd).eq([2, 8]));
    ///
    /// let mut list = vec![0; sheet.all_bytes(1)?];
    /// sheet.all_syndromes(1, &odd, &mut list)?;
    /// assert!(numbers(&list).eq([2, 4, 8, 3]));
    ///
    /// // Level 0 has one odd syndrome and two in all; there are levels 0 and 1.
    /// assert_eq!(sheet.all_syndromes(0, &odd, &mut list), Err(Refusal::List));
    /// assert_eq!(sheet.all_syndromes(2, &odd, &mut list), Err(Refusal::Index));
    /// # Ok::<(), gii_bch::Refusal>(())
    /// ```
    pub fn all_syndromes(&self, level: u32, odd: &[u8], list: &mut [u8]) -> Result<(), Refusal> {
        done(call!(gii_all_syndromes, self, level, odd.as_ptr(), odd.len(), list.as_mut_ptr(), list.len()))
    }
}

/// The numbers of a list: of syndromes, which are elements of GF(2^q), α being 2, of a quote, or of places.
///
/// ```
/// # use gii_bch::{Sheet, numbers};
/// let sheet = Sheet::new(4, 2, 1, [1, 2, 0, 0]);
/// let mut list = vec![0; sheet.nested_list_bytes(0)?];
/// sheet.nested_syndromes(&[0x02, 0, 0, 0], 0, &mut list)?;
/// assert!(numbers(&list).eq([2, 8]));
/// # Ok::<(), gii_bch::Refusal>(())
/// ```
pub fn numbers(list: &[u8]) -> impl Iterator<Item = u16> + '_ {
    list.chunks_exact(2).map(|pair| u16::from_le_bytes([pair[0], pair[1]]))
}
