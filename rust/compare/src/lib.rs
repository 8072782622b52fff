//! The archive, through the crate gii-bch, and the reference: calls made to both, calls drawn from a seed, the time that
//! shortened sub-words and many pages in one call save, and those of an altered bit, of a mended sub-word and of a mended page.

pub mod call;
pub mod draw;
pub mod work;
