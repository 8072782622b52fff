//! Another encoder for the pages of the requirement (docs/REQUIREMENT.md), to compare the proved library with.
//!
//! It is written from the definitions and takes none of the library's ways:
//!
//! - a generator is the least common multiple of the minimal polynomials of α^1 to α^2t, a minimal polynomial the first
//!   that vanishes when all are tried;
//! - a page is found from values at the roots: for each root a small linear system over GF(2^q) gives the values of the
//!   sub-words, and check bits are had back from values by an inverted matrix (`encode`); a second encoder solves all
//!   linear conditions of the code at once, every check bit an unknown (`elimination`);
//! - a word is judged by its values at the roots, a nested word is formed by turning, refusals are a list of conditions;
//! - a shortened sub-word is a full one, of n coefficients, of which a page has the lower n − s;
//! - that blocks are refused because their page would be blank is seen from the page, which is made first, and so it is of
//!   an altered page, which is the lent one with the page of one data bit added;
//! - a sub-word is mended by Peterson's decoder: a linear system over GF(2^q) gives the locator, every place is tried in it,
//!   and what comes of it is divided by g_0; at q = 4 all flips of all multiples are tried beside it (`decode`);
//! - a page is mended by rounds: at each root a linear system over GF(2^q), solved by elimination, gives the values of the
//!   errors, and the same decoder their places; whether a member comes of it is asked of the judge (`rounds`);
//! - a syndrome is the sum of the α^(jk), odd or even j; all from the odd ones are squares, the bits moved apart and divided
//!   by the field's polynomial.
//!
//! `calls` has the fourteen C calls by these means; a degree is a generator's length less one. `sample` draws inputs from a seed.

pub mod calls;
pub mod decode;
pub mod elimination;
pub mod encode;
pub mod field;
pub mod generator;
pub mod layout;
pub mod linear;
pub mod parameters;
pub mod rounds;
pub mod sample;

pub use parameters::Parameters;
