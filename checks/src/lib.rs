//! Evidence beside the proofs: the papers' rules over fractions, written from
//! the papers alone, to be held against the library through its C interface.
//! "SPEC n.m" in the comments is the paragraph of docs/SPEC.md with the same
//! subject; no code here was made from it.

pub mod bar;
pub mod big;
pub mod branch;
pub mod bundle;
pub mod call;
pub mod fraction;
pub mod generate;
pub mod grade;
pub mod layout;
#[cfg(feature = "library")]
pub mod library;
pub mod list;
pub mod log;
pub mod plain;
pub mod random;
pub mod rules;
pub mod section;
pub mod solver;
pub mod steer;
pub mod table;
pub mod trial;

use call::{difference, Call, Outcome};

pub type Version = fn(&Call) -> Outcome;

/// What is held against the rules: the quick version, and the library where it is linked.
pub const VERSIONS: &[(&str, Version)] = &[
    ("plain", call::plain),
    #[cfg(feature = "library")]
    ("library", library::call),
];

/// What the rules ask of a call. Panics where a version leaves something else.
pub fn agreed(call: &Call) -> Outcome {
    let wanted = rules::call(call);
    for (name, version) in VERSIONS {
        if let Some(text) = difference(&wanted, &version(call)) {
            panic!("{name} differs from the rules\n{call}{text}");
        }
    }
    wanted
}
