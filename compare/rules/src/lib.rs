//! The rules of document 01 as questions over plain numbers and bytes.
//! Each side of the comparison answers the trait `Rules`.

mod answer;
mod data;
mod declaration;
mod question;
mod random;
mod side;
mod vary;

pub use answer::*;
pub use data::*;
pub use declaration::fields;
pub use question::*;
pub use random::Random;
pub use side::*;
pub use vary::Vary;
