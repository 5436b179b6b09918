//! Two reference versions of the slope board library, and seeded inputs.
//!
//! [`naive`] is the judge: the library under test must answer as it does.
//! [`fast`] is what the library's times are held against, and is itself held
//! to the judge by the tests of this package.
//!
//! Every function of the two works on buffers of the caller. An error is the
//! number of a refusal; in that case no buffer has been changed.

pub mod boards;
pub mod expected;
pub mod fast;
pub mod gen;
pub mod halls;
pub mod handmade;
pub mod kept;
pub mod limits;
pub mod naive;
pub mod prices;
pub mod shapes;
pub mod typed;
pub mod worked;
