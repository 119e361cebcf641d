//! The port, as its static libraries export it, behind safe functions; what the comparing programs share; and GEOS to
//! measure against. A Rattle slice passes as a pointer and a length.

pub mod damage;
pub mod firmware;
#[cfg(feature = "geos")]
pub mod geos;
pub mod harness;
pub mod series;
pub mod sheet;

use compare::judge::Kind;

pub const KINDS: [Kind; 2] = [Kind::Closed, Kind::Open];
