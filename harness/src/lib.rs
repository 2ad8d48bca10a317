//! An independent implementation of the plot unit, written from document 01 and the layouts of the
//! plan alone, and what the comparing and timing programs need around it.

pub mod generator;
pub mod guarded;
pub mod reference;
pub mod scenes;
pub mod wide;

#[cfg(feature = "border")]
pub mod border;
#[cfg(feature = "border")]
pub mod judge;
#[cfg(feature = "standin")]
pub mod standin;
