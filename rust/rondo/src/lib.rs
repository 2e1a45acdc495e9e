//! Time series in ring slabs, in bytes that you lend.
//!
//! A [`Store`] is one block of bytes, the image, and one number of flags. A [`Plan`] says what it holds: schemas of some series
//! each, and for each schema tiers, such as seconds for two hours and minutes for a day. Values are recorded in the finest tier;
//! [`Store::consolidate`] makes the coarser ones; queries read any of them; [`Store::panel`] has the last point as a whole number,
//! [`Store::service`] in full. A [`View`] reads an image that nothing may change, such as one in flash. Times are nanoseconds from
//! where you like.
//!
//! This crate is a thin safe face. The work is done by librondo.a, a library in which every call is proved to do what its
//! definition says, on every input: any bytes may be lent, and each call answers, or refuses with one [`Refusal`]. It allocates
//! nothing and keeps nothing, and this crate needs neither `std` nor `alloc`.
//!
//! ```
//! use core::time::Duration;
//! use rondo::{ConsolidationFn, Plan, SeriesHandle, Store, TierConfig, nanos};
//!
//! // one series: seconds for two hours, minutes for a day
//! let plan = Plan::new().schema(1, 7, &[
//!     TierConfig::new(Duration::from_secs(1), Duration::from_secs(7200), None),
//!     TierConfig::new(Duration::from_secs(60), Duration::from_secs(86_400), Some(ConsolidationFn::Average)),
//! ]);
//! let mut image = [0; 138_536];
//! assert_eq!(plan.image_size()?, image.len() as u64);
//! let mut store = Store::create(&plan, &mut image)?;
//!
//! // an hour of seconds
//! let offset = SeriesHandle::new(0, 0);
//! for second in 3600..7200 {
//!     store.record(offset, (second % 60) as f64, nanos(Duration::from_secs(second)))?;
//! }
//!
//! // its minutes
//! assert_eq!(store.consolidate()?, 60);
//! let minutes = store.query(offset, 1, 0, u64::MAX)?;
//! assert_eq!(minutes.points().count(), 60);
//! for (stamp, mean) in minutes {
//!     assert_eq!(stamp % 60_000_000_000, 0);
//!     assert_eq!(mean, 29.5);
//! }
//! # Ok::<(), rondo::Refusal>(())
//! ```

#![no_std]
#![deny(missing_docs)]
#![deny(unsafe_code)]

#[cfg(not(all(target_arch = "x86_64", any(target_os = "linux", target_os = "none"))))]
compile_error!("librondo.a is for x86-64 Linux");

#[allow(unsafe_code)]
mod calls;
mod figure;
mod plan;
mod query;
mod refusal;
mod store;
mod view;

pub use figure::ServiceFigure;
pub use plan::{ConsolidationFn, MAX_SCHEMAS, MAX_TIERS, Plan, TierConfig, nanos};
pub use query::{Points, QueryResult};
pub use refusal::Refusal;
pub use store::{Entry, SeriesHandle, Store};
pub use view::{TierInfo, Tiers, View};
