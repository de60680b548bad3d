//! A bootloader core that upgrades images which depend on each other as one transaction: every boot
//! starts the largest set of images that fit each other, wherever power fails.
//!
//! The decisions and each byte that is written are those of a proved library in C. This crate
//! compiles it (`build.rs`), and puts a [`Device`] over a [`NorFlash`] of yours. Nothing allocates,
//! and all buffers are the caller's.
//!
//! A loader boots, and starts the images:
//!
//! ```
//! use bootswap::{Boot, Device, Error, Memory, NorFlash, Setup};
//!
//! // Two images, whose slots have 32 and 16 sectors of 4 KiB. A trial has 3 boots.
//! const SETUP: Setup = Setup::new(4096, &[32, 16], 3);
//!
//! fn boot<F: NorFlash>(flash: F, copy: &mut [u8]) -> Result<Boot, Error<F::Error>> {
//!     let mut journal = [0; SETUP.boot_journal_length()];
//!     Device::open(SETUP, flash, Memory::copy(copy), &mut journal)?.boot()
//! }
//! ```
//!
//! An application takes uploads by [`Device::resume`], [`Device::accept`], [`Device::piece`] and
//! [`Device::finish`], and confirms images on trial by [`Device::confirm`]. [`Device`] has an
//! example of all of it.
//!
//! The library relies on what [`NorFlash`] says of a flash. Several threads may make calls at the
//! same time, on devices of their own: the library has no data that is written.
#![no_std]
#![forbid(unsafe_op_in_unsafe_fn)]
#![warn(missing_docs)]

mod device;
mod flash;
mod image;
pub mod journal;
mod library;
mod numbers;
mod setup;
#[allow(missing_docs)]
mod sys;
mod text;
mod values;

/// The examples of README.md, which `cargo test` runs.
#[cfg(doctest)]
#[doc = include_str!("../README.md")]
struct ReadmeExamples;

pub use device::Device;
pub use flash::{MappedFlash, Memory, MemoryFault, MemoryFlash, NorFlash};
pub use image::{describe, digest, make_image};
pub use image::{Description, ImageParts, NotMade, Side, SlotError};
pub use numbers::{Fault, ImageFault, ManifestFault, Phase, Reason, Status, UploadFault};
pub use setup::Setup;
pub use sys::{Dependency, Group, Refusal, Version};
pub use sys::{MAX_ALTERNATIVES, MAX_DEPENDENCIES, MAX_GROUPS, MAX_IMAGES};
pub use text::{check, check_in, choose, choose_in};
pub use text::{TextError, Workspace, MAX_REPORT_LENGTH, MAX_TABLE_LENGTH};
pub use values::{Boot, Component, Decision, Error, Images, Request, State, Texts};
