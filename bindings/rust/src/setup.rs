//! How a device is set up.

use crate::{journal, sys};

/// The sizes of a device: its sectors, the slots of its images, and the boots of a trial.
///
/// The loader and the application have the same. As a constant it also gives the lengths of
/// buffers:
///
/// ```
/// use bootswap::Setup;
///
/// const SETUP: Setup = Setup::new(4096, &[32, 16], 3);
/// static JOURNAL: [u8; SETUP.boot_journal_length()] = [0; SETUP.boot_journal_length()];
///
/// assert_eq!(SETUP.map_length(), 416 * 1024);
/// assert_eq!(JOURNAL.len(), 4744);
/// assert_eq!(SETUP.primary_slot_at(1), Some(33 * 4096));
/// ```
#[derive(Clone, Copy, Debug, PartialEq, Eq)]
pub struct Setup(pub(crate) sys::Setup);

impl Setup {
    /// A device whose sectors have `sector_size` bytes, a multiple of 64 from 512 to 131072. The
    /// two slots of image i have `sectors[i]` sectors each, for 1 to 8 images. A set of images on
    /// trial has `trial_boots` boots to be confirmed, 1 to 7.
    ///
    /// The sizes are checked by each call: they return [`Status::NoMap`](crate::Status::NoMap) or
    /// [`Status::NoTrial`](crate::Status::NoTrial) if they are wrong.
    pub const fn new(sector_size: u32, sectors: &[u32], trial_boots: u32) -> Self {
        let mut copy = [0; sys::MAX_IMAGES];
        let mut image = 0;
        while image < sectors.len() && image < sys::MAX_IMAGES {
            copy[image] = sectors[image];
            image += 1;
        }
        Self(sys::Setup {
            sector_size,
            images: sectors.len() as u32,
            sectors: copy,
            trial_boots,
            vendor: [0; 16],
            class_id: [0; 16],
        })
    }

    /// Returns the length of a sector in bytes.
    pub const fn sector_size(&self) -> usize {
        self.0.sector_size as usize
    }

    /// Returns the number of images.
    pub const fn images(&self) -> usize {
        self.0.images as usize
    }

    /// Returns the number of boots of a trial.
    pub const fn trial_boots(&self) -> u32 {
        self.0.trial_boots
    }

    /// Returns the number of sectors of each slot of an image. It is 0 if there is no such image.
    pub const fn sectors(&self, image: usize) -> usize {
        if image < sys::MAX_IMAGES {
            self.0.sectors[image] as usize
        } else {
            0
        }
    }

    /// Returns the address of an image's primary slot, in bytes from the first byte of the map on,
    /// or `None` if there is no such image.
    pub const fn primary_slot_at(&self, image: usize) -> Option<usize> {
        if image >= self.images() {
            return None;
        }
        let (mut sectors, mut before) = (0usize, 0);
        while before < image {
            sectors = self.sectors(before).saturating_add(1).saturating_add(sectors);
            before += 1;
        }
        Some(self.sector_size().saturating_mul(sectors))
    }

    /// Returns the length of the map in bytes: two slots for each image, each followed by a sector
    /// for its trailer, a sector of scratch and three for the log.
    pub const fn map_length(&self) -> usize {
        let (mut sectors, mut image) = (4usize, 0);
        while image < self.images() {
            sectors =
                self.sectors(image).saturating_add(1).saturating_mul(2).saturating_add(sectors);
            image += 1;
        }
        self.sector_size().saturating_mul(sectors)
    }

    /// Returns the length in bytes of the journal for a boot: [`journal::boot`] of these sizes. For
    /// [`provision`](crate::Device::provision), [`finish`](crate::Device::finish),
    /// [`withdraw`](crate::Device::withdraw) and [`confirm`](crate::Device::confirm) it is enough
    /// too.
    pub const fn boot_journal_length(&self) -> usize {
        journal::boot(self.images(), self.sector_size())
    }
}
