//! The numbers of `bootswap.h` as enums. `tests/header.rs` compares each with the header.

use core::fmt;

/// Makes an enum of numbers and their names, as `bootswap_names.h` has them.
macro_rules! numbers {
    ($(#[$about:meta])* $kind:ident {
        $($(#[$doc:meta])* $variant:ident = $number:literal, $name:literal;)*
    }) => {
        $(#[$about])*
        #[derive(Clone, Copy, Debug, PartialEq, Eq, Hash)]
        #[non_exhaustive]
        #[repr(u32)]
        pub enum $kind {
            $($(#[$doc])* $variant = $number,)*
        }

        impl $kind {
            /// Returns the value that `bootswap.h` gives this number, or `None` if it gives none.
            pub const fn from_number(number: u32) -> Option<Self> {
                match number {
                    $($number => Some(Self::$variant),)*
                    _ => None,
                }
            }

            /// Returns the number, as `bootswap.h` has it.
            pub const fn number(self) -> u32 {
                self as u32
            }

            /// Returns the name, as `bootswap_names.h` has it and the program prints it.
            pub const fn name(self) -> &'static str {
                match self {
                    $(Self::$variant => $name,)*
                }
            }
        }

        impl fmt::Display for $kind {
            fn fmt(&self, to: &mut fmt::Formatter<'_>) -> fmt::Result {
                to.write_str(self.name())
            }
        }
    };
}

numbers! {
    /// What a call of the library returns (`enum bootswap_status`). The calls of this crate return
    /// values, so only those that say why no call was made appear, in
    /// [`Error::NotMade`](crate::Error::NotMade).
    Status {
        /// Done, the bytes are an intact image, or the report is right.
        Done = 0, "done";
        /// The device booted, and decided what runs.
        Booted = 1, "booted";
        /// It booted, and the old images of a set on trial run again.
        Reverted = 2, "reverted";
        /// It booted, and the set on trial is tried again.
        TrialAgain = 3, "trial-again";
        /// The call is refused.
        Refused = 4, "refused";
        /// The journal is too short: the device isn't booted.
        Cut = 5, "cut";
        /// No map has the setup's sizes.
        NoMap = 16, "no-map";
        /// A trial has 1 to 7 boots.
        NoTrial = 17, "no-trial";
        /// The flash isn't whole sectors, is shorter than the map, or has 2^32 bytes or more.
        NoFlash = 18, "no-flash";
        /// There is no such image, or no such side of it.
        NoImage = 19, "no-image";
        /// More than 8 components.
        TooMany = 20, "too-many";
        /// The flash has no log of a device.
        NoLog = 21, "no-log";
        /// The text is no table.
        NoTable = 24, "no-table";
        /// The text is no report.
        NoReport = 25, "no-report";
        /// The running images of the table don't fit each other.
        InvalidSet = 26, "invalid-set";
        /// The report isn't right for the table.
        Wrong = 27, "wrong";
        /// The buffer is too small for the text or the image.
        TooSmall = 28, "too-small";
        /// No image has the values.
        BadImage = 29, "bad-image";
    }
}

numbers! {
    /// Why a manifest is refused (`enum bootswap_manifest_fault`).
    /// [`accept`](crate::Device::accept) returns `BadValue` if there is no component, and
    /// `NoComponent` or `RepeatedComponent`. The others are of the reader of manifests as JSON,
    /// which this crate doesn't have.
    ManifestFault {
        /// The bytes aren't the JSON text of a value.
        NotJson = 1, "NotJson";
        /// A key is missing, or isn't known.
        BadKey = 2, "BadKey";
        /// A value that its key doesn't allow, or no component.
        BadValue = 3, "BadValue";
        /// The manifest is for devices of another vendor.
        WrongVendor = 4, "WrongVendor";
        /// The manifest is for devices of another class.
        WrongClass = 5, "WrongClass";
        /// A component is for an image that the device lacks.
        NoComponent = 6, "NoComponent";
        /// The device has each image, and two components are for the same one.
        RepeatedComponent = 7, "RepeatedComponent";
        /// The memory is too short for the text.
        NoMemory = 8, "NoMemory";
    }
}

numbers! {
    /// The first check of an image that fails.
    ImageFault {
        /// Fewer than 32 bytes.
        Short = 1, "Short";
        /// The header has another magic number.
        BadMagic = 2, "BadMagic";
        /// The length of the header is below 32.
        BadHeaderSize = 3, "BadHeaderSize";
        /// A flag is set that isn't accepted.
        UnsupportedFlags = 4, "UnsupportedFlags";
        /// The bytes end before a part does.
        Truncated = 5, "Truncated";
        /// An area begins with another magic number.
        BadTlvMagic = 6, "BadTlvMagic";
        /// The total of an area isn't the header's, is below 4, or isn't filled by its entries.
        BadTlvSize = 7, "BadTlvSize";
        /// There is no digest entry.
        NoDigest = 8, "NoDigest";
        /// There are two digest entries or more.
        TwoDigests = 9, "TwoDigests";
        /// The digest entry isn't the SHA-256, or isn't 32 bytes long.
        BadDigest = 10, "BadDigest";
        /// An entry of a dependency, or of a group of alternatives, has another length or form.
        BadDependency = 11, "BadDependency";
        /// More than 16 dependencies.
        TooManyDependencies = 12, "TooManyDependencies";
        /// Bytes follow the image.
        TrailingBytes = 13, "TrailingBytes";
        /// A counter isn't 4 bytes long, or there are two.
        BadCounter = 14, "BadCounter";
        /// More than 4 groups of alternatives.
        TooManyGroups = 15, "TooManyGroups";
    }
}

numbers! {
    /// Why a boot doesn't take a request (`reason` of a `struct bootswap_refusal`).
    Reason {
        /// The requested image is damaged.
        Damaged = 1, "damaged";
        /// It is older than the running one.
        Older = 2, "older";
        /// Its security counter is below the floor.
        Counter = 3, "counter";
        /// It needs an image that the device lacks.
        NoSuchImage = 4, "no-such-image";
        /// It needs a version of an image that isn't there.
        Needs = 5, "needs";
        /// It needs one of several images, and none of them is there.
        NeedsOne = 6, "needs-one";
    }
}

numbers! {
    /// The phase of an upgrade, as the log of a flash has it (`kind` of a `struct bootswap_state`).
    Phase {
        /// No upgrade is in progress.
        Steady = 1, "steady";
        /// The images of a set are swapped in.
        Swap = 2, "swap";
        /// They are swapped, and what was requested is cleared.
        Settle = 3, "settle";
        /// The set is on trial.
        Trial = 4, "trial";
        /// The old images of the set are swapped back.
        Back = 5, "back";
        /// They are swapped back, and the trailers are cleared.
        BackSettle = 6, "back-settle";
    }
}

/// Why a call is refused (`enum bootswap_fault`). If several faults apply, the lowest number is
/// reported. A refused call changes nothing, except that some of [`UploadFault`] close the upload.
#[derive(Clone, Copy, Debug, PartialEq, Eq, Hash)]
#[non_exhaustive]
pub enum Fault {
    /// 1: The device isn't booted.
    NotBooted,
    /// 2: A set of images is on trial.
    OnTrial,
    /// 3: The image isn't on trial.
    NotOnTrial,
    /// 4: The flash has no log of a device.
    NotProvisioned,
    /// 5: The running image of this number is damaged.
    RunningDamaged(u8),
    /// 6: The running images don't fit each other.
    RunningInvalid,
    /// 9: The manifest is refused.
    Manifest(ManifestFault),
    /// 10: The upload is refused.
    Upload(UploadFault),
}

impl Fault {
    /// Returns the fault of these numbers of a result, if this crate knows it.
    pub(crate) fn from_numbers(fault: u32, detail: u32, check: u32) -> Option<Self> {
        Some(match fault {
            1 => Self::NotBooted,
            2 => Self::OnTrial,
            3 => Self::NotOnTrial,
            4 => Self::NotProvisioned,
            5 => Self::RunningDamaged(u8::try_from(detail).ok()?),
            6 => Self::RunningInvalid,
            9 => Self::Manifest(ManifestFault::from_number(detail)?),
            10 => Self::Upload(UploadFault::from_numbers(detail, check)?),
            _ => return None,
        })
    }

    /// Returns the number, as `bootswap.h` has it.
    pub const fn number(self) -> u32 {
        match self {
            Self::NotBooted => 1,
            Self::OnTrial => 2,
            Self::NotOnTrial => 3,
            Self::NotProvisioned => 4,
            Self::RunningDamaged(_) => 5,
            Self::RunningInvalid => 6,
            Self::Manifest(_) => 9,
            Self::Upload(_) => 10,
        }
    }

    /// Returns the number of the damaged image, or of the fault of the manifest or the upload: the
    /// field `detail` in C. It is 0 for the others.
    pub const fn detail(self) -> u32 {
        match self {
            Self::RunningDamaged(image) => image as u32,
            Self::Manifest(fault) => fault.number(),
            Self::Upload(fault) => fault.number(),
            _ => 0,
        }
    }

    /// Returns the name, as `bootswap_names.h` has it and the program prints it.
    pub const fn name(self) -> &'static str {
        match self {
            Self::NotBooted => "NotBooted",
            Self::OnTrial => "OnTrial",
            Self::NotOnTrial => "NotOnTrial",
            Self::NotProvisioned => "NotProvisioned",
            Self::RunningDamaged(_) => "RunningDamaged",
            Self::RunningInvalid => "InvalidSet",
            Self::Manifest(_) => "Manifest",
            Self::Upload(_) => "Upload",
        }
    }
}

impl fmt::Display for Fault {
    fn fmt(&self, to: &mut fmt::Formatter<'_>) -> fmt::Result {
        to.write_str(self.name())?;
        match self {
            Self::RunningDamaged(image) => write!(to, " {}", image),
            Self::Manifest(fault) => write!(to, " {}", fault),
            Self::Upload(fault) => write!(to, " {}", fault),
            _ => Ok(()),
        }
    }
}

/// Why an upload is refused (`enum bootswap_upload_fault`).
#[derive(Clone, Copy, Debug, PartialEq, Eq, Hash)]
#[non_exhaustive]
pub enum UploadFault {
    /// 1: A manifest of a higher sequence number was accepted.
    OldSequence,
    /// 2: An image is longer than its slot.
    TooBig,
    /// 3: No upload of the image is open, or a piece finds that it doesn't match the flash.
    NoSession,
    /// 4: More bytes than the manifest said: the upload is closed.
    TooMuch,
    /// 5: Fewer bytes than the manifest said: the upload is closed.
    SizeWrong,
    /// 6: Another digest than the manifest said: the upload is closed.
    DigestWrong,
    /// 7: No intact image, by the first check that fails: the upload is closed.
    NotAnImage(ImageFault),
    /// 8: The running image isn't the one that the manifest names.
    WrongPrecursor,
    /// 9: Nothing is requested for the image.
    NothingRequested,
}

impl UploadFault {
    fn from_numbers(detail: u32, check: u32) -> Option<Self> {
        Some(match detail {
            1 => Self::OldSequence,
            2 => Self::TooBig,
            3 => Self::NoSession,
            4 => Self::TooMuch,
            5 => Self::SizeWrong,
            6 => Self::DigestWrong,
            7 => Self::NotAnImage(ImageFault::from_number(check)?),
            8 => Self::WrongPrecursor,
            9 => Self::NothingRequested,
            _ => return None,
        })
    }

    /// Returns the number, as `bootswap.h` has it.
    pub const fn number(self) -> u32 {
        match self {
            Self::OldSequence => 1,
            Self::TooBig => 2,
            Self::NoSession => 3,
            Self::TooMuch => 4,
            Self::SizeWrong => 5,
            Self::DigestWrong => 6,
            Self::NotAnImage(_) => 7,
            Self::WrongPrecursor => 8,
            Self::NothingRequested => 9,
        }
    }

    /// Returns the name, as `bootswap_names.h` has it and the program prints it.
    pub const fn name(self) -> &'static str {
        match self {
            Self::OldSequence => "OldSequence",
            Self::TooBig => "TooBig",
            Self::NoSession => "NoSession",
            Self::TooMuch => "TooMuch",
            Self::SizeWrong => "SizeWrong",
            Self::DigestWrong => "DigestWrong",
            Self::NotAnImage(_) => "NotAnImage",
            Self::WrongPrecursor => "WrongPrecursor",
            Self::NothingRequested => "NothingRequested",
        }
    }
}

impl fmt::Display for UploadFault {
    fn fmt(&self, to: &mut fmt::Formatter<'_>) -> fmt::Result {
        to.write_str(self.name())?;
        match self {
            Self::NotAnImage(check) => write!(to, " {}", check),
            _ => Ok(()),
        }
    }
}
