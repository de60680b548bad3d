//! The structs and calls of `bootswap.h`, as C has them. `tests/library/test_header.py` of the
//! repository compares the structs with the header.

/// The most images of a device.
pub const MAX_IMAGES: usize = 8;
/// The most dependencies of an image.
pub const MAX_DEPENDENCIES: usize = 16;
/// The most groups of alternatives of an image.
pub const MAX_GROUPS: usize = 4;
/// The most alternatives of a group.
pub const MAX_ALTERNATIVES: usize = 4;

#[repr(C)]
#[derive(Clone, Copy, Debug, PartialEq, Eq)]
pub struct Setup {
    pub sector_size: u32,
    pub images: u32,
    pub sectors: [u32; MAX_IMAGES],
    pub trial_boots: u32,
    pub vendor: [u8; 16],
    pub class_id: [u8; 16],
}

#[repr(C)]
#[derive(Clone, Copy)]
pub struct SavedUpload {
    pub size: u32,
    pub received: u32,
    pub is_open: u8,
    pub kind: u8,
    pub held_length: u8,
    pub unused: u8,
    pub held: [u8; 8],
    pub digest: [u8; 32],
}

#[repr(C)]
#[derive(Clone, Copy)]
pub struct SavedState {
    pub is_booted: u8,
    pub unused: [u8; 3],
    pub uploads: [SavedUpload; MAX_IMAGES],
}

/// A version of an image, as MCUboot's `struct image_version`. Versions are ordered by their
/// fields.
///
/// ```
/// # use bootswap::Version;
/// assert!(Version::new(1, 10, 0) > Version::new(1, 9, 7));
/// assert_eq!(Version::new(1, 10, 0).to_string(), "1.10.0+0");
/// ```
#[repr(C)]
#[derive(Clone, Copy, Debug, Default, PartialEq, Eq, PartialOrd, Ord, Hash)]
pub struct Version {
    /// The first number.
    pub major: u8,
    /// The second number.
    pub minor: u8,
    /// The third number.
    pub revision: u16,
    /// The number of the build.
    pub build: u32,
}

/// A dependency of an image: a needed image and its lowest version.
#[repr(C)]
#[derive(Clone, Copy, Debug, Default, PartialEq, Eq, Hash)]
pub struct Dependency {
    /// The number of the needed image.
    pub image: u32,
    /// The lowest version that it may have.
    pub minimum: Version,
}

/// A request that a boot doesn't take.
#[repr(C)]
#[derive(Clone, Copy, Debug, PartialEq, Eq)]
pub struct Refusal {
    pub(crate) image: u32,
    pub(crate) reason: u32,
    pub(crate) count: u32,
    pub(crate) dependencies: [Dependency; MAX_ALTERNATIVES],
}

#[repr(C)]
#[derive(Clone, Copy, Debug, PartialEq, Eq)]
pub struct CallResult {
    pub writes: u64,
    pub journal_length: u64,
    pub fault: u32,
    pub detail: u32,
    pub check: u32,
    pub set: u32,
    pub left: u32,
    pub permanent: u32,
    pub images: u32,
    pub refusals: u32,
    pub table_length: u32,
    pub report_length: u32,
    pub versions: [Version; MAX_IMAGES],
    pub refused: [Refusal; MAX_IMAGES],
}

#[repr(C)]
#[derive(Clone, Copy)]
pub struct Component {
    pub size: u32,
    pub image: u8,
    pub is_permanent: u8,
    pub has_precursor: u8,
    pub unused: u8,
    pub digest: [u8; 32],
    pub precursor: [u8; 32],
}

#[repr(C)]
pub struct Manifest {
    pub sequence: u32,
    pub count: u32,
    pub components: [Component; MAX_IMAGES],
}

/// Dependencies of which an image needs at least one.
#[repr(C)]
#[derive(Clone, Copy, Debug, PartialEq, Eq)]
pub struct Group {
    pub(crate) count: u32,
    pub(crate) alternatives: [Dependency; MAX_ALTERNATIVES],
}

#[repr(C)]
#[derive(Clone, Copy, Debug, PartialEq, Eq)]
pub struct Description {
    pub length: u64,
    pub version: Version,
    pub counter: u32,
    pub flags: u32,
    pub dependencies_count: u32,
    pub groups_count: u32,
    pub dependencies: [Dependency; MAX_DEPENDENCIES],
    pub groups: [Group; MAX_GROUPS],
    pub digest: [u8; 32],
}

#[repr(C)]
pub struct ImageParts {
    pub load_address: u32,
    pub header_size: u16,
    pub has_counter: u8,
    pub unused: u8,
    pub flags: u32,
    pub version: Version,
    pub counter: u32,
    pub dependencies_count: u32,
    pub groups_count: u32,
    pub dependencies: [Dependency; MAX_DEPENDENCIES],
    pub groups: [Group; MAX_GROUPS],
}

#[repr(C)]
pub struct State {
    pub kind: u32,
    pub set: u32,
    pub permanent: u32,
    pub left: u32,
    pub sequence: u32,
    pub floors: [u32; MAX_IMAGES],
}

#[repr(C)]
pub struct Sha256 {
    pub bytes: [u8; 32],
}

#[repr(C)]
pub struct Workspace {
    pub words: [u64; 913],
}

impl SavedState {
    /// A device that isn't booted.
    pub const ZERO: Self = Self {
        is_booted: 0,
        unused: [0; 3],
        uploads: [SavedUpload {
            size: 0,
            received: 0,
            is_open: 0,
            kind: 0,
            held_length: 0,
            unused: 0,
            held: [0; 8],
            digest: [0; 32],
        }; MAX_IMAGES],
    };
}

const NO_VERSION: Version = Version { major: 0, minor: 0, revision: 0, build: 0 };
const NO_DEPENDENCY: Dependency = Dependency { image: 0, minimum: NO_VERSION };

impl CallResult {
    /// The result of no call.
    pub const ZERO: Self = Self {
        writes: 0,
        journal_length: 0,
        fault: 0,
        detail: 0,
        check: 0,
        set: 0,
        left: 0,
        permanent: 0,
        images: 0,
        refusals: 0,
        table_length: 0,
        report_length: 0,
        versions: [NO_VERSION; MAX_IMAGES],
        refused: [Refusal {
            image: 0,
            reason: 0,
            count: 0,
            dependencies: [NO_DEPENDENCY; MAX_ALTERNATIVES],
        }; MAX_IMAGES],
    };
}

impl Description {
    /// The description of no image.
    pub const ZERO: Self = Self {
        length: 0,
        version: NO_VERSION,
        counter: 0,
        flags: 0,
        dependencies_count: 0,
        groups_count: 0,
        dependencies: [NO_DEPENDENCY; MAX_DEPENDENCIES],
        groups: [Group { count: 0, alternatives: [NO_DEPENDENCY; MAX_ALTERNATIVES] }; MAX_GROUPS],
        digest: [0; 32],
    };
}

// The sizes that the header asserts.
const _: () = assert!(core::mem::size_of::<Setup>() == 76);
const _: () = assert!(core::mem::size_of::<SavedState>() == 420);
const _: () = assert!(core::mem::size_of::<CallResult>() == 600);
const _: () = assert!(core::mem::size_of::<Manifest>() == 584);
const _: () = assert!(core::mem::size_of::<Description>() == 464);
const _: () = assert!(core::mem::size_of::<ImageParts>() == 432);
const _: () = assert!(core::mem::size_of::<State>() == 52);
const _: () = assert!(core::mem::size_of::<Workspace>() == 7304);

extern "C" {
    pub fn bootswap_journal_provision(
        setup: *const Setup,
        flash: *const u8,
        flash_length: usize,
        journal: *mut u8,
        journal_capacity: usize,
        result: *mut CallResult,
    ) -> u32;
    pub fn bootswap_journal_boot(
        setup: *const Setup,
        flash: *const u8,
        flash_length: usize,
        saved: *mut SavedState,
        journal: *mut u8,
        journal_capacity: usize,
        result: *mut CallResult,
    ) -> u32;
    pub fn bootswap_journal_boot_with_texts(
        setup: *const Setup,
        flash: *const u8,
        flash_length: usize,
        saved: *mut SavedState,
        journal: *mut u8,
        journal_capacity: usize,
        table: *mut u8,
        table_capacity: usize,
        report: *mut u8,
        report_capacity: usize,
        result: *mut CallResult,
    ) -> u32;
    pub fn bootswap_journal_accept(
        setup: *const Setup,
        flash: *const u8,
        flash_length: usize,
        saved: *mut SavedState,
        journal: *mut u8,
        journal_capacity: usize,
        manifest: *const Manifest,
        result: *mut CallResult,
    ) -> u32;
    pub fn bootswap_journal_piece(
        setup: *const Setup,
        flash: *const u8,
        flash_length: usize,
        saved: *mut SavedState,
        journal: *mut u8,
        journal_capacity: usize,
        image: u8,
        bytes: *const u8,
        bytes_length: usize,
        result: *mut CallResult,
    ) -> u32;
    pub fn bootswap_journal_finish(
        setup: *const Setup,
        flash: *const u8,
        flash_length: usize,
        saved: *mut SavedState,
        journal: *mut u8,
        journal_capacity: usize,
        image: u8,
        result: *mut CallResult,
    ) -> u32;
    pub fn bootswap_journal_withdraw(
        setup: *const Setup,
        flash: *const u8,
        flash_length: usize,
        saved: *mut SavedState,
        journal: *mut u8,
        journal_capacity: usize,
        image: u8,
        result: *mut CallResult,
    ) -> u32;
    pub fn bootswap_journal_confirm(
        setup: *const Setup,
        flash: *const u8,
        flash_length: usize,
        saved: *mut SavedState,
        journal: *mut u8,
        journal_capacity: usize,
        image: u8,
        result: *mut CallResult,
    ) -> u32;
    pub fn bootswap_reset(saved: *mut SavedState);
    pub fn bootswap_slot(
        setup: *const Setup,
        flash: *const u8,
        flash_length: usize,
        image: u8,
        side: u8,
        description: *mut Description,
    ) -> u32;
    pub fn bootswap_state(
        setup: *const Setup,
        flash: *const u8,
        flash_length: usize,
        state: *mut State,
    ) -> u32;
    pub fn bootswap_describe(
        bytes: *const u8,
        bytes_length: usize,
        description: *mut Description,
    ) -> u32;
    pub fn bootswap_make_image(
        parts: *const ImageParts,
        body: *const u8,
        body_length: usize,
        image: *mut u8,
        image_capacity: usize,
        length: *mut u64,
    ) -> u32;
    pub fn bootswap_digest(bytes: *const u8, bytes_length: usize, digest: *mut Sha256);
    pub fn bootswap_choose(
        table: *const u8,
        table_length: usize,
        report: *mut u8,
        report_capacity: usize,
        length: *mut u64,
    ) -> u32;
    pub fn bootswap_check(
        table: *const u8,
        table_length: usize,
        report: *const u8,
        report_length: usize,
        line: *mut u64,
    ) -> u32;
    pub fn bootswap_choose_in(
        workspace: *mut Workspace,
        table: *const u8,
        table_length: usize,
        report: *mut u8,
        report_capacity: usize,
        length: *mut u64,
    ) -> u32;
    pub fn bootswap_check_in(
        workspace: *mut Workspace,
        table: *const u8,
        table_length: usize,
        report: *const u8,
        report_length: usize,
        line: *mut u64,
    ) -> u32;
}
