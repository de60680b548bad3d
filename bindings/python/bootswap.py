"""bootswap for Python: a device whose flash is bytes in memory, over the C interface of the proved library.

A `Device` has a flash (`flash`, a bytearray that the caller may read and change) and its saved state. Each of its calls
is proved to be one step of a machine that knows whole images only. `choose`, `check`, `describe` and `digest` need no
device. `include/bootswap_simulate.h` says what each call returns.

A call raises `ValueError` for an argument that the device can't be passed, `Refused` if the device refuses the call, and
`BootswapError` if no call could be made. In each of these cases but `Refused`, nothing changed. A device with
`raises_refusals=False` returns a refusal as any other reply.

A call that takes bytes takes any buffer, as `hashlib` does: all its bytes count, whatever its items are.

Several threads may make calls at the same time. Calls on the same device follow each other. During a call no other
thread may change the device's `flash` itself.

The library is the file that the environment names in BOOTSWAP_LIBRARY, or `out/libbootswap.so` of the repository, which
`bindings/build` makes, or else the installed one.
"""

from __future__ import annotations

import ctypes
import enum
import os
import threading
import uuid
from collections.abc import Iterable, Sequence
from ctypes import POINTER, byref, c_char, c_size_t, c_uint8, c_uint16, c_uint32, c_uint64
from dataclasses import dataclass, field, replace

MOST_IMAGES = 8
MOST_CUTS = 16
TABLE_ROOM = 20480
REPORT_ROOM = 2048
# The memory for a manifest, beside the length of its text, as `BOOTSWAP_MANIFEST_MEMORY` of bindings/c/manifest.h.
MANIFEST_ROOM = 12288

# The name of the installed library. Its number is the major version.
SHARED_NAME = "libbootswap.so.2"


class Number(enum.IntEnum):
    """What a call returns."""

    DONE = 0
    BOOTED = 1
    REVERTED = 2
    TRIAL_AGAIN = 3
    REFUSED = 4
    CUT = 5
    NO_MAP = 16
    NO_TRIAL = 17
    NO_FLASH = 18
    NO_IMAGE = 19
    TOO_MANY = 20
    NO_LOG = 21
    NO_TABLE = 24
    NO_REPORT = 25
    INVALID_SET = 26
    WRONG = 27
    TOO_SMALL = 28
    NO_ROOM = 28  # its name before 2.0.0
    BAD_IMAGE = 29


class Fault(enum.IntEnum):
    """Why a call is refused."""

    NotBooted = 1
    OnTrial = 2
    NotOnTrial = 3
    NotProvisioned = 4
    RunningDamaged = 5
    InvalidSet = 6
    Manifest = 9
    Upload = 10


class UploadFault(enum.IntEnum):
    """Why an upload is refused."""

    OldSequence = 1
    TooBig = 2
    NoSession = 3
    TooMuch = 4
    SizeWrong = 5
    DigestWrong = 6
    NotAnImage = 7
    WrongPrecursor = 8
    NothingRequested = 9


class ManifestFault(enum.IntEnum):
    """Why a manifest is refused. One that is given by its fields is refused for BadValue if it has no component, for
    NoComponent or for RepeatedComponent."""

    NotJson = 1
    BadKey = 2
    BadValue = 3
    WrongVendor = 4
    WrongClass = 5
    NoComponent = 6
    RepeatedComponent = 7
    NoMemory = 8


class ImageFault(enum.IntEnum):
    """Why bytes are no intact image: the first check that fails."""

    Short = 1
    BadMagic = 2
    BadHeaderSize = 3
    UnsupportedFlags = 4
    Truncated = 5
    BadTlvMagic = 6
    BadTlvSize = 7
    NoDigest = 8
    TwoDigests = 9
    BadDigest = 10
    BadDependency = 11
    TooManyDependencies = 12
    TrailingBytes = 13
    BadCounter = 14
    TooManyGroups = 15


class Reason(enum.IntEnum):
    """Why a boot refuses a request."""

    Damaged = 1
    Older = 2
    Counter = 3
    NoSuchImage = 4
    Needs = 5
    NeedsOne = 6


class Phase(enum.IntEnum):
    """The phase of an upgrade."""

    STEADY = 1
    SWAP = 2
    SETTLE = 3
    TRIAL = 4
    BACK = 5
    BACK_SETTLE = 6


class Kind(enum.IntEnum):
    """How an image is requested."""

    TEST = 0
    PERMANENT = 1


class BootswapError(Exception):
    """A call that couldn't be made, and changed nothing. `number` says why, and `line` is the bad line of a text."""

    def __init__(self, number: Number, line: int = 0) -> None:
        super().__init__(f"{number.name}{f' at line {line}' if line else ''}")
        self.number, self.line = number, line


class Refused(Exception):
    """A call that the device refused. `reply` says why, and `include/bootswap.h` what that changed."""

    def __init__(self, name: str, reply: Reply) -> None:
        super().__init__(f"{name} is refused: {reply.reason()}")
        self.reply = reply


class BadManifest(Exception):
    """A text that isn't a manifest for the device. `fault` says why."""

    def __init__(self, fault: ManifestFault) -> None:
        super().__init__(f"the manifest is refused: {fault.name}")
        self.fault = fault


class _Setup(ctypes.Structure):
    _fields_ = [("sector_size", c_uint32), ("images", c_uint32), ("sectors", c_uint32 * MOST_IMAGES)]
    _fields_ += [("trial_boots", c_uint32), ("vendor", c_uint8 * 16), ("class_id", c_uint8 * 16)]


class _SavedUpload(ctypes.Structure):
    _fields_ = [("size", c_uint32), ("received", c_uint32), ("is_open", c_uint8), ("kind", c_uint8)]
    _fields_ += [("held_length", c_uint8), ("unused", c_uint8), ("held", c_uint8 * 8), ("digest", c_uint8 * 32)]


class _SavedState(ctypes.Structure):
    _fields_ = [("is_booted", c_uint8), ("unused", c_uint8 * 3), ("uploads", _SavedUpload * MOST_IMAGES)]


class _Cut(ctypes.Structure):
    _fields_ = [("write", c_uint64), ("residue", c_uint32), ("pattern_length", c_uint32), ("pattern", c_uint8 * 8)]


class _Version(ctypes.Structure):
    _fields_ = [("major", c_uint8), ("minor", c_uint8), ("revision", c_uint16), ("build", c_uint32)]


class _Dependency(ctypes.Structure):
    _fields_ = [("image", c_uint32), ("minimum", _Version)]


class _Refusal(ctypes.Structure):
    _fields_ = [("image", c_uint32), ("reason", c_uint32), ("count", c_uint32)]
    _fields_ += [("dependencies", _Dependency * 4)]


class _CallResult(ctypes.Structure):
    _fields_ = [("writes", c_uint64), ("journal_length", c_uint64)]
    _fields_ += [(name, c_uint32) for name in ("fault", "detail", "check", "set", "left", "permanent", "images")]
    _fields_ += [(name, c_uint32) for name in ("refusals", "table_length", "report_length")]
    _fields_ += [("versions", _Version * MOST_IMAGES), ("refused", _Refusal * MOST_IMAGES)]


class _Component(ctypes.Structure):
    _fields_ = [("size", c_uint32), ("image", c_uint8), ("is_permanent", c_uint8), ("has_precursor", c_uint8)]
    _fields_ += [("unused", c_uint8), ("digest", c_uint8 * 32), ("precursor", c_uint8 * 32)]


class _Manifest(ctypes.Structure):
    _fields_ = [("sequence", c_uint32), ("count", c_uint32), ("components", _Component * MOST_IMAGES)]


class _Identity(ctypes.Structure):
    _fields_ = [("vendor", c_uint8 * 16), ("class_id", c_uint8 * 16), ("images", c_uint8)]


class _Group(ctypes.Structure):
    _fields_ = [("count", c_uint32), ("alternatives", _Dependency * 4)]


class _Description(ctypes.Structure):
    _fields_ = [("length", c_uint64), ("version", _Version), ("counter", c_uint32), ("flags", c_uint32)]
    _fields_ += [("dependencies_count", c_uint32), ("groups_count", c_uint32)]
    _fields_ += [("dependencies", _Dependency * 16), ("groups", _Group * 4), ("digest", c_uint8 * 32)]


class _ImageParts(ctypes.Structure):
    _fields_ = [("load_address", c_uint32), ("header_size", c_uint16), ("has_counter", c_uint8), ("unused", c_uint8)]
    _fields_ += [("flags", c_uint32), ("version", _Version), ("counter", c_uint32), ("dependencies_count", c_uint32)]
    _fields_ += [("groups_count", c_uint32), ("dependencies", _Dependency * 16), ("groups", _Group * 4)]


class _State(ctypes.Structure):
    _fields_ = [(name, c_uint32) for name in ("kind", "set", "permanent", "left", "sequence")]
    _fields_ += [("floors", c_uint32 * MOST_IMAGES)]


class _Sha256(ctypes.Structure):
    _fields_ = [("bytes", c_uint8 * 32)]


class _Workspace(ctypes.Structure):
    _fields_ = [("words", c_uint64 * 913)]


def _library() -> str:
    """Returns the file of the library. A name without a folder is looked for where the system has libraries."""
    # The top of the repository, or PREFIX/lib of an installation.
    above = os.path.dirname(os.path.dirname(os.path.dirname(os.path.realpath(__file__))))
    files = [f"{above}/out/libbootswap.so", f"{above}/{SHARED_NAME}"]
    return os.environ.get("BOOTSWAP_LIBRARY") or next(filter(os.path.isfile, files), SHARED_NAME)


def _load() -> ctypes.CDLL:
    library = ctypes.CDLL(_library())
    flash, cuts, result = [POINTER(c_uint8), c_size_t], [POINTER(_Cut), c_size_t], [POINTER(_CallResult)]
    text = [POINTER(c_char), c_size_t]
    arguments = {
        "reset": [POINTER(_SavedState)],
        "slot": [POINTER(_Setup), *flash, c_uint8, c_uint8, POINTER(_Description)],
        "state": [POINTER(_Setup), *flash, POINTER(_State)],
        "describe": [*flash, POINTER(_Description)],
        "make_image": [POINTER(_ImageParts), *flash, *flash, POINTER(c_uint64)],
        "digest": [*flash, POINTER(_Sha256)],
        "choose": [*text, *text, POINTER(c_uint64)],
        "check": [*text, *text, POINTER(c_uint64)],
        "choose_in": [POINTER(_Workspace), *text, *text, POINTER(c_uint64)],
        "check_in": [POINTER(_Workspace), *text, *text, POINTER(c_uint64)],
        "parse_manifest": [POINTER(_Identity), *text, POINTER(_Manifest)],
        "read_manifest": [POINTER(_Setup), *text, *flash, POINTER(_Manifest)],
    }
    # What a call takes after its cuts, or in its other form after its journal.
    of_device = {
        "accept": [POINTER(_Manifest), *result],
        "piece": [c_uint8, POINTER(c_uint8), c_size_t, *result],
        "finish": [c_uint8, *result],
        "withdraw": [c_uint8, *result],
        "confirm": [c_uint8, *result],
    }
    boots = {
        "simulate_": {"boot": [*text, *text, *result]},
        "journal_": {"boot": result, "boot_with_texts": [*text, *text, *result]},
    }
    for form, writes in (("simulate_", cuts), ("journal_", flash)):
        arguments[f"{form}provision"] = [POINTER(_Setup), *flash, *writes, *result]
        for name, types in {**of_device, **boots[form]}.items():
            arguments[f"{form}{name}"] = [POINTER(_Setup), *flash, POINTER(_SavedState), *writes, *types]
    # Everything else works over a library without the calls that read a manifest's text, or those with a workspace.
    optional = "parse_manifest", "read_manifest", "choose_in", "check_in"
    missing = {it for it in optional if not hasattr(library, f"bootswap_{it}")}
    for name, types in arguments.items():
        if name in missing:
            continue
        call = getattr(library, f"bootswap_{name}")
        call.argtypes, call.restype = types, None if name in ("reset", "digest") else c_uint32
    return library


_LIBRARY = _load()


@dataclass(frozen=True, order=True)
class Version:
    """A version of an image, `major.minor.revision+build`."""

    major: int = 0
    minor: int = 0
    revision: int = 0
    build: int = 0

    def __str__(self) -> str:
        return f"{self.major}.{self.minor}.{self.revision}+{self.build}"


@dataclass(frozen=True)
class Need:
    """A needed image and its lowest version."""

    image: int
    minimum: Version


@dataclass(frozen=True)
class Refusal:
    """A request that a boot refuses: the image, the reason, and what the image needs."""

    image: int
    reason: Reason
    needs: tuple[Need, ...]


@dataclass(frozen=True)
class Cut:
    """A write that is to be cut in a call: its number in the call, counted from 1, and what it leaves: `"keep"` the old
    bytes, `"done"` the new bytes, or up to 8 bytes that are repeated over its range."""

    write: int
    left: str | bytes = "keep"


@dataclass(frozen=True)
class Component:
    """One image that may be uploaded: its number, the kind of its request, and the size and digest of its file.
    `precursor` is the digest of the image that has to run, if the file is for that image only."""

    image: int
    size: int
    digest: bytes
    kind: Kind = Kind.TEST
    precursor: bytes | None = None

    @classmethod
    def of(cls, image: int, file: bytes, kind: Kind = Kind.TEST, precursor: bytes | None = None) -> Component:
        """Returns the component for a file."""
        given = _bytes(file)
        return cls(image, len(given), digest(given), kind, precursor)


@dataclass(frozen=True)
class Manifest:
    """A manifest: its sequence number, which rises from manifest to manifest, and 1 to 8 images that may be uploaded."""

    sequence: int
    components: tuple[Component, ...]


@dataclass(frozen=True)
class Description:
    """The description of an image."""

    version: Version
    length: int
    counter: int
    flags: int
    digest: bytes
    needs: tuple[Need, ...]
    groups: tuple[tuple[Need, ...], ...]


@dataclass(frozen=True)
class State:
    """The state in the log of a flash.

    - `phase`: the phase of the upgrade
    - `images`: the images of the upgrade
    - `permanent`: whether they stay without a trial
    - `left`: the number of further boots of the trial
    - `sequence`: the sequence number of the last accepted manifest
    - `floors`: the lowest security counter that each image may have
    """

    phase: Phase
    images: tuple[int, ...]
    permanent: bool
    left: int
    sequence: int
    floors: tuple[int, ...]


@dataclass(frozen=True)
class Reply:
    """The reply of a device to a call. `number` is DONE, BOOTED, REVERTED, TRIAL_AGAIN, REFUSED or CUT.

    - `writes`: the number of writes that the call began
    - `fault`: the reason, if REFUSED
    - `detail`: an `UploadFault` or a `ManifestFault` if that is the fault, and the image if that is damaged
    - `check`: the first check that an uploaded image fails, if that is the fault
    - `images`: the images that a boot takes, reverts or tries again
    - `left`: the number of boots that are left to the trial, if TRIAL_AGAIN
    - `permanent`: whether the set is taken without a trial, if BOOTED
    - `versions`, `refusals`, `table`, `report`: the decision, if BOOTED
    - `reverted`: the images that the boot before this one reverted, in a reply of `Device.start`
    """

    number: Number
    writes: int
    fault: Fault | None = None
    detail: UploadFault | ManifestFault | int = 0
    check: ImageFault | None = None
    images: tuple[int, ...] = ()
    left: int = 0
    permanent: bool = False
    versions: tuple[Version, ...] = ()
    refusals: tuple[Refusal, ...] = ()
    table: str = ""
    report: str = ""
    reverted: tuple[int, ...] = ()

    def reason(self) -> str:
        """Returns the names of the fault and of what caused it, or the number of the image."""
        detail = self.detail.name if isinstance(self.detail, enum.Enum) else str(self.detail)
        parts = (self.fault, self.fault in _WITH_DETAIL and detail, self.check)
        return " ".join(it.name if isinstance(it, enum.Enum) else it for it in parts if it)


# The faults that a detail belongs to.
_WITH_DETAIL = (Fault.RunningDamaged, Fault.Manifest, Fault.Upload)


def _version(given: _Version) -> Version:
    return Version(given.major, given.minor, given.revision, given.build)


def _needs(given: Sequence[_Dependency], count: int) -> tuple[Need, ...]:
    return tuple(Need(it.image, _version(it.minimum)) for it in given[:count])


def _component(given: _Component) -> Component:
    precursor = bytes(given.precursor) if given.has_precursor else None
    kind = Kind.PERMANENT if given.is_permanent else Kind.TEST
    return Component(given.image, given.size, bytes(given.digest), kind, precursor)


def _description(given: _Description) -> Description:
    groups = tuple(_needs(it.alternatives, it.count) for it in given.groups[: given.groups_count])
    needs = _needs(given.dependencies, given.dependencies_count)
    return Description(
        _version(given.version), given.length, given.counter, given.flags, bytes(given.digest), needs, groups
    )


def _bytes(given: bytes) -> bytes:
    """Returns the bytes of a buffer, whatever its items are. Raises `TypeError` for anything else."""
    return given if isinstance(given, bytes) else bytes(memoryview(given))


def _passed(given: bytes) -> tuple[ctypes.Array[c_uint8], int]:
    """Returns the two arguments by which bytes are passed: a copy of them, and their number."""
    copied = _bytes(given)
    return (c_uint8 * max(len(copied), 1)).from_buffer_copy(copied or b"\0"), len(copied)


def _cuts(given: Sequence[Cut]) -> ctypes.Array[_Cut]:
    rows = (_Cut * max(len(given), 1))()
    for row, cut in zip(rows, given):
        row.write = _number("the number of a write", cut.write, 2**64 - 1)
        row.residue = {"keep": 0, "done": 1}.get(cut.left, 2) if isinstance(cut.left, str) else 2
        if isinstance(cut.left, bytes):
            row.pattern_length = _number("the length of a cut's pattern", len(cut.left), 8)
            row.pattern[: len(cut.left)] = cut.left
        elif row.residue == 2:
            raise ValueError(f"a cut leaves 'keep', 'done' or bytes, and not {cut.left!r}")
    return rows


def _number(what: str, value: int, most: int) -> int:
    """Returns a number that a field of the library holds. Raises `ValueError` if it doesn't fit."""
    if not 0 <= value <= most:
        raise ValueError(f"{what} is 0 to {most}, and not {value}")
    return value


def _byte(image: int) -> int:
    return _number("the number of an image", image, 255)


def _digest(given: bytes) -> bytes:
    copied = _bytes(given)
    if len(copied) != 32:
        raise ValueError(f"a digest has 32 bytes, and not {len(copied)}")
    return copied


@dataclass
class Device:
    """A device in memory with `len(sectors)` images, and these numbers of sectors for each slot. If `raises_refusals` is
    set, a refused call raises `Refused`.

    - `sector_size`: a multiple of 64 from 512 to 131072
    - `sectors`: 1 to 8 numbers, each at least 1. For n sectors in a slot a sector has at least 24 n + 56 bytes.
    - `trial_boots`: 1 to 7
    - `flash`: whole sectors, no fewer than the device needs, and fewer than 2^32 bytes. By default it is erased, and
      has exactly the length that the device needs.

    Raises `ValueError` for any other sizes.
    """

    sector_size: int
    sectors: Sequence[int]
    trial_boots: int = 1
    vendor: uuid.UUID = uuid.UUID(int=0)
    class_id: uuid.UUID = uuid.UUID(int=0)
    flash: bytearray = field(default_factory=bytearray, repr=False)
    raises_refusals: bool = True

    def __post_init__(self) -> None:
        if not 1 <= len(self.sectors) <= MOST_IMAGES:
            raise ValueError(f"a device has 1 to {MOST_IMAGES} images, and not {len(self.sectors)}")
        for it in (self.sector_size, *self.sectors):
            _number("a number of bytes or sectors", it, 2**32 - 1)
        _number("the number of boots of a trial", self.trial_boots, 2**32 - 1)
        self._setup = _Setup(self.sector_size, len(self.sectors), trial_boots=self.trial_boots)
        self._setup.sectors[: len(self.sectors)] = self.sectors
        self._setup.vendor[:], self._setup.class_id[:] = self.vendor.bytes, self.class_id.bytes
        self._saved, self._lock = _SavedState(), threading.RLock()
        # The default flash is made only for sizes of a map: for others it might need all memory.
        self._check_setup((c_uint8 * 0)())
        if not memoryview(self.flash).nbytes:
            self.flash = bytearray(b"\xff" * self.sector_size * (2 * sum(it + 1 for it in self.sectors) + 4))
        if self._check_setup(self._flash()) == Number.NO_FLASH:
            raise ValueError(f"the flash of this device doesn't have {len(self._flash())} bytes")

    def _check_setup(self, flash: ctypes.Array[c_uint8]) -> int:
        """Raises `ValueError` if the library has no map or no trial for the setup. Returns its number for these bytes."""
        number = _LIBRARY.bootswap_state(byref(self._setup), flash, len(flash), byref(_State()))
        if number == Number.NO_MAP:
            raise ValueError(f"no map has sectors of {self.sector_size} bytes and slots of {[*self.sectors]} sectors")
        if number == Number.NO_TRIAL:
            raise ValueError(f"a trial has 1 to 7 boots, and not {self.trial_boots}")
        return number

    def __getstate__(self) -> dict[str, object]:
        return {name: it for name, it in self.__dict__.items() if name != "_lock"}

    def __setstate__(self, state: dict[str, object]) -> None:
        self.__dict__.update(state, _lock=threading.RLock())

    def _flash(self) -> ctypes.Array[c_uint8]:
        """Returns the bytes of the flash, to be changed in place."""
        return (c_uint8 * memoryview(self.flash).nbytes).from_buffer(self.flash)

    def place(self, image: int, side: int = 0) -> int:
        """Returns the address of an image's slot: side 0 is the primary one, 1 the secondary one."""
        if not 0 <= image < len(self.sectors) or side not in (0, 1):
            raise ValueError(f"there is no slot of image {image} on side {side}")
        before = sum(it + 1 for it in self.sectors[:image]) + side * sum(it + 1 for it in self.sectors)
        return before * self.sector_size

    def write(self, image: int, file: bytes, side: int = 0) -> None:
        """Writes a file to the front of a slot, as a programmer does before the device is provisioned. Raises `ValueError`
        if the file is longer than the slot."""
        given, start = _bytes(file), self.place(image, side)
        room = self.sectors[image] * self.sector_size
        if len(given) > room:
            raise ValueError(f"a slot of image {image} has {room} bytes, and the file {len(given)}")
        with self._lock:
            flash = self._flash()
            if start + room > len(flash):
                raise ValueError(f"the flash has {len(flash)} bytes, and the slot ends at {start + room}")
            ctypes.memmove(byref(flash, start), given, len(given))

    @property
    def is_booted(self) -> bool:
        """Whether the device is booted: since its last boot power hasn't failed, and it wasn't reset."""
        return self._saved.is_booted == 1

    def provision(self, cuts: Sequence[Cut] = ()) -> Reply:
        """Provisions the flash: the images at the front of the primary slots run."""
        return self._call("provision", cuts)

    def boot(self, cuts: Sequence[Cut] = ()) -> Reply:
        """Boots once, as one step of the machine. A loader that starts the images calls `start`."""
        table, report = ctypes.create_string_buffer(TABLE_ROOM), ctypes.create_string_buffer(REPORT_ROOM)
        return self._call("boot", cuts, table, TABLE_ROOM, report, REPORT_ROOM, texts=(table, report))

    def start(self, cuts: Sequence[Cut] = ()) -> Reply:
        """Boots as a loader does: after a boot that reverted it boots once more, and `reverted` of the reply has the
        images that the first boot reverted. The loader may start the running images only if the reply is BOOTED or
        TRIAL_AGAIN. `cuts` and `writes` count the writes of both boots. If the second boot is refused, its reply has
        `reverted` too."""
        with self._lock:
            first = self.boot(cuts)
            if first.number != Number.REVERTED:
                return first
            more = [replace(it, write=it.write - first.writes) for it in cuts if it.write > first.writes]
            try:
                return _after(first, self.boot(more))
            except Refused as error:
                raise Refused("boot", _after(first, error.reply)) from None

    def read_manifest(self, text: str | bytes, room: int | None = None) -> Manifest:
        """Reads the JSON text of a manifest for the device, in `room` bytes of memory. By default they are always enough for
        a manifest whose objects name no key twice. Raises `BadManifest` for any other text, or if they aren't enough."""
        given = text.encode() if isinstance(text, str) else _bytes(text)
        room = MANIFEST_ROOM + len(given) if room is None else _number("a number of bytes", room, 2**32 - 1)
        memory, result = (c_uint8 * max(room, 1))(), _Manifest()
        buffer = ctypes.create_string_buffer(given, len(given) + 1)
        number = _LIBRARY.bootswap_read_manifest(
            byref(self._setup), buffer, len(given), memory, room, byref(result)
        )
        if number:
            raise BadManifest(ManifestFault(number))
        return Manifest(result.sequence, tuple(map(_component, result.components[: result.count])))

    def accept(self, sequence: int, components: Iterable[Component], cuts: Sequence[Cut] = ()) -> Reply:
        """Accepts a manifest. One without components is refused."""
        rows = list(components)
        if len(rows) > MOST_IMAGES:
            raise BootswapError(Number.TOO_MANY)
        manifest = _Manifest(_number("a sequence number", sequence, 2**32 - 1), len(rows))
        for row, it in zip(manifest.components, rows):
            row.size, row.image = _number("the size of a file", it.size, 2**32 - 1), _byte(it.image)
            row.is_permanent = it.kind == Kind.PERMANENT
            row.digest[:] = _digest(it.digest)
            if it.precursor is not None:
                row.has_precursor = 1
                row.precursor[:] = _digest(it.precursor)
        return self._call("accept", cuts, byref(manifest))

    def piece(self, image: int, more: bytes, cuts: Sequence[Cut] = ()) -> Reply:
        """Adds bytes to the upload of an image."""
        return self._call("piece", cuts, _byte(image), *_passed(more))

    def finish(self, image: int, cuts: Sequence[Cut] = ()) -> Reply:
        """Finishes the upload of an image, and requests the image."""
        return self._call("finish", cuts, _byte(image))

    def withdraw(self, image: int, cuts: Sequence[Cut] = ()) -> Reply:
        """Withdraws the request of an image."""
        return self._call("withdraw", cuts, _byte(image))

    def confirm(self, image: int, cuts: Sequence[Cut] = ()) -> Reply:
        """Confirms an image of the set on trial."""
        return self._call("confirm", cuts, _byte(image))

    def reset(self) -> None:
        """Resets the device: all uploads are closed, and it isn't booted."""
        with self._lock:
            _LIBRARY.bootswap_reset(byref(self._saved))

    def slot(self, image: int, side: int = 0) -> Description | ImageFault:
        """Returns the description of the image at the front of a slot, or the first check that fails."""
        result, words = _Description(), (_byte(image), _byte(side))
        with self._lock:
            flash = self._flash()
            number = _LIBRARY.bootswap_slot(byref(self._setup), flash, len(flash), *words, byref(result))
        if number >= Number.NO_MAP:
            raise BootswapError(Number(number))
        return ImageFault(number) if number else _description(result)

    def state(self) -> State:
        """Returns the state in the log. Raises `BootswapError` if the log has none."""
        result = _State()
        with self._lock:
            flash = self._flash()
            number = _LIBRARY.bootswap_state(byref(self._setup), flash, len(flash), byref(result))
        if number:
            raise BootswapError(Number(number))
        floors = tuple(result.floors[: len(self.sectors)])
        phase, images, permanent = Phase(result.kind), _images(result.set), bool(result.permanent)
        return State(phase, images, permanent, result.left, result.sequence, floors)

    def _call(self, name: str, cuts: Sequence[Cut], *words: object, texts: tuple = ()) -> Reply:
        if len(cuts) > MOST_CUTS:
            raise BootswapError(Number.TOO_MANY)
        result, call = _CallResult(), getattr(_LIBRARY, f"bootswap_simulate_{name}")
        with self._lock:
            flash, saved = self._flash(), [] if name == "provision" else [byref(self._saved)]
            number = Number(
                call(byref(self._setup), flash, len(flash), *saved, _cuts(cuts), len(cuts), *words, byref(result))
            )
        if number >= Number.NO_MAP:
            raise BootswapError(number)
        reply = _reply(number, result, texts)
        if number == Number.REFUSED and self.raises_refusals:
            raise Refused(name, reply)
        return reply


def _detail(fault: int, detail: int) -> UploadFault | ManifestFault | int:
    kind = {Fault.Upload: UploadFault, Fault.Manifest: ManifestFault}.get(fault, int)
    return kind(detail)


def _images(mask: int) -> tuple[int, ...]:
    return tuple(i for i in range(MOST_IMAGES) if mask >> i & 1)


def _after(first: Reply, second: Reply) -> Reply:
    """Returns the reply of a boot that followed one which reverted."""
    return replace(second, writes=first.writes + second.writes, reverted=first.images)


def _reply(number: Number, result: _CallResult, texts: tuple) -> Reply:
    rows = result.refused[: result.refusals]
    refusals = (Refusal(it.image, Reason(it.reason), _needs(it.dependencies, it.count)) for it in rows)
    lengths = zip(texts, (result.table_length, result.report_length))
    table, report = [it.raw[:length].decode() for it, length in lengths] or ("", "")
    return Reply(
        number,
        result.writes,
        Fault(result.fault) if result.fault else None,
        _detail(result.fault, result.detail),
        ImageFault(result.check) if result.check else None,
        _images(result.set),
        result.left,
        bool(result.permanent),
        tuple(map(_version, result.versions[: result.images])),
        tuple(refusals),
        table,
        report,
    )


def describe(image: bytes) -> Description | ImageFault:
    """Returns the description of the image that these bytes are, or the first check that fails."""
    result = _Description()
    number = _LIBRARY.bootswap_describe(*_passed(image), byref(result))
    return ImageFault(number) if number else _description(result)


def digest(file: bytes) -> bytes:
    """Returns the SHA-256 of a file, by which a manifest names it."""
    result = _Sha256()
    _LIBRARY.bootswap_digest(*_passed(file), byref(result))
    return bytes(result.bytes)


def choose(table: str) -> str:
    """Returns the report of the choice among the requests of a table. Raises BootswapError if the text isn't a table, or if
    the running images don't fit each other."""
    given, report, length = table.encode(), ctypes.create_string_buffer(REPORT_ROOM), c_uint64()
    text = ctypes.create_string_buffer(given, len(given) + 1)
    number = Number(_LIBRARY.bootswap_choose(text, len(given), report, REPORT_ROOM, byref(length)))
    if number != Number.DONE:
        raise BootswapError(number, length.value)
    return report.raw[: length.value].decode()


def check(table: str, report: str) -> bool:
    """Returns whether a report is right for a table. Raises BootswapError if a text isn't a table or a report."""
    first, second, line = table.encode(), report.encode(), c_uint64()
    texts = [ctypes.create_string_buffer(it, len(it) + 1) for it in (first, second)]
    number = Number(_LIBRARY.bootswap_check(texts[0], len(first), texts[1], len(second), byref(line)))
    if number not in (Number.DONE, Number.WRONG):
        raise BootswapError(number, line.value)
    return number == Number.DONE
