"""A device in C whose process is killed 1,000 times within its writes: its flash is a file.

On ARM it runs in an emulator as a whole, and is killed less often: each run takes three times as long.
"""

from support import file_device
from support.compiled import needs_compiler
from support.processors import ARM, SMALL_ARM, needs_arm, needs_small_arm


@needs_compiler
class FileDeviceTest(file_device.FileDevice):
    pass


@needs_arm
class ArmFileDeviceTest(file_device.FileDevice):
    processor, most_kills = ARM, 100


@needs_small_arm
class SmallArmFileDeviceTest(file_device.FileDevice):
    processor, most_kills = SMALL_ARM, 15
