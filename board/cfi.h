/* Commands and status of NOR flashes of Intel's command set (JEDEC JEP137, command set 0001). */
#ifndef CFI_H
#define CFI_H

enum cfi_command {
    CFI_ERASE = 0x20,
    CFI_PROGRAM = 0x40,
    CFI_CLEAR_STATUS = 0x50,
    CFI_CONFIRM = 0xd0,
    CFI_SHOW_CONTENTS = 0xff
};

enum cfi_status { CFI_FAILED = 0x3a, CFI_READY = 0x80 };

#endif
