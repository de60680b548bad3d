/* The flash of the slots: 128 sectors of 4 KiB. flash.c and flash_attach() are those of board/. */
#ifndef FLASH_H
#define FLASH_H

#include "driver.h"

#define FLASH_SECTOR 4096u
#define FLASH_SECTORS 128u

/* The loader and the application have the same setup: one image, slots of 61 sectors. */
#define SETUP {.sector_size = FLASH_SECTOR, .images = 1, .sectors = {61}, .trial_boots = 1}

/* The journal of a boot, and of a piece of 4 KiB. */
#define JOURNAL_LENGTH (BOOTSWAP_JOURNAL_BOOT(1, FLASH_SECTOR) + 8)

void flash_attach(struct bootswap_device *device);

#endif
