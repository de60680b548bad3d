/* The flash of the machine: as bootswap sees it, 16 sectors of 4 KiB. */
#ifndef FLASH_H
#define FLASH_H

#include "driver.h"

#define FLASH_SECTOR 4096u
#define FLASH_SECTORS 16u

/* Gives a device its driver, and the memory in which the library reads the flash: the part itself,
 * or a copy of it. */
void flash_attach(struct bootswap_device *device);

#endif
