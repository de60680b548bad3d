/* Starting the images that a boot chose. */
#ifndef IMAGES_H
#define IMAGES_H

#include "driver.h"

/* Starts each running image of the device, in ascending order. */
void run_images(const struct bootswap_device *device);

#endif
