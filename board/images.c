/*
 * Starts images. A boot left each running image at the front of its primary slot: a header of 32
 * bytes or more (ih_hdr_size), and the body, which is the program.
 *
 * A board of one's own has one image that never returns, as a rule. Then the jump to it is the last
 * thing that the bootloader does. The other images are data, or programs of other processors.
 */
#include "images.h"

#include "jump.h"

/* Where struct image_header has ih_hdr_size and ih_img_size. */
#define HEADER_SIZE_AT 8
#define BODY_SIZE_AT 12

/* Reads a number of N bytes, the lowest first. */
static uint32_t number_at(const uint8_t *bytes, size_t length) {
    uint32_t number = 0;
    while (length--) {
        number = number << 8 | bytes[length];
    }
    return number;
}

static void run_image(const uint8_t *image) {
    jump_to(image + number_at(image + HEADER_SIZE_AT, 2), number_at(image + BODY_SIZE_AT, 4));
}

void run_images(const struct bootswap_device *device) {
    const struct bootswap_setup *setup = device->setup;
    uint32_t at = 0;
    for (uint32_t image = 0; image < setup->images; image++) {
        run_image(device->flash + at);
        at += (setup->sectors[image] + 1) * setup->sector_size;
    }
}
