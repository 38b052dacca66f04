/* The image of a volume: a file of the aid's, and what of it is sent. */
#ifndef ASPENBOX_IMAGE_H
#define ASPENBOX_IMAGE_H

#include "store.h"

struct image {
    const char *path;
    size_t length;       /* of the file, in bytes */
    uint16_t count;      /* its blocks, the last one filled up with zeros */
    struct bytes blocks; /* these, and once the image is fitted all blocks of the volume */
    struct bytes prints; /* fingerprints of all blocks */
    struct bytes marks;  /* for each block of the volume 1 if it is sent, else 0 */
    uint16_t changed;    /* how many are */
};

/* Reads the image, before a store is opened, and makes its fingerprints. The path - is standard
 * input. */
void image_load(struct image *image, const char *path);
/* Makes it as long as the volumes of the store; ends the program if it is longer. */
void image_fit(struct image *image, const struct store *store);
/* Marks what has to be sent: the blocks of which the volume's newest backup has another
 * fingerprint or none. */
void image_mark(struct image *image, const struct store *store, uint16_t volume);
/* The change list of the marked blocks; the caller frees it. */
struct bytes image_list(const struct image *image);
void image_free(struct image *image);

#endif
