// A box's image as the lines of hex that the bench's program `make_image` reads.
#ifndef LINES_H
#define LINES_H

#include "box.h"

// Writes the lines of the box's image to one file, and the image itself to another.
bool write_lines(const struct box *box, const char *lines_path, const char *image_path);

#endif
