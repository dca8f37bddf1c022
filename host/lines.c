#include "lines.h"

#include <stdio.h>

static void print_line(FILE *file, struct bytes line)
{
    for (size_t i = 0; i < line.length; i++)
        fprintf(file, "%02x", line.at[i]);
    fputc('\n', file);
}

// The first byte, then each record's kind and body. The box's image was accepted, so its records end where it ends.
static void print_lines(FILE *file, const struct box *box)
{
    print_line(file, (struct bytes){box->image, 1});
    for (size_t at = 1; at < box->image_length;) {
        const size_t length = (size_t)box->image[at] << 8 | box->image[at + 1];
        print_line(file, (struct bytes){box->image + at + 2, 1 + length});
        at += 3 + length;
    }
}

bool write_lines(const struct box *box, const char *lines_path, const char *image_path)
{
    FILE *lines = fopen(lines_path, "w"), *image = fopen(image_path, "wb");
    if (lines)
        print_lines(lines, box);
    const bool whole = image && fwrite(box->image, 1, box->image_length, image) == box->image_length;
    const bool lines_closed = lines && fclose(lines) == 0;
    const bool image_closed = image && fclose(image) == 0;
    return lines_closed && image_closed && whole;
}
