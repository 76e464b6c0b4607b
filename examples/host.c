/* An example host: runs the session on the text in a file and prints the listing.
 *
 *     host FILE [BYTES]
 *
 * The library allocates nothing, so the host lends it the slice. It begins with a slice of BYTES bytes (4096 without them), and doubles it
 * for as long as the answer is minus 22.
 */
#include "svcd.h"

#include <stdio.h>
#include <stdlib.h>

enum { FIRST_SLICE = 4096, CHUNK = 4096 };

struct bytes {
    uint8_t *start;
    size_t length;
};

/* Makes room for at least one byte, so that the pointer is never null. */
static int resize(struct bytes *room, size_t length)
{
    uint8_t *start = realloc(room->start, length > 0 ? length : 1);
    if (start == NULL) {
        return 0;
    }
    room->start = start;
    return 1;
}

/* Reads the whole file; 0 where it can't. */
static int read_file(const char *name, struct bytes *text)
{
    FILE *file = fopen(name, "rb");
    size_t got = CHUNK;
    if (file == NULL) {
        return 0;
    }
    while (got == CHUNK && resize(text, text->length + CHUNK)) {
        got = fread(text->start + text->length, 1, CHUNK, file);
        text->length += got;
    }
    int whole = feof(file) && !ferror(file);
    fclose(file);
    return whole;
}

/* What a host that can't lend more shows in the listing's place. The refused slice is all zeros, so nothing of it is shown by mistake. */
static int give_up(const struct bytes *slice)
{
    for (size_t i = 0; i < slice->length; i++) {
        if (slice->start[i] != 0) {
            fprintf(stderr, "host: byte %zu of the refused slice is not 0\n", i);
            return 1;
        }
    }
    puts("0,22");
    return 0;
}

/* Calls the session with longer and longer slices, until its listing fits. */
static int show(const struct bytes *text, struct bytes *slice)
{
    for (;;) {
        int32_t length = svcd_session(text->start, text->length, slice->start, slice->length);
        if (length != SVCD_TOO_LONG) {
            size_t written = fwrite(slice->start, 1, (size_t)length, stdout);
            return written == (size_t)length ? 0 : 1;
        }
        fprintf(stderr, "host: %zu bytes are too few\n", slice->length);
        size_t longer = slice->length < FIRST_SLICE ? FIRST_SLICE : 2 * slice->length;
        if (text->length > SVCD_LONGEST || longer > SVCD_LONGEST || !resize(slice, longer)) {
            return give_up(slice);
        }
        slice->length = longer;
    }
}

int main(int count, char **words)
{
    struct bytes text = {NULL, 0};
    struct bytes slice = {NULL, FIRST_SLICE};
    int status = 1;
    if (count != 2 && count != 3) {
        fprintf(stderr, "usage: host FILE [BYTES]\n");
        return 2;
    }
    if (count == 3) {
        slice.length = strtoul(words[2], NULL, 10);
    }
    if (!read_file(words[1], &text)) {
        fprintf(stderr, "host: %s can't be read\n", words[1]);
    } else if (!resize(&slice, slice.length)) {
        fprintf(stderr, "host: there is no memory for the slice\n");
    } else {
        status = show(&text, &slice);
    }
    free(text.start);
    free(slice.start);
    return status;
}
