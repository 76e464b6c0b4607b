/* The version book's session, for a host program in C. Link libsvcd.a, which `tests/static-library svcd_c` proves and writes to
   target/staticlib. */
#ifndef SVCD_H
#define SVCD_H

#include <stddef.h>
#include <stdint.h>

#ifdef __cplusplus
extern "C" {
#endif

/* What svcd_session returns where the listing does not fit. */
#define SVCD_TOO_LONG (-22)

/* The longest text and the longest slice. */
#define SVCD_LONGEST 2147483647

/* A call writes on less than this many bytes of stack; tests/session.sh measures it. */
#define SVCD_STACK 131072

/*
 * Runs the session whose commands stand in text[0 .. text_len - 1], from an empty book, and writes its listing into the slice
 * out[0 .. out_len - 1].
 *
 * It returns the listing's length in bytes, from 0 to SVCD_LONGEST. The listing then stands at the start of the slice, with no NUL
 * after it, and the rest of the slice is untouched. A command that is refused is no error of the call: its row says so.
 *
 * It returns SVCD_TOO_LONG, and the whole slice is zeros, where the listing is longer than the slice, or where text_len or out_len is
 * above SVCD_LONGEST. Call it again with a longer slice, or a shorter text.
 *
 * The text may hold any bytes and needs no NUL at its end. It is only read. Nothing outside the slice is written, nothing outside the
 * text is read, and nothing is kept from one call to the next. It allocates no memory and opens no file, and it always returns. Calls
 * on different slices may run at the same time. Neither pointer may be null, and the text and the slice may not overlap.
 */
int32_t svcd_session(const uint8_t *text, size_t text_len, uint8_t *out, size_t out_len);

#ifdef __cplusplus
}
#endif

#endif
