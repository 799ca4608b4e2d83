/* Prints the listing of the script in a file: a C program that calls the library.
 *
 *   mkdir -p target/bin && tests/build capi
 *   cc -Iinclude examples/listing.c target/staticlib/libcapi.a -o target/bin/listing
 *   target/bin/listing sessions/session.script
 *
 * Exit status 0 if the listing was printed, 2 if not.
 */
#include "escarpoll.h"

#include <stdio.h>
#include <stdlib.h>

static int stop(const char *what, const char *name) {
    fprintf(stderr, "listing: ");
    if (name != NULL) {
        fprintf(stderr, "%s: ", name);
    }
    fprintf(stderr, "%s\n", what);
    return 2;
}

/* The listing in a buffer of its own, which grows until all of it fits; null if there is no memory. */
static uint8_t *listing_of(const uint8_t *script, size_t script_len, size_t *len) {
    uint8_t *out = NULL;
    bool whole = false;
    for (size_t room = 1024; !whole; room *= 2) {
        uint8_t *more = realloc(out, room);
        if (more == NULL) {
            free(out);
            return NULL;
        }
        out = more;
        *len = escarpoll_listing(script, script_len, out, room, &whole);
    }
    return out;
}

int main(int argc, char **argv) {
    /* one byte more than a script may have, so that a longer file is seen to be longer */
    static uint8_t script[ESCARPOLL_SCRIPT_MAX + 1];
    if (argc != 2) {
        return stop("wants one file", NULL);
    }
    FILE *file = fopen(argv[1], "rb");
    if (file == NULL) {
        return stop("cannot be opened", argv[1]);
    }
    size_t script_len = fread(script, 1, sizeof script, file);
    bool failed = ferror(file) != 0;
    fclose(file);
    if (failed) {
        return stop("cannot be read", argv[1]);
    }

    size_t len;
    uint8_t *listing = listing_of(script, script_len, &len);
    if (listing == NULL) {
        return stop("no memory", NULL);
    }
    bool written = fwrite(listing, 1, len, stdout) == len && fflush(stdout) == 0;
    free(listing);
    return written ? 0 : stop("the listing cannot be written", NULL);
}
