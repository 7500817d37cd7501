/* check [FILE...]: says of each file, or of standard input where none is named, whether it is a lawful patch text.
 * The exit status is 0 if all are accepted, 1 if one is refused, 2 if reading one, or writing the output, failed. */
#include <errno.h>
#include <stdint.h>
#include <stdio.h>
#include <string.h>

#include "patch_check.h"

/* One byte above the longest text: a file of at least so many is refused whatever follows, so the rest is not read. */
enum { ENOUGH = 8193 };

enum { ALL_ACCEPTED = 0, SOME_REFUSED = 1, SOME_UNREAD = 2 };

static int unread(const char *name)
{
    fprintf(stderr, "check: %s: %s\n", name, strerror(errno));
    return SOME_UNREAD;
}

static int check_stream(const char *name, FILE *stream)
{
    uint8_t text[ENOUGH];
    size_t length = fread(text, 1, sizeof text, stream);
    if (ferror(stream)) {
        return unread(name);
    }
    uint32_t answer = patch_check(text, length);
    if (answer == 0) {
        printf("%s: accepted\n", name);
        return ALL_ACCEPTED;
    }
    printf("%s: refusal %u line %u\n", name, (unsigned)PATCH_REFUSAL(answer), (unsigned)PATCH_LINE(answer));
    return SOME_REFUSED;
}

static int check_file(const char *name)
{
    FILE *stream = fopen(name, "rb");
    if (stream == NULL) {
        return unread(name);
    }
    int status = check_stream(name, stream);
    fclose(stream);
    return status;
}

int main(int argc, char **argv)
{
    int worst = ALL_ACCEPTED;
    if (argc < 2) {
        worst = check_stream("standard input", stdin);
    }
    for (int i = 1; i < argc; i++) {
        int status = check_file(argv[i]);
        if (status > worst) {
            worst = status;
        }
    }
    /* A status must not vouch for lines that could not be written. */
    if (fflush(stdout) != 0) {
        perror("check: standard output");
        return SOME_UNREAD;
    }
    return worst;
}
