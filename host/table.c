/* Checks a table of texts: reads lines `name: text` from standard input and prints lines `name: verdict`.
 * In a text `/` stands for a line feed, `^` for a carriage return, and `{N*S}` for N times the character S.
 * The exit status is 0, or 2 if a line is no such line or the check cannot be made. */
#define _DEFAULT_SOURCE /* getline and MAP_ANONYMOUS, which C11 alone does not have */

#include <ctype.h>
#include <stdbool.h>
#include <stdint.h>
#include <stdio.h>
#include <stdlib.h>
#include <string.h>
#include <sys/mman.h>
#include <unistd.h>

#include "patch_check.h"

/* Above every text of a table, and a whole number of pages. */
enum { ROOM = 65536 };

struct text {
    uint8_t bytes[ROOM];
    size_t length;
};

static _Noreturn void stop(const char *why, unsigned long line)
{
    fprintf(stderr, "table: line %lu: %s\n", line, why);
    exit(2);
}

static uint8_t byte_of(char symbol)
{
    switch (symbol) {
    case '/':
        return '\n';
    case '^':
        return '\r';
    default:
        return (uint8_t)symbol;
    }
}

static bool expand(const char *from, struct text *text)
{
    text->length = 0;
    while (*from != '\0') {
        char symbol = *from++;
        unsigned long times = 1;
        if (symbol == '{') {
            if (!isdigit((unsigned char)*from)) {
                return false;
            }
            char *after;
            times = strtoul(from, &after, 10);
            if (after[0] != '*' || after[1] == '\0' || after[2] != '}') {
                return false;
            }
            symbol = after[1];
            from = after + 3;
        }
        if (times > ROOM - text->length) {
            return false;
        }
        memset(text->bytes + text->length, byte_of(symbol), times);
        text->length += times;
    }
    return true;
}

/* Memory of ROOM bytes between two pages that cannot be touched, or NULL. */
static uint8_t *fenced_room(void)
{
    size_t page = (size_t)sysconf(_SC_PAGESIZE);
    uint8_t *all = mmap(NULL, page + ROOM + page, PROT_NONE, MAP_PRIVATE | MAP_ANONYMOUS, -1, 0);
    return all == MAP_FAILED ? NULL : all + page;
}

/* Checks a text that lies at `offset` in the room, which can only be read meanwhile. False if that cannot be had. */
static bool check_at(uint8_t *room, size_t offset, const struct text *text, uint32_t *answer)
{
    if (mprotect(room, ROOM, PROT_READ | PROT_WRITE) != 0) {
        return false;
    }
    memcpy(room + offset, text->bytes, text->length);
    if (mprotect(room, ROOM, PROT_READ) != 0) {
        return false;
    }
    *answer = patch_check(room + offset, text->length);
    return true;
}

int main(void)
{
    static struct text text;
    char *line = NULL;
    size_t size = 0;
    ssize_t got;
    unsigned long number = 0;

    uint8_t *room = fenced_room();
    if (room == NULL) {
        stop("no memory", number);
    }
    /* Should a check crash, the lines before it are still seen. */
    setvbuf(stdout, NULL, _IOLBF, 0);
    while ((got = getline(&line, &size, stdin)) > 0) {
        number++;
        if (line[got - 1] == '\n') {
            line[got - 1] = '\0';
        }
        char *colon = strstr(line, ": ");
        if (colon == NULL || !expand(colon + 2, &text)) {
            stop("not of the form `name: text`, or the text is too long", number);
        }
        *colon = '\0';

        /* The library is compiled without sanitizers, which thus do not see what it reads. The fences do: once the text
         * begins right after the lower one, once it ends right before the upper one. */
        uint32_t low, high;
        if (!check_at(room, 0, &text, &low) || !check_at(room, ROOM - text.length, &text, &high)) {
            stop("memory cannot be protected", number);
        }
        if (low != high) {
            stop("the verdict depends on where the text lies", number);
        }
        if (low == 0) {
            printf("%s: accepted\n", line);
        } else {
            printf("%s: refusal %u line %u\n", line, (unsigned)PATCH_REFUSAL(low), (unsigned)PATCH_LINE(low));
        }
    }
    free(line);
    if (ferror(stdin) || fflush(stdout) != 0) {
        stop("standard input or output failed", number);
    }
    return 0;
}
