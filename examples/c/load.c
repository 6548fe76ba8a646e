#include "load.h"

#include <stdio.h>
#include <stdlib.h>
#include <string.h>

static void stop(const char *name, const char *why)
{
    fprintf(stderr, "%s: %s\n", name, why);
    exit(2);
}

static void *room(size_t bytes)
{
    void *m = malloc(bytes ? bytes : 1);
    if (m == NULL)
        stop("booking", "no memory");
    return m;
}

struct bytes load_file(const char *folder, const char *name)
{
    char path[4096];
    if (snprintf(path, sizeof path, "%s/%s", folder, name) >= (int)sizeof path)
        stop(name, "its path is too long");
    FILE *f = fopen(path, "rb");
    if (f == NULL)
        stop(path, "cannot be opened");
    size_t most = 1 << 20;
    uint8_t *start = room(most);
    size_t length = fread(start, 1, most, f);
    if (ferror(f) || length == most)
        stop(path, "cannot be read whole");
    fclose(f);
    return (struct bytes){ start, length };
}

static uint32_t digit(const char *name, uint8_t c)
{
    const char *digits = "0123456789ABCDEF", *found = c ? strchr(digits, c) : NULL;
    if (found == NULL)
        stop(name, "is not hexadecimal in upper case");
    return (uint32_t)(found - digits);
}

/* The digits from *at to the end of the line, `each` of them to a number. */
static struct room_numbers load_line(const char *name, struct bytes file, size_t *at, size_t each)
{
    uint32_t *out = room(file.length * sizeof *out);
    size_t digits = 0;
    for (; *at < file.length && file.start[*at] != '\n'; ++*at, ++digits)
        out[digits / each] = (digits % each ? out[digits / each] << 4 : 0) | digit(name, file.start[*at]);
    ++*at;
    if (digits % each != 0)
        stop(name, "has a line that is not whole");
    return (struct room_numbers){ out, digits / each };
}

struct table load_table(const char *folder, const char *name)
{
    struct bytes file = load_file(folder, name);
    size_t at = 0;
    struct room_numbers types = load_line(name, file, &at, 8), wide = load_line(name, file, &at, 2);
    uint8_t *names = room(wide.length);
    for (size_t i = 0; i < wide.length; i++)
        names[i] = (uint8_t)wide.start[i];
    free(wide.start);
    free((void *)file.start);
    return (struct table){ { types.start, types.length }, { names, wide.length } };
}
