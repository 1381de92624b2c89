/* prepare FILE: the list of entities in that JSON file, prepared, on stdout; or what is wrong, and
   the status of the call. */
#include "specparse.h"
#include <stdio.h>

static int fail(const char *what, int status) {
    fprintf(stderr, "prepare: %s\n", what);
    return status;
}

int main(int count, char **words) {
    FILE *file = count == 2 ? fopen(words[1], "rb") : NULL;
    if (!file || fseek(file, 0, SEEK_END)) return fail("there is no such file", 9);
    size_t length = (size_t)ftell(file), needed = 0;
    rewind(file);
    /* what is prepared is shorter than the file, as a rule; where it isn't the call says so */
    uint8_t *bytes = (uint8_t *)malloc(length + 1), *room = (uint8_t *)malloc(length + 1);
    if (!bytes || !room) return fail("want of memory", SP_NO_MEMORY);
    if (fread(bytes, 1, length, file) != length) return fail("the file can't be read", 7);
    uint32_t status = sp_entities(bytes, length, room, length, &needed);
    if (status != SP_DONE) return fail("the file isn't prepared", (int)status);
    if (fwrite(room, 1, needed, stdout) != needed || fflush(stdout))
        return fail("the list can't be written", 8);
    return 0;
}
