/* Reads the file that its word names, makes its tree by sp_parse, walks it, and frees it. */
#include "specparse.h"
#include <stdio.h>

int main(int count, char **words) {
    FILE *file = count == 2 ? fopen(words[1], "rb") : NULL;
    if (!file || fseek(file, 0, SEEK_END)) return 1;
    size_t size = (size_t)ftell(file), links = 0;
    rewind(file);
    char *page = (char *)malloc(size + 1);
    if (!page || fread(page, 1, size, file) != size) return 1;
    SpTree t;
    if (sp_tree_parse(page, size, &t) != SP_DONE) return 1;
    for (uint32_t n = 0; n != SP_NONE; n = sp_next(&t, 0, n)) links += sp_is(&t, n, "a");
    sp_tree_free(&t);
    free(page);
    return links > size;
}
