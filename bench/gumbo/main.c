/* Reads the file that its word names, parses it with gumbo, and frees the tree. */
#include <gumbo.h>
#include <stdio.h>
#include <stdlib.h>

int main(int count, char **words) {
    FILE *file = count == 2 ? fopen(words[1], "rb") : NULL;
    if (!file || fseek(file, 0, SEEK_END)) return 1;
    size_t size = ftell(file);
    rewind(file);
    char *text = malloc(size + 1);
    if (!text || fread(text, 1, size, file) != size) return 1;
    GumboOutput *out = gumbo_parse_with_options(&kGumboDefaultOptions, text, size);
    int found = out->root != NULL;
    gumbo_destroy_output(&kGumboDefaultOptions, out);
    return found ? 0 : 1;
}
