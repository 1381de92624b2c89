/* Reads the file that its word names, parses it with MyHTML in one thread, and frees the tree. */
#include <myhtml/api.h>
#include <stdio.h>
#include <stdlib.h>

int main(int count, char **words) {
    FILE *file = count == 2 ? fopen(words[1], "rb") : NULL;
    if (!file || fseek(file, 0, SEEK_END)) return 1;
    size_t size = ftell(file);
    rewind(file);
    char *text = malloc(size + 1);
    if (!text || fread(text, 1, size, file) != size) return 1;
    myhtml_t *parser = myhtml_create();
    if (myhtml_init(parser, MyHTML_OPTIONS_PARSE_MODE_SINGLE, 1, 0)) return 1;
    myhtml_tree_t *tree = myhtml_tree_create();
    if (myhtml_tree_init(tree, parser)) return 1;
    if (myhtml_parse(tree, MyENCODING_UTF_8, text, size)) return 1;
    int found = myhtml_tree_get_document(tree) != NULL;
    myhtml_tree_destroy(tree);
    myhtml_destroy(parser);
    return found ? 0 : 1;
}
