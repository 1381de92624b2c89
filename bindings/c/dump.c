/* dump [-t | -f NAME SPACE FLAGS] PAGE..: of each page the tree as `specparse page --dump` prints
   it; with -t its text as `specparse page` does, with -f what it is as a fragment in that context;
   or its status. */
#include "specparse.h"
#include <stdio.h>

static uint8_t *read_file(const char *path, size_t *length) {
    FILE *f = fopen(path, "rb");
    if (!f || fseek(f, 0, SEEK_END)) exit(9);
    *length = (size_t)ftell(f);
    rewind(f);
    uint8_t *bytes = (uint8_t *)malloc(*length + 1);
    if (!bytes || fread(bytes, 1, *length, f) != *length) exit(7);
    fclose(f);
    return bytes;
}

/* As a JSON string. */
static void quote(const uint8_t *text, size_t length, const char *front) {
    printf(" \"%s", front);
    for (size_t i = 0; i < length; i++) {
        uint8_t c = text[i];
        switch (c) {
        case '"': case '\\': putchar('\\'); putchar(c); break;
        case '\n': fputs("\\n", stdout); break;
        case '\t': fputs("\\t", stdout); break;
        case '\r': fputs("\\r", stdout); break;
        case '\f': fputs("\\f", stdout); break;
        case '\b': fputs("\\b", stdout); break;
        default: if (c < 32) printf("\\u%04x", c); else putchar(c);
        }
    }
    putchar('"');
}

static void quote_part(const SpTree *t, SpSpan s, const char *front) {
    quote(t->text + s.start, s.length, front);
}

static void line(const SpTree *t, const SpNode *x, int depth) {
    static const char *kinds[] = { "", "element", "text", "comment", "doctype", "contents" };
    static const char *spaces[] = { "", "math ", "svg " };
    printf("node %d %s", depth, kinds[x->kind]);
    if (x->kind != SP_CONTENTS) quote_part(t, x->text, spaces[x->space]);
    for (uint32_t i = 0; i < x->attributes.length; i++) {
        SpAttribute a = t->attributes[x->attributes.start + i];
        quote_part(t, a.name, "");
        quote_part(t, a.value, "");
    }
    putchar('\n');
}

/* What stands under a node: its contents first. */
static void dump(const SpTree *t, uint32_t n, int depth) {
    uint32_t contents = t->nodes[n].contents;
    if (contents != SP_NONE) {
        line(t, &t->nodes[contents], depth);
        dump(t, contents, depth + 1);
    }
    for (uint32_t c = t->nodes[n].first_child; c != SP_NONE; c = t->nodes[c].next) {
        line(t, &t->nodes[c], depth);
        dump(t, c, depth + 1);
    }
}

static uint32_t print_tree(const char *name, char **context, const uint8_t *page, size_t length) {
    uint32_t space = name ? (uint32_t)atoi(context[0]) : SP_HTML;
    uint32_t flags = name ? (uint32_t)atoi(context[1]) : 0;
    SpTree t;
    uint32_t status = sp_tree_fragment(name, space, flags, page, length, &t);
    if (status == SP_DONE) {
        dump(&t, (uint32_t)t.sizes.root, 0);
        puts("end");
        sp_tree_free(&t);
    }
    return status;
}

static uint32_t print_text(const uint8_t *page, size_t length) {
    uint8_t *text = NULL;
    size_t needed = 0, room;
    uint32_t status;
    do {
        room = needed;
        free(text);
        text = (uint8_t *)malloc(room + 1);
        if (!text) return SP_NO_MEMORY;
        status = sp_html(sp_standard_entities, sp_standard_entities_length, page, length, text,
                         room, &needed);
    } while (status == SP_NO_ROOM);
    if (status == SP_DONE) {
        fputs("tree", stdout);
        quote(text, needed, "");
        putchar('\n');
    }
    free(text);
    return status;
}

int main(int count, char **words) {
    int has_text = count > 1 && !strcmp(words[1], "-t");
    int has_name = count > 4 && !strcmp(words[1], "-f");
    for (int i = has_name ? 5 : has_text ? 2 : 1; i < count; i++) {
        size_t length;
        uint8_t *page = read_file(words[i], &length);
        const char *name = has_name ? words[2] : NULL;
        uint32_t status = has_text ? print_text(page, length)
                                   : print_tree(name, words + 3, page, length);
        if (status != SP_DONE) printf("status %u\n", (unsigned)status);
        free(page);
    }
    return 0;
}
