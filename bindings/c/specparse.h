/* specparse.h: the tree of a page or of a fragment in the caller's room, and a page's text, all
   without its scripts; and what the command prints of a page that is run with its scripts. No call
   keeps anything; any thread may make one, and as many at once as one likes.
   For Linux on x86-64, C99 or C++; link bindings/out/libspecparse.a, and nothing else.

   What a caller owes: each pointer is that of as many items as the number behind it says, is
   aligned and isn't null, also where the number is 0; what is written to overlaps nothing else, and
   nobody else writes to any of it meanwhile. malloc, realloc and free come from one allocator. Not
   from a signal handler, nor in the forked child of a process with threads. */
#ifndef SPECPARSE_H
#define SPECPARSE_H
#include <stddef.h>
#include <stdint.h>
#include <stdlib.h>
#include <string.h>
#ifdef __cplusplus
extern "C" {
#endif

#define SP_NONE UINT32_MAX /* no node */

/* What a call answers: it is done; there is no such context, or the scripts or flags of a run
   aren't in order; the bytes are no list of entities; the page isn't UTF-8; it passes a limit (512
   open elements, 1,073,741,824 bytes of a page, 1,048,576 characters that its scripts write); want
   of memory; a room is too small. */
enum {
    SP_DONE = 0, SP_CONTEXT = 2, SP_ENTITIES = 3, SP_BAD_UTF8 = 4, SP_LIMIT = 5,
    SP_NO_MEMORY = 12, SP_NO_ROOM = 13
};

enum { SP_DOCUMENT, SP_ELEMENT, SP_TEXT, SP_COMMENT, SP_DOCTYPE, SP_CONTENTS }; /* kinds of nodes */
enum { SP_HTML, SP_MATHML, SP_SVG };                                            /* namespaces */

/* Flags of a context: an annotation-xml that is an HTML integration point; a form, or an element
   that stands in one; an element of a document in quirks mode. */
enum { SP_POINT = 1, SP_IN_FORM = 2, SP_QUIRKS = 4 };

/* A part of a list: `length` items from number `start` on. */
typedef struct { uint32_t start, length; } SpSpan;

/* A node. Its number is its place in the list; a link is such a number, or SP_NONE. */
typedef struct {
    uint32_t kind, space;
    uint32_t parent, first_child, last_child, previous, next;
    uint32_t contents;  /* of a template: the node whose children are its contents */
    SpSpan attributes;  /* a part of the list of attributes */
    SpSpan text;        /* a part of the text, in UTF-8: the name of an element or a doctype,
                           the text of a text or a comment */
} SpNode;

typedef struct { SpSpan name, value; } SpAttribute; /* parts of the text */

/* How much a tree takes, and the node under which it stands: a page's is its Document, 0. Nodes
   that aren't met from there, since they were made and dropped again, are in the list too. */
typedef struct { size_t nodes, attributes, text, root; } SpSizes;

typedef char sp_node_has_48_bytes[sizeof(SpNode) == 48 ? 1 : -1];
typedef char sp_attribute_has_16_bytes[sizeof(SpAttribute) == 16 ? 1 : -1];

/* The standard's list of entities, prepared: what each call wants first. */
extern const uint8_t sp_standard_entities[];
extern const size_t sp_standard_entities_length;

/* A list of entities, prepared, of `needed` bytes. Each call takes a list, this one too, as JSON (a
   file like the standard's entities.json, which begins with white space or a brace) or prepared,
   which is read in a small part of the time. Who needs no list of his own needs no such call. */
uint32_t sp_entities(const uint8_t *entities, size_t entities_length,
                     uint8_t *room, size_t room_length, size_t *needed);

/* The tree of a page. At SP_DONE the fronts of the three rooms, as long as `sizes` says, are the
   tree. At SP_NO_ROOM `sizes` says what is needed, and else it is 0; nothing was written to the
   rooms then. */
uint32_t sp_parse(const uint8_t *entities, size_t entities_length,
                  const uint8_t *page, size_t page_length,
                  SpNode *nodes, size_t nodes_room,
                  SpAttribute *attributes, size_t attributes_room,
                  uint8_t *text, size_t text_room, SpSizes *sizes);

/* The text of a page's tree, its HTML, of `needed` bytes. */
uint32_t sp_html(const uint8_t *entities, size_t entities_length,
                 const uint8_t *page, size_t page_length,
                 uint8_t *text, size_t text_room, size_t *needed);

/* The tree of a text as innerHTML makes it in an element of that name and namespace: the children
   of `sizes->root`. */
uint32_t sp_fragment(const uint8_t *entities, size_t entities_length,
                     const uint8_t *name, size_t name_length, uint32_t space, uint32_t flags,
                     const uint8_t *source, size_t source_length,
                     SpNode *nodes, size_t nodes_room,
                     SpAttribute *attributes, size_t attributes_room,
                     uint8_t *text, size_t text_room, SpSizes *sizes);

/* Flags of a run: the tree's dump in the place of its text. */
enum { SP_DUMP = 1 };

/* A page is run with its scripts, as the command does: what it prints, the lines of the scripts and
   then the tree, of `needed` bytes. A script's `name` and `value`, its text, are parts of `bytes`;
   of two of one name the later counts, and one that isn't among them is missing. Where the page is
   refused, SP_BAD_UTF8 or SP_LIMIT, what is printed up to there and the reason are in the room.
   SP_CONTEXT: a part isn't in the bytes, a name isn't UTF-8, or there are no such flags. At
   SP_NO_ROOM `needed` says what is needed, and at the statuses left it is 0; nothing was written
   to the room then. */
uint32_t sp_run(const uint8_t *entities, size_t entities_length,
                const uint8_t *page, size_t page_length,
                const SpAttribute *scripts, size_t scripts_count,
                const uint8_t *bytes, size_t bytes_length, uint32_t flags,
                uint8_t *text, size_t text_room, size_t *needed);

/* ---- a tree in room of its own */

typedef struct { SpNode *nodes; SpAttribute *attributes; uint8_t *text; SpSizes sizes; } SpTree;

static inline void sp_tree_free(SpTree *t) {
    free(t->nodes);
    free(t->attributes);
    free(t->text);
    memset(t, 0, sizeof *t);
}

/* A call into the room of a tree. */
static inline uint32_t sp_tree_fill(const char *name, uint32_t space, uint32_t flags,
                                    const uint8_t *source, size_t length, SpTree *t) {
    SpSizes room = t->sizes;
    if (name)
        return sp_fragment(sp_standard_entities, sp_standard_entities_length,
                           (const uint8_t *)name, strlen(name), space, flags, source, length,
                           t->nodes, room.nodes, t->attributes, room.attributes,
                           t->text, room.text, &t->sizes);
    return sp_parse(sp_standard_entities, sp_standard_entities_length, source, length,
                    t->nodes, room.nodes, t->attributes, room.attributes,
                    t->text, room.text, &t->sizes);
}

/* The tree of a text in an element of that name; without a name (null) that of a page. Room is
   guessed (what isn't written to isn't held), and where that was too small it is parsed again. */
static inline uint32_t sp_tree_fragment(const char *name, uint32_t space, uint32_t flags,
                                        const void *source, size_t length, SpTree *t) {
    SpSizes room = { length / 2 + 64, length / 4 + 64, length + length / 8 + 256, 0 };
    const uint8_t *from = (const uint8_t *)(length ? source : "");
    for (;;) {
        uint32_t status = SP_NO_MEMORY;
        t->nodes = (SpNode *)malloc((room.nodes + 1) * sizeof(SpNode));
        t->attributes = (SpAttribute *)malloc((room.attributes + 1) * sizeof(SpAttribute));
        t->text = (uint8_t *)malloc(room.text + 1);
        t->sizes = room;
        if (t->nodes && t->attributes && t->text)
            status = sp_tree_fill(name, space, flags, from, length, t);
        if (status == SP_DONE) return status;
        room = t->sizes;
        sp_tree_free(t);
        if (status != SP_NO_ROOM) return status;
    }
}

/* The tree of a page; sp_tree_free frees it. At another status than SP_DONE there is none. */
static inline uint32_t sp_tree_parse(const void *page, size_t length, SpTree *t) {
    return sp_tree_fragment(NULL, SP_HTML, 0, page, length, t);
}

/* The next node in tree order under `top`, or SP_NONE. A template's contents are a tree of their
   own. */
static inline uint32_t sp_next(const SpTree *t, uint32_t top, uint32_t n) {
    if (t->nodes[n].first_child != SP_NONE) return t->nodes[n].first_child;
    while (n != top && n != SP_NONE) {
        if (t->nodes[n].next != SP_NONE) return t->nodes[n].next;
        n = t->nodes[n].parent;
    }
    return SP_NONE;
}

static inline int sp_same(const SpTree *t, SpSpan s, const char *text) {
    return s.length == strlen(text) && memcmp(t->text + s.start, text, s.length) == 0;
}

/* Whether the node is an HTML element of that name. */
static inline int sp_is(const SpTree *t, uint32_t n, const char *name) {
    const SpNode *x = &t->nodes[n];
    return x->kind == SP_ELEMENT && x->space == SP_HTML && sp_same(t, x->text, name);
}

/* The value of an attribute, of `*length` bytes and with no zero byte behind them, or null. */
static inline const uint8_t *sp_attribute(const SpTree *t, uint32_t n, const char *name,
                                          size_t *length) {
    const SpAttribute *a = t->attributes + t->nodes[n].attributes.start;
    const SpAttribute *end = a + t->nodes[n].attributes.length;
    for (; a != end; a++) {
        if (sp_same(t, a->name, name)) {
            *length = a->value.length;
            return t->text + a->value.start;
        }
    }
    return NULL;
}

/* ---- a run in room of its own */

/* Scripts under their names. All of it zero is none. */
typedef struct {
    SpAttribute *rows;
    size_t count, rows_room;
    uint8_t *bytes;
    size_t length, bytes_room;
} SpScripts;

static inline void sp_scripts_free(SpScripts *s) {
    free(s->rows);
    free(s->bytes);
    memset(s, 0, sizeof *s);
}

/* The same items in room for more than `wanted`, or null, at want of memory, when they stay. */
static inline void *sp_grown(void *items, size_t *room, size_t wanted, size_t size) {
    if (wanted < *room) return items;
    void *grown = realloc(items, (wanted + wanted / 2 + 16) * size);
    if (grown) *room = wanted + wanted / 2 + 16;
    return grown;
}

/* Adds a script; of two of one name the later counts. SP_NO_MEMORY, when nothing is added, also
   where all names and texts have more than 4,294,967,295 bytes. */
static inline uint32_t sp_scripts_add(SpScripts *s, const char *name, const void *text,
                                      size_t length) {
    const size_t most = UINT32_MAX, start = s->length, named = strlen(name);
    if (named > most - start || length > most - start - named) return SP_NO_MEMORY;
    SpAttribute *rows = (SpAttribute *)sp_grown(s->rows, &s->rows_room, s->count, sizeof *rows);
    if (!rows) return SP_NO_MEMORY;
    s->rows = rows;
    uint8_t *bytes = (uint8_t *)sp_grown(s->bytes, &s->bytes_room, start + named + length, 1);
    if (!bytes) return SP_NO_MEMORY;
    s->bytes = bytes;
    memcpy(bytes + start, name, named);
    if (length) memcpy(bytes + start + named, text, length);
    s->length = start + named + length;
    rows += s->count++;
    rows->name.start = (uint32_t)start;
    rows->name.length = (uint32_t)named;
    rows->value.start = (uint32_t)(start + named);
    rows->value.length = (uint32_t)length;
    return SP_DONE;
}

/* What sp_run prints of a page with these scripts, of `*printed` bytes, to be freed: at SP_DONE,
   and where the page is refused, SP_BAD_UTF8 or SP_LIMIT. At another status `*text` is null. Room
   is guessed, and where that was too small the page is run again. */
static inline uint32_t sp_scripts_run(const SpScripts *s, uint32_t flags, const void *page,
                                      size_t length, uint8_t **text, size_t *printed) {
    const SpAttribute none = { { 0, 0 }, { 0, 0 } };
    const uint8_t *empty = (const uint8_t *)"";
    size_t room = length + length / 4 + 4096;
    for (;;) {
        uint32_t status = SP_NO_MEMORY;
        *printed = 0;
        *text = (uint8_t *)malloc(room + 1);
        if (*text)
            status = sp_run(sp_standard_entities, sp_standard_entities_length,
                            length ? (const uint8_t *)page : empty, length,
                            s->count ? s->rows : &none, s->count,
                            s->length ? s->bytes : empty, s->length, flags, *text, room, printed);
        if (status == SP_DONE || status == SP_BAD_UTF8 || status == SP_LIMIT) return status;
        free(*text);
        *text = NULL;
        if (status != SP_NO_ROOM) return status;
        room = *printed;
    }
}

#ifdef __cplusplus
}
#endif
#endif
