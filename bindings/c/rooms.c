/* rooms ENTITIES PAGE..: what the calls do with rooms, over pages that aren't refused, and over the
   same as fragments. A room that is one item too small gives SP_NO_ROOM, the exact sizes, and
   untouched rooms; what stands behind a tree stays; a refusal has its status and writes nothing,
   but of a run what was printed; four threads at once make and print the same. The archive's list
   is what sp_entities makes of that JSON file. */
#define _POSIX_C_SOURCE 200809L
#include "specparse.h"
#include <pthread.h>
#include <stdio.h>

#define CHECK(fact) do { \
    if (!(fact)) { fprintf(stderr, "rooms: line %d: " #fact "\n", __LINE__); exit(1); } \
} while (0)
enum { MARK = 0xEE, BEHIND = 64, MOST = 1000 };

/* A page, or with a name a text in an element of that name and namespace. */
typedef struct {
    const char *entities, *name;
    uint32_t space, flags;
    const uint8_t *source;
    size_t length;
} Job;

static Job page_of(const void *source, size_t length) {
    Job j = { NULL, NULL, SP_HTML, 0, (const uint8_t *)source, length };
    return j;
}

static Job text_in(const char *name, uint32_t space, uint32_t flags, const char *source) {
    Job j = { NULL, name, space, flags, (const uint8_t *)source, strlen(source) };
    return j;
}

static uint32_t call(Job j, SpNode *nodes, size_t n, SpAttribute *attributes, size_t a,
                     uint8_t *text, size_t t, SpSizes *sizes) {
    const uint8_t *list = j.entities ? (const uint8_t *)j.entities : sp_standard_entities;
    size_t length = j.entities ? strlen(j.entities) : sp_standard_entities_length;
    if (!j.name)
        return sp_parse(list, length, j.source, j.length, nodes, n, attributes, a, text, t, sizes);
    return sp_fragment(list, length, (const uint8_t *)j.name, strlen(j.name), j.space, j.flags,
                       j.source, j.length, nodes, n, attributes, a, text, t, sizes);
}

static uint8_t *read_file(const char *path, size_t *length) {
    FILE *f = fopen(path, "rb");
    if (!f || fseek(f, 0, SEEK_END)) exit(9);
    *length = (size_t)ftell(f);
    rewind(f);
    uint8_t *bytes = (uint8_t *)malloc(*length + 1);
    if (!bytes || fread(bytes, 1, *length, f) != *length) exit(7);
    fclose(f);
    return bytes;
}

/* ---- rooms with marks behind them */

static int is_marked(const void *room, size_t from, size_t to) {
    for (size_t i = from; i < to; i++)
        if (((const uint8_t *)room)[i] != MARK) return 0;
    return 1;
}

static void *marked(size_t bytes) {
    void *room = malloc(bytes + BEHIND);
    CHECK(room);
    memset(room, MARK, bytes + BEHIND);
    return room;
}

/* Makes a call into rooms of that size; it must give that status and those sizes, and write the
   whole rooms at SP_DONE, nothing at another status, and never a byte behind a room. */
static void try_rooms(Job j, size_t n, size_t a, size_t t, uint32_t wanted, SpSizes sizes) {
    size_t nb = n * sizeof(SpNode), ab = a * sizeof(SpAttribute);
    SpNode *nodes = (SpNode *)marked(nb);
    SpAttribute *attributes = (SpAttribute *)marked(ab);
    uint8_t *text = (uint8_t *)marked(t);
    SpSizes got;
    memset(&got, MARK, sizeof got);
    CHECK(call(j, nodes, n, attributes, a, text, t, &got) == wanted);
    CHECK(!memcmp(&got, &sizes, sizeof got));
    int done = wanted == SP_DONE;
    CHECK(is_marked(nodes, done ? nb : 0, nb + BEHIND));
    CHECK(is_marked(attributes, done ? ab : 0, ab + BEHIND));
    CHECK(is_marked(text, done ? t : 0, t + BEHIND));
    free(nodes);
    free(attributes);
    free(text);
}

/* A tree in rooms that fit, and in each that is one item too small, or larger than needed. */
static void try_sizes(Job j, SpSizes s) {
    try_rooms(j, s.nodes, s.attributes, s.text, SP_DONE, s);
    try_rooms(j, s.nodes - 1, s.attributes, s.text, SP_NO_ROOM, s);
    if (s.attributes) try_rooms(j, s.nodes, s.attributes - 1, s.text, SP_NO_ROOM, s);
    if (s.text) try_rooms(j, s.nodes, s.attributes, s.text - 1, SP_NO_ROOM, s);
    try_rooms(j, 0, 0, 0, SP_NO_ROOM, s);
}

/* What stands behind the tree stays, where the rooms are larger. */
static void try_larger(Job j, SpSizes s) {
    SpNode *nodes = (SpNode *)marked((s.nodes + 1) * sizeof(SpNode));
    SpAttribute *attributes = (SpAttribute *)marked((s.attributes + 1) * sizeof(SpAttribute));
    uint8_t *text = (uint8_t *)marked(s.text + 1);
    SpSizes got;
    CHECK(call(j, nodes, s.nodes + 1, attributes, s.attributes + 1, text, s.text + 1, &got) == 0);
    CHECK(!memcmp(&got, &s, sizeof got));
    CHECK(is_marked(nodes + s.nodes, 0, sizeof(SpNode) + BEHIND));
    CHECK(is_marked(attributes + s.attributes, 0, sizeof(SpAttribute) + BEHIND));
    CHECK(is_marked(text + s.text, 0, 1 + BEHIND));
    free(nodes);
    free(attributes);
    free(text);
}

static uint32_t html(Job j, uint8_t *text, size_t room, size_t *needed) {
    return sp_html(sp_standard_entities, sp_standard_entities_length, j.source, j.length, text,
                   room, needed);
}

static void try_html(Job j) {
    size_t needed, again;
    uint8_t none[1];
    CHECK(html(j, none, 0, &needed) == SP_NO_ROOM && needed);
    for (size_t lack = 0; lack <= 1; lack++) {
        uint8_t *text = (uint8_t *)marked(needed);
        CHECK(html(j, text, needed - lack, &again) == (lack ? SP_NO_ROOM : SP_DONE));
        CHECK(again == needed && is_marked(text, lack ? 0 : needed, needed + BEHIND));
        free(text);
    }
}

/* ---- refusals */

static void refused(Job j, uint32_t wanted) {
    SpSizes none = { 0, 0, 0, 0 };
    try_rooms(j, 64, 64, 64, wanted, none);
    if (j.name || j.entities) return;
    uint8_t *text = (uint8_t *)marked(64);
    size_t needed = MARK;
    CHECK(html(j, text, 64, &needed) == wanted && needed == 0 && is_marked(text, 0, 64 + BEHIND));
    free(text);
}

static void try_refusals(void) {
    char deep[600 * 3 + 1] = "";
    for (int i = 0; i < 600; i++) memcpy(deep + 3 * i, "<i>", 4);
    refused(page_of("a\xff", 2), SP_BAD_UTF8);
    refused(page_of(deep, strlen(deep)), SP_LIMIT);
    refused(text_in("div", SP_HTML, 0, "a\xff"), SP_BAD_UTF8);
    refused(text_in("div", SP_HTML, 0, deep), SP_LIMIT);
    refused(text_in("\xff", SP_HTML, 0, "a"), SP_CONTEXT);
    refused(text_in("div", SP_SVG + 1, 0, "a"), SP_CONTEXT);
    refused(text_in("div", SP_HTML, 8, "a"), SP_CONTEXT);
    Job page = page_of("a", 1), text = text_in("div", SP_HTML, 0, "a");
    page.entities = text.entities = "[]";
    refused(page, SP_ENTITIES);
    refused(text, SP_ENTITIES);
}

/* ---- lists of entities */

/* That list gives the archive's, in a room that fits; in one that is too small nothing. */
static void prepares(const uint8_t *list, size_t length) {
    size_t wanted = sp_standard_entities_length, needed;
    for (size_t room = wanted - 1; room <= wanted + 1; room++) {
        int done = room >= wanted;
        uint8_t *bytes = (uint8_t *)marked(room);
        CHECK(sp_entities(list, length, bytes, room, &needed) == (done ? SP_DONE : SP_NO_ROOM));
        CHECK(needed == wanted && is_marked(bytes, done ? wanted : 0, room + BEHIND));
        CHECK(!done || !memcmp(bytes, sp_standard_entities, wanted));
        free(bytes);
    }
}

static void no_list(const uint8_t *list, size_t length) {
    uint8_t room[1] = { MARK };
    size_t needed = MARK;
    CHECK(sp_entities(list, length, room, 1, &needed) == SP_ENTITIES);
    CHECK(needed == 0 && room[0] == MARK);
}

/* The same of the JSON file and of the prepared list; of a part of the latter, or of one with
   something behind it, nothing. */
static void try_entities(const char *path) {
    size_t length, own = sp_standard_entities_length;
    uint8_t *json = read_file(path, &length), *list = (uint8_t *)malloc(own + 1);
    CHECK(list);
    memcpy(list, sp_standard_entities, own);
    list[own] = 0;
    prepares(json, length);
    prepares(list, own);
    for (size_t cut = 0; cut < own; cut += cut < 100 ? 1 : 997) no_list(list, cut);
    no_list(list, own + 1);
    free(json);
    free(list);
}

/* ---- runs */

static uint32_t run(const SpScripts *s, uint32_t flags, const char *page, uint8_t *text,
                    size_t room, size_t *needed) {
    return sp_run(sp_standard_entities, sp_standard_entities_length, (const uint8_t *)page,
                  strlen(page), s->rows, s->count, s->bytes, s->length, flags, text, room, needed);
}

/* The page ends so, and that is printed; into a room that is too small nothing. */
static void prints(const SpScripts *s, uint32_t flags, const char *page, uint32_t wanted,
                   const char *printed) {
    const uint32_t no_room = SP_NO_ROOM;
    size_t size = strlen(printed), needed;
    uint8_t *text;
    for (size_t room = size - 1; room <= size + 1; room++) {
        int done = room >= size;
        text = (uint8_t *)marked(room);
        CHECK(run(s, flags, page, text, room, &needed) == (done ? wanted : no_room));
        CHECK(needed == size && is_marked(text, done ? size : 0, room + BEHIND));
        CHECK(!done || !memcmp(text, printed, size));
        free(text);
    }
    CHECK(sp_scripts_run(s, flags, page, strlen(page), &text, &needed) == wanted);
    CHECK(needed == size && !memcmp(text, printed, size));
    free(text);
}

static void no_words(const SpScripts *s, uint32_t flags) {
    uint8_t room[1] = { MARK }, *text;
    size_t needed = MARK;
    CHECK(run(s, flags, "a", room, 1, &needed) == SP_CONTEXT);
    CHECK(needed == 0 && room[0] == MARK);
    CHECK(sp_scripts_run(s, flags, "a", 1, &text, &needed) == SP_CONTEXT && !text);
}

static void add(SpScripts *s, const char *name, const char *text) {
    CHECK(sp_scripts_add(s, name, text, strlen(text)) == SP_DONE);
}

/* Scripts that aren't parts of the bytes, that have no name, and flags that there aren't. */
static void try_words(void) {
    SpScripts s;
    memset(&s, 0, sizeof s);
    add(&s, "s", "");
    no_words(&s, 2);
    s.rows[0].value.length++;
    no_words(&s, 0);
    s.rows[0].value.length--;
    s.rows[0].name.start = UINT32_MAX;
    no_words(&s, SP_DUMP);
    s.rows[0].name.start = 0;
    s.bytes[0] = 0xFF;
    no_words(&s, 0);
    sp_scripts_free(&s);
}

/* More is printed than is guessed; without scripts an empty page may be null. */
static void try_printed(void) {
    static const char *nothing = "tree \"<html><head></head><body></body></html>\"\n";
    SpScripts s;
    uint8_t *text;
    size_t printed;
    static const char *read = "console.log(document.documentElement.outerHTML);\n";
    char reads[10000] = "";
    for (int i = 0; i < 200; i++) strcat(reads, read);
    memset(&s, 0, sizeof s);
    CHECK(sp_scripts_run(&s, 0, NULL, 0, &text, &printed) == SP_DONE);
    CHECK(printed == strlen(nothing) && !memcmp(text, nothing, printed));
    free(text);
    add(&s, "s", reads);
    CHECK(sp_scripts_run(&s, 0, "<script src=s></script>", 23, &text, &printed) == SP_DONE);
    CHECK(printed > 10000 && !memcmp(text + printed - 2, "\"\n", 2));
    free(text);
    sp_scripts_free(&s);
}

static void try_runs(void) {
    static const char *page = "<p>a<script src=s></script>b";
    char deep[23 + 600 * 3 + 1] = "<script src=t></script>";
    SpScripts s;
    for (int i = 0; i < 600; i++) memcpy(deep + 23 + 3 * i, "<i>", 4);
    memset(&s, 0, sizeof s);
    add(&s, "s", "document.write(\"x\");");
    prints(&s, 0, page, SP_DONE,
           "tree \"<html><head></head><body>"
           "<p>a<script src=\\\"s\\\"></script>xb</p></body></html>\"\n");
    add(&s, "s", "document.write(\"<!--y\");");
    add(&s, "", "document.write(\"z\");");
    prints(&s, SP_DUMP, page, SP_DONE,
           "node 0 element \"html\"\nnode 1 element \"head\"\nnode 1 element \"body\"\n"
           "node 2 element \"p\"\nnode 3 text \"a\"\nnode 3 element \"script\" \"src\" \"s\"\n"
           "node 3 comment \"yb\"\nend\n");
    prints(&s, 0, "<script src=t></script>\xff", SP_BAD_UTF8, "miss \"t\"\nrefused bad-utf8\n");
    prints(&s, SP_DUMP, deep, SP_LIMIT, "miss \"t\"\nrefused depth\n");
    sp_scripts_free(&s);
    try_words();
    try_printed();
}

/* ---- trees in room of their own */

/* A page whose tree is larger than is guessed is parsed again; an empty one may be null. */
static void try_guesses(void) {
    char page[20000] = "<p>";
    for (int i = 0; i < 100; i++) sprintf(page + strlen(page), "<b a=%d>", i);
    for (int i = 0; i < 1000; i++) strcat(page, "<p>x");
    SpTree t;
    CHECK(sp_tree_parse(page, strlen(page), &t) == SP_DONE);
    CHECK(t.sizes.nodes > 100000 && t.sizes.attributes > 100000);
    sp_tree_free(&t);
    CHECK(sp_tree_parse(NULL, 0, &t) == SP_DONE && t.sizes.nodes == 4);
    sp_tree_free(&t);
}

static uint32_t tree_of(Job j, SpTree *t) {
    return sp_tree_fragment(j.name, j.space, j.flags, j.source, j.length, t);
}

static int same(const SpTree *a, const SpTree *b) {
    return !memcmp(&a->sizes, &b->sizes, sizeof a->sizes)
        && !memcmp(a->nodes, b->nodes, a->sizes.nodes * sizeof(SpNode))
        && !memcmp(a->attributes, b->attributes, a->sizes.attributes * sizeof(SpAttribute))
        && !memcmp(a->text, b->text, a->sizes.text);
}

static Job jobs[2 * MOST];
static SpTree trees[2 * MOST];
static int count_of_jobs;

static void *make_all(void *unused) {
    try_runs();
    for (int i = 0; i < count_of_jobs; i++) {
        SpTree t;
        CHECK(tree_of(jobs[i], &t) == SP_DONE && same(&t, &trees[i]));
        sp_tree_free(&t);
    }
    return unused;
}

static void try_threads(void) {
    pthread_t ids[4];
    for (int i = 0; i < 4; i++) CHECK(!pthread_create(&ids[i], NULL, make_all, NULL));
    for (int i = 0; i < 4; i++) CHECK(!pthread_join(ids[i], NULL));
}

int main(int count, char **words) {
    CHECK(count > 1);
    try_entities(words[1]);
    try_refusals();
    try_runs();
    try_guesses();
    for (int i = 2; i < count && i < MOST + 2; i++) {
        size_t length;
        uint8_t *source = read_file(words[i], &length);
        Job page = page_of(source, length), text = page;
        text.name = "td";
        try_html(page);
        jobs[count_of_jobs++] = page;
        jobs[count_of_jobs++] = text;
    }
    for (int i = 0; i < count_of_jobs; i++) {
        CHECK(tree_of(jobs[i], &trees[i]) == SP_DONE);
        try_sizes(jobs[i], trees[i].sizes);
        try_larger(jobs[i], trees[i].sizes);
    }
    try_threads();
    for (int i = 0; i < count_of_jobs; i++) {
        sp_tree_free(&trees[i]);
        if (!jobs[i].name) free((void *)jobs[i].source);
    }
    puts("rooms: right");
    return 0;
}
