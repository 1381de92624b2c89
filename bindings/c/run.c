/* run [-d] PAGE FOLDER..: of each page what `specparse page` prints of it with the scripts of that
   folder, with -d the dump; and then its status, and how many bytes these were. */
#define _POSIX_C_SOURCE 200809L
#include "specparse.h"
#include <dirent.h>
#include <stdio.h>

static void fail(const char *what) {
    fprintf(stderr, "run: %s\n", what);
    exit(7);
}

static uint8_t *read_file(const char *path, size_t *length) {
    FILE *f = fopen(path, "rb");
    if (!f || fseek(f, 0, SEEK_END)) fail(path);
    *length = (size_t)ftell(f);
    rewind(f);
    uint8_t *bytes = (uint8_t *)malloc(*length + 1);
    if (!bytes || fread(bytes, 1, *length, f) != *length) fail(path);
    fclose(f);
    return bytes;
}

static void add_file(SpScripts *all, const char *folder, const char *name) {
    char path[4096];
    size_t length;
    if (snprintf(path, sizeof path, "%s/%s", folder, name) >= (int)sizeof path) fail(name);
    uint8_t *text = read_file(path, &length);
    if (sp_scripts_add(all, name, text, length) != SP_DONE) fail(path);
    free(text);
}

static void add_folder(SpScripts *all, const char *folder) {
    DIR *d = opendir(folder);
    if (!d) return; /* each script is missing */
    for (struct dirent *it; (it = readdir(d));)
        if (it->d_name[0] != '.') add_file(all, folder, it->d_name);
    closedir(d);
}

static void run(const char *path, const char *folder, uint32_t flags) {
    SpScripts scripts;
    uint8_t *text;
    size_t length, printed;
    uint8_t *page = read_file(path, &length);
    memset(&scripts, 0, sizeof scripts);
    add_folder(&scripts, folder);
    uint32_t status = sp_scripts_run(&scripts, flags, page, length, &text, &printed);
    if (printed) fwrite(text, 1, printed, stdout);
    printf("status %u, %zu bytes\n", (unsigned)status, printed);
    free(text);
    free(page);
    sp_scripts_free(&scripts);
}

int main(int count, char **words) {
    int dump = count > 1 && !strcmp(words[1], "-d");
    for (int i = 1 + dump; i + 1 < count; i += 2)
        run(words[i], words[i + 1], dump ? SP_DUMP : 0);
    return 0;
}
