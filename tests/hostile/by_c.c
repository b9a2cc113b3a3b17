/* Loads the routines of strangers of a folder, each under the grants of its row of the table and then under all, and runs it on a new file:
 * `hostile FOLDER FILE`. tests/hostile/judge.sh says what it prints. */
#include "takhvoi.h"
#include <stdio.h>
#include <stdlib.h>
#include <string.h>
#include <unistd.h>

enum { AREA = 1 << 16, REGION = 1 << 20, ALL = 0xff7f };

typedef struct row {
    char name[32];
    unsigned grants;
    unsigned lent[4];
} row;

typedef struct host {
    const char *folder, *path;
    takhvoi_file file;
    uint32_t image;
} host;

static void check(int is_so, const char *what) {
    if (is_so) return;
    fprintf(stderr, "%s\n", what);
    exit(1);
}
#define DO(call) check((call) == TAKHVOI_DONE, #call)

/* The image of the text with this name. */
static size_t assembled(const host *h, const char *name, uint8_t *bytes, size_t room) {
    static uint8_t text[1 << 14];
    char path[512];
    uint64_t told;
    snprintf(path, sizeof path, "%s/%s.asm", h->folder, name);
    FILE *from = fopen(path, "rb");
    check(from != NULL, path);
    size_t len = fread(text, 1, sizeof text, from);
    fclose(from);
    DO(takhvoi_assemble(text, len, bytes, room, &told));
    return (size_t)told;
}

static uint32_t load(host *h, const char *name, uint32_t grants, uint32_t *image, uint64_t *place, uint16_t *routine, uint32_t *effect) {
    static uint8_t bytes[1 << 14];
    uint32_t rule;
    size_t len = assembled(h, name, bytes, sizeof bytes);
    return takhvoi_load_granted(&h->file.kernel, bytes, len, grants, image, place, &rule, routine, effect);
}

/* Runs a routine, and prints what it puts out if that is asked for. */
static void run(host *h, uint32_t image, const char *name, const uint16_t lent[4], int prints) {
    uint16_t words[8] = {0}, output[64], routine;
    uint32_t count, steps;
    DO(takhvoi_routine(&h->file.kernel, image, (const uint8_t *)name, strlen(name), &routine));
    DO(takhvoi_file_run(&h->file, image, routine, words, lent, output, 64, &count, &steps));
    if (!prints) return;
    for (uint32_t i = 0; i < count; i++) printf("%c%u", i ? ',' : ' ', output[i]);
    if (!count) printf(" -");
}

static void do_own(host *h, const char *name, int prints) {
    const uint16_t lent[4] = {0};
    run(h, h->image, name, lent, prints);
}

static void load_own(host *h) {
    uint64_t place;
    uint16_t routine;
    uint32_t effect;
    DO(load(h, "host", ALL, &h->image, &place, &routine, &effect));
}

/* Runs the stranger's routine with everything granted. */
static void attack(host *h, const row *r) {
    uint32_t image, effect;
    uint64_t place;
    uint16_t routine, lent[4];
    DO(load(h, r->name, ALL, &image, &place, &routine, &effect));
    for (int s = 0; s < 4; s++) {
        lent[s] = (uint16_t)r->lent[s];
        if (lent[s]) DO(takhvoi_vlock(&h->file.kernel, lent[s]));
    }
    run(h, image, r->name, lent, 1);
    for (int s = 0; s < 4; s++)
        if (lent[s]) DO(takhvoi_unlock(&h->file.kernel, TAKHVOI_VM(lent[s])));
}

static void judge(host *h, const row *r) {
    uint32_t image, effect;
    uint64_t place;
    uint16_t routine;
    unlink(h->path);
    DO(takhvoi_file_create(&h->file, h->path, AREA, REGION));
    load_own(h);
    do_own(h, "setup", 0);
    DO(takhvoi_file_save(&h->file));
    do_own(h, "prepare", 0);
    DO(takhvoi_mlock(&h->file.kernel, 1));
    check(load(h, r->name, r->grants, &image, &place, &routine, &effect) == TAKHVOI_NOT_GRANTED, r->name);
    printf("%s %u %u %u", r->name, (unsigned)effect, routine, (unsigned)place);
    do_own(h, "look", 1);
    attack(h, r);
    do_own(h, "look", 1);
    DO(takhvoi_unlock(&h->file.kernel, TAKHVOI_MEM(1)));
    DO(takhvoi_file_close(&h->file));
    DO(takhvoi_file_open(&h->file, h->path, REGION, &place));
    load_own(h);
    do_own(h, "look", 1);
    DO(takhvoi_file_close(&h->file));
    puts("");
}

int main(int argc, char **argv) {
    check(argc == 3, "give a folder and a file");
    host h = {argv[1], argv[2], TAKHVOI_FILE_NONE, 0};
    char path[512], line[512], lent[16];
    snprintf(path, sizeof path, "%s/table", h.folder);
    FILE *table = fopen(path, "r");
    check(table != NULL, path);
    while (fgets(line, sizeof line, table)) {
        row r = {0};
        if (*line == '#') continue;
        check(sscanf(line, "%31s %*s %u %15s", r.name, &r.grants, lent) == 3, line);
        sscanf(lent, "%u,%u", &r.lent[0], &r.lent[1]);
        judge(&h, &r);
    }
    return fclose(table) != 0;
}
