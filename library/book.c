/* An address book in a VM file. Its map block has an array, with an element for each entry: the name, a zero byte, the number.
 *   book FILE add NAME NUMBER       adds an entry, and saves the book, which is made where it is not there
 *   book FILE list                  prints the entries
 *   book FILE run TEXT WORD..       assembles a text, and runs its first routine on the book; prints what that puts out. The routine
 *                                   borrows the map block in s0 */
#include "takhvoi.h"
#include <stdio.h>
#include <stdlib.h>
#include <string.h>

enum {
    AREA = 1 << 16,
    REGION = 1 << 20,
    USER_ID = 1,
    LONGEST = 1024
};

/* Ends a function with the answer of a call that was not done. */
#define TRY(call) do { uint32_t status_ = (call); if (status_ != TAKHVOI_DONE) return status_; } while (0)

/* The block that has the book, and the chunk that has the array: the first one of a new block. */
typedef struct book {
    takhvoi_file file;
    uint16_t block;
    uint16_t array;
} book;

/* Makes an empty book. */
static uint32_t make(book *b) {
    TRY(takhvoi_vnew(&b->file.kernel, USER_ID, &b->block));
    TRY(takhvoi_canew(&b->file.kernel, TAKHVOI_VM(b->block), 0, &b->array));
    TRY(takhvoi_unlock(&b->file.kernel, TAKHVOI_VM(b->block)));
    TRY(takhvoi_vsetmap(&b->file.kernel, b->block));
    return takhvoi_file_save(&b->file);
}

static uint32_t open_book(book *b, const char *path) {
    uint64_t fault;
    uint32_t status = takhvoi_file_open(&b->file, path, REGION, &fault);
    if (status == TAKHVOI_NO_FILE) status = takhvoi_file_create(&b->file, path, AREA, REGION);
    if (status != TAKHVOI_DONE) return status;
    b->array = 16;
    TRY(takhvoi_vgetmap(&b->file.kernel, &b->block));
    return b->block == 0 ? make(b) : TAKHVOI_DONE;
}

/* Adds an entry to the block, which is locked. */
static uint32_t add_entry(book *b, const char *name, const char *number) {
    takhvoi_block block = TAKHVOI_VM(b->block);
    uint8_t entry[LONGEST];
    uint16_t count;
    int len = snprintf((char *)entry, sizeof entry, "%s%c%s", name, 0, number);
    if (len >= LONGEST) return TAKHVOI_SHORT_BUFFER;
    TRY(takhvoi_vdirty(&b->file.kernel, b->block));
    TRY(takhvoi_cacount(&b->file.kernel, block, b->array, &count));
    TRY(takhvoi_caadd(&b->file.kernel, block, b->array, (uint16_t)len));
    return takhvoi_cawrite(&b->file.kernel, block, b->array, count, 0, entry, (size_t)len);
}

static uint32_t add(book *b, const char *name, const char *number) {
    TRY(takhvoi_vlock(&b->file.kernel, b->block));
    uint32_t status = add_entry(b, name, number);
    TRY(takhvoi_unlock(&b->file.kernel, TAKHVOI_VM(b->block)));
    return status == TAKHVOI_DONE ? takhvoi_file_save(&b->file) : status;
}

static uint32_t print_entry(book *b, uint16_t i) {
    takhvoi_block block = TAKHVOI_VM(b->block);
    uint8_t entry[LONGEST];
    uint16_t len;
    TRY(takhvoi_casize(&b->file.kernel, block, b->array, i, &len));
    if (len >= LONGEST) return TAKHVOI_SHORT_BUFFER;
    TRY(takhvoi_caread(&b->file.kernel, block, b->array, i, 0, entry, len));
    entry[len] = 0;
    printf("%s %s\n", (char *)entry, (char *)entry + strlen((char *)entry) + 1);
    return TAKHVOI_DONE;
}

static uint32_t list(book *b) {
    uint16_t count;
    TRY(takhvoi_vlock(&b->file.kernel, b->block));
    TRY(takhvoi_cacount(&b->file.kernel, TAKHVOI_VM(b->block), b->array, &count));
    for (uint16_t i = 0; i < count; i++) TRY(print_entry(b, i));
    return takhvoi_unlock(&b->file.kernel, TAKHVOI_VM(b->block));
}

/* Says where a text or an image is at fault. */
static uint32_t fault(uint32_t status, const char *where, uint64_t place) {
    if (status == TAKHVOI_BAD_IMAGE || status == TAKHVOI_REFUSED) fprintf(stderr, "at %s %llu: ", where, (unsigned long long)place);
    return status;
}

/* Assembles the text of a file, and loads its image, which the verifier checks. */
static uint32_t load(book *b, const char *path, uint32_t *image) {
    static uint8_t text[1 << 16], bytes[1 << 18];
    uint64_t told, place;
    uint32_t rule;
    FILE *file = fopen(path, "rb");
    if (!file) return TAKHVOI_NO_FILE;
    size_t len = fread(text, 1, sizeof text, file);
    fclose(file);
    if (len == sizeof text) return TAKHVOI_SHORT_BUFFER;
    uint32_t status = takhvoi_assemble(text, len, bytes, sizeof bytes, &told);
    if (status != TAKHVOI_DONE) return fault(status, "line", told);
    status = takhvoi_load(&b->file.kernel, bytes, (size_t)told, image, &place, &rule);
    return fault(status, "instruction", place);
}

static uint32_t run(book *b, const char *path, char **given) {
    uint16_t words[8] = {0}, lent[4] = {b->block, 0, 0, 0}, output[LONGEST];
    uint32_t image, count, steps;
    TRY(load(b, path, &image));
    for (int i = 0; i < 8 && given[i]; i++) words[i] = (uint16_t)atoi(given[i]);
    TRY(takhvoi_vlock(&b->file.kernel, b->block));
    uint32_t status = takhvoi_file_run(&b->file, image, 0, words, lent, output, LONGEST, &count, &steps);
    TRY(takhvoi_unlock(&b->file.kernel, TAKHVOI_VM(b->block)));
    if (status != TAKHVOI_DONE) return status;
    for (uint32_t i = 0; i < count; i++) printf("%u\n", output[i]);
    return TAKHVOI_DONE;
}

static uint32_t work(book *b, int argc, char **argv) {
    TRY(open_book(b, argv[1]));
    if (argc == 5 && !strcmp(argv[2], "add")) return add(b, argv[3], argv[4]);
    if (argc == 3 && !strcmp(argv[2], "list")) return list(b);
    if (argc >= 4 && !strcmp(argv[2], "run")) return run(b, argv[3], argv + 4);
    return TAKHVOI_NOT_ADMITTED;
}

int main(int argc, char **argv) {
    book b = {TAKHVOI_FILE_NONE, 0, 0};
    if (argc < 3) return 2;
    uint32_t status = work(&b, argc, argv);
    if (status != TAKHVOI_DONE) fprintf(stderr, "book: %s\n", takhvoi_error_text(status));
    takhvoi_file_close(&b.file);
    return status == TAKHVOI_DONE ? 0 : 1;
}
