/* Loads routines of strangers, which the verifier accepts: each is refused if what it does is not granted, and told with the effect and the
 * instruction that has it; and it is accepted if all that it does is granted. takhvoi_effects tells just that, and takhvoi_budget its budget. */
#include "takhvoi.h"
#include <stdio.h>
#include <string.h>

typedef struct plugin {
    const char *name, *text;
    /* What it does, and the instructions that have these effects, in the order in which they are refused. */
    uint32_t effects;
} plugin;

static const plugin plugins[] = {
    {"frees another block", "routine f public budget 20\n in s0=vm@\n out s0=vm@\n VFREE w0 x\n x: RET\n",
     TAKHVOI_EFFECT_CHANGES_FILE | TAKHVOI_EFFECT_MAP},
    {"saves", "routine f public budget 20\n VSAVE x\n x: RET\n", TAKHVOI_EFFECT_COMMITS},
    {"frees a chunk of a locked block", "routine f public budget 20\n MLOCK s0 w0 x\n LFREE s0 w1 y\n y: MUNLOCK s0\n x: RET\n",
     TAKHVOI_EFFECT_MEMORY | TAKHVOI_EFFECT_LOCKS_BY_HANDLE},
    {"takes the map block away",
     "routine take budget 9\n VGETMAP w0\n VFREE w0 x\n VSAVE x\n x: RET\nroutine f public budget 20\n CALL take\n RET\n",
     TAKHVOI_EFFECT_READS_FILE | TAKHVOI_EFFECT_CHANGES_FILE | TAKHVOI_EFFECT_MAP | TAKHVOI_EFFECT_COMMITS},
    {"changes what it is lent to read",
     "routine f public budget 20\n in s0=vm@\n out s0=vm@\n VDIRTY s0\n LDI w1 16\n DEREF s0 p0 w1 2 x\n LDI w2 7\n STW w2 p0 0\n x: RET\n",
     1u << 8 | 1u << 12},
};
enum { PLUGINS = sizeof plugins / sizeof *plugins };

/* The plug-in, where this is granted: what is answered, and the image. */
static uint32_t load(takhvoi_kernel *k, const plugin *p, uint32_t grants, uint32_t *image, uint64_t *place, uint32_t *effect) {
    static uint8_t bytes[1 << 16];
    uint64_t told;
    uint32_t rule;
    uint16_t routine;
    if (takhvoi_assemble((const uint8_t *)p->text, strlen(p->text), bytes, sizeof bytes, &told) != TAKHVOI_DONE) return TAKHVOI_BAD_IMAGE;
    return takhvoi_load_granted(k, bytes, (size_t)told, grants, image, place, &rule, &routine, effect);
}

/* Each effect is asked for: with all others granted the plug-in is refused for it, and the others are not. */
static void judge(takhvoi_kernel *k, const plugin *p) {
    uint32_t image, effect, told = 0;
    uint64_t place;
    uint16_t routine = 0;
    printf("%s:", p->name);
    for (uint32_t bit = 1; bit <= 1u << 15; bit <<= 1) {
        uint32_t status = load(k, p, 0xffffu & ~bit, &image, &place, &effect);
        if (status == TAKHVOI_NOT_GRANTED && effect == bit && (p->effects & bit)) printf(" %u at %u", (unsigned)bit, (unsigned)place);
        else if (status != TAKHVOI_DONE || (p->effects & bit)) printf(" (%u for %u)", (unsigned)status, (unsigned)bit);
        if (status == TAKHVOI_DONE && takhvoi_unload(k, image) != TAKHVOI_DONE) printf(" (it stays)");
    }
    if (load(k, p, 0, &image, &place, &effect) != TAKHVOI_NOT_GRANTED) printf(" (granted nothing, it is accepted)");
    if (load(k, p, p->effects, &image, &place, &effect) != TAKHVOI_DONE) printf(" (granted all, it is refused)");
    /* Its public routine is the last one. */
    while (takhvoi_effects(k, image, (uint16_t)(routine + 1), &told) == TAKHVOI_DONE) routine++;
    if (takhvoi_effects(k, image, routine, &told) != TAKHVOI_DONE || told != p->effects) printf(" (told %u)", (unsigned)told);
    if (takhvoi_budget(k, image, routine, &told) != TAKHVOI_DONE || told != 20) printf(" (budget %u)", (unsigned)told);
    if (takhvoi_budget(k, image, (uint16_t)(routine + 1), &told) != TAKHVOI_NOT_ADMITTED) printf(" (budget of no routine)");
    puts("");
}

int main(void) {
    takhvoi_kernel k = TAKHVOI_NONE;
    uint32_t effects;
    if (takhvoi_new(&k, 1 << 12, 1 << 16) != TAKHVOI_DONE) return 1;
    if (takhvoi_effects(&k, 0, 0, &effects) != TAKHVOI_NOT_ADMITTED) puts("effects of no image");
    if (takhvoi_budget(&k, 0, 0, &effects) != TAKHVOI_NOT_ADMITTED) puts("budget of no image");
    for (int i = 0; i < PLUGINS; i++) judge(&k, &plugins[i]);
    return takhvoi_close(&k) != TAKHVOI_DONE;
}
