/* A hot reload host: it opens a base, takes the deltas 1, 2, .. from its folder, and says what each changed, or why one is refused.
 * With a number of rounds it opens, is refused and closes so often, and says nothing but a wrong status. Usage: host FOLDER BASE [ROUNDS] */
#include <stdio.h>
#include <stdlib.h>
#include "enc.h"

typedef struct { uint8_t *at; size_t length; } file;

/* The bytes of a file; none where it isn't there. */
static file load(const char *folder, const char *name, const char *ending) {
    char path[4096];
    file f = {NULL, 0};
    snprintf(path, sizeof path, "%s/%s.%s", folder, name, ending);
    FILE *in = fopen(path, "rb");
    if (in == NULL) return f;
    fseek(in, 0, SEEK_END);
    f.length = (size_t)ftell(in);
    rewind(in);
    f.at = (uint8_t *)malloc(f.length + 1);
    if (f.at == NULL || fread(f.at, 1, f.length, in) != f.length) exit(4);
    fclose(in);
    return f;
}

/* A line of a refusal, as the program prints it: rules 12 of bases and 22 of deltas are those of PDBs. */
static void say_refusal(const char *name, const char *ending, const enc_refusal *refusal) {
    uint8_t words[256];
    size_t size = 0;
    if (refusal->rule == (refusal->letter == 'F' ? 12 : 22)) ending = "pdb";
    if (enc_words(refusal, words, sizeof words, &size) == ENC_DONE) printf("refused %s.%s %.*s", name, ending, (int)size, (const char *)words);
}

/* The rows whose newest place is this generation, as they are now. */
static void say_changed(enc_module *module, uint32_t generation) {
    for (uint32_t table = 0; table < 0x40; table++) {
        uint32_t rows = 0;
        enc_count(module, (uint8_t)table, &rows);
        for (uint32_t row = 1; row <= rows; row++) {
            enc_place place;
            uint32_t token = table << 24 | row;
            if (enc_locate(module, token, &place) != ENC_DONE || place.generation != generation) continue;
            size_t size = 0;
            enc_row(module, token, NULL, 0, &size);
            uint8_t *text = (uint8_t *)malloc(size);
            if (text == NULL || enc_row(module, token, text, size, &size) != ENC_DONE) exit(3);
            fwrite(text, 1, size, stdout);
            free(text);
        }
    }
}

static uint32_t apply(enc_module *module, const file *d, enc_refusal *refusal) {
    return enc_apply(module, d[0].at, d[0].length, d[1].at, d[1].length, d[2].at, d[2].length, refusal);
}

/* One round: a base cut short is refused, and so is a delta cut short, which changes nothing; a handle is closed once. */
static int round_of(file base, file pdb, const file *d) {
    enc_module module = NULL;
    enc_refusal refusal = {0};
    uint32_t before = 0, after = 0;
    file cut[3] = {{d[0].at, d[0].length / 2}, d[1], d[2]};
    return enc_open(&module, base.at, base.length / 2, pdb.at, pdb.length, &refusal) == ENC_REFUSED && module == NULL
        && enc_open(&module, base.at, base.length, pdb.at, pdb.length, &refusal) == ENC_DONE
        && enc_open(&module, base.at, base.length, pdb.at, pdb.length, &refusal) == ENC_OPEN
        && apply(&module, cut, &refusal) == ENC_REFUSED && enc_generations(&module, &before) == ENC_DONE && before == 1
        && apply(&module, d, &refusal) == ENC_DONE && enc_generations(&module, &after) == ENC_DONE && after == 2
        && apply(&module, d, &refusal) == ENC_REFUSED && enc_close(&module) == ENC_DONE && module == NULL
        && enc_close(&module) == ENC_CLOSED && enc_count(&module, 6, &after) == ENC_CLOSED;
}

int main(int count, char **words) {
    if (count < 3) return 2;
    const char *folder = words[1], *name = words[2];
    const int rounds = count > 3 ? atoi(words[3]) : 0;
    const file base = load(folder, name, "dll"), pdb = load(folder, name, "pdb");
    enc_module module = NULL;
    enc_refusal refusal;
    uint32_t status = enc_open(&module, base.at, base.length, pdb.at, pdb.length, &refusal);
    if (status == ENC_REFUSED) say_refusal(name, "dll", &refusal);
    for (uint32_t n = 1; status == ENC_DONE; n++) {
        char next[16];
        snprintf(next, sizeof next, "%u", n);
        file d[3] = {load(folder, next, "meta"), load(folder, next, "il"), load(folder, next, "pdb")};
        for (int i = 0; d[0].at != NULL && i < rounds; i++)
            if (!round_of(base, pdb, d)) puts("a wrong status"), exit(1);
        if (d[0].at != NULL && rounds == 0) {
            status = apply(&module, d, &refusal);
            if (status == ENC_DONE) say_changed(&module, n);
            if (status == ENC_REFUSED) say_refusal(next, "meta", &refusal);
        }
        for (int i = 0; i < 3; i++) free(d[i].at);
        if (d[0].at == NULL || rounds > 0) break;
    }
    enc_close(&module);
    free(base.at), free(pdb.at);
    return (int)status;
}
