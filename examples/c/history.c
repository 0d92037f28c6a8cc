/* What was, after deltas were applied: opens BASE.dll and the deltas of a folder, named 1, 2, 3 .., and prints for each generation
 * the rows that it and those before it changed, as they were then. Each row, body and point is compared with what a handle says
 * that has no later delta. Usage: history FOLDER BASE. See docs/library.md. */
#include <stdio.h>
#include <stdlib.h>
#include <string.h>
#include "enc.h"

struct file { uint8_t *bytes; size_t length; };

static struct file load(const char *folder, const char *name, const char *end)
{
    char path[4096];
    struct file file = {NULL, 0};
    snprintf(path, sizeof path, "%s/%s%s", folder, name, end);
    FILE *in = fopen(path, "rb");
    if (in == NULL) return file;
    for (size_t room = 1 << 16, read;; room *= 2) {
        file.bytes = (uint8_t *)realloc(file.bytes, room);
        if (file.bytes == NULL) exit(3);
        read = fread(file.bytes + file.length, 1, room - file.length, in);
        file.length += read;
        if (file.length < room) break;
    }
    fclose(in);
    return file;
}

static enc_module opened(const char *folder, const char *base, uint32_t deltas)
{
    enc_module module = NULL;
    enc_refusal why;
    struct file dll = load(folder, base, ".dll"), pdb = load(folder, base, ".pdb");
    uint32_t status = enc_open(&module, dll.bytes, dll.length, pdb.bytes, pdb.length, &why);
    free(dll.bytes); free(pdb.bytes);
    for (uint32_t g = 1; status == ENC_DONE && g <= deltas; g++) {
        char name[16];
        snprintf(name, sizeof name, "%u", g);
        struct file meta = load(folder, name, ".meta"), il = load(folder, name, ".il"), debug = load(folder, name, ".pdb");
        if (meta.bytes == NULL) break;
        status = enc_apply(&module, meta.bytes, meta.length, il.bytes, il.length, debug.bytes, debug.length, &why);
        free(meta.bytes); free(il.bytes); free(debug.bytes);
    }
    if (status != ENC_DONE) exit((int)status);
    return module;
}

static uint8_t now[1 << 22], then[1 << 22];
static unsigned long same;

/* Ends where two answers differ. */
static void compare(uint32_t status, uint32_t other, size_t size, size_t size_then, size_t item)
{
    if (status != other || (status == ENC_DONE && (size != size_then || memcmp(now, then, size * item) != 0))) {
        fprintf(stderr, "%u and %u, %zu and %zu differ\n", status, other, size, size_then);
        exit(1);
    }
    same++;
}

static void show(enc_module *module, enc_module *plain, uint32_t g, uint32_t token)
{
    size_t a = 0, b = 0;
    enc_code_head head = {0, 0, 0}, other = {0, 0, 0};
    uint32_t status = enc_row_at(module, g, token, then, sizeof then, &b);
    uint32_t wanted = enc_row(plain, token, now, sizeof now, &a);
    compare(wanted, status, a, b, 1);
    if (status == ENC_DONE) fwrite(then, 1, b, stdout);
    status = enc_code_at(module, g, token, then, sizeof then, &b, &other);
    wanted = enc_code(plain, token, now, sizeof now, &a, &head);
    compare(wanted, status, a, b, 1);
    if (memcmp(&head, &other, sizeof head) != 0) exit(1);
    status = enc_points_at(module, g, token, (enc_point *)then, sizeof then / sizeof(enc_point), &b);
    wanted = enc_points(plain, token, (enc_point *)now, sizeof now / sizeof(enc_point), &a);
    compare(wanted, status, a, b, sizeof(enc_point));
    uint32_t document = status == ENC_DONE && b > 0 ? ((enc_point *)then)->document : 1;
    status = enc_document_at(module, g, token, document, then, sizeof then, &b);
    wanted = enc_document(plain, token, document, now, sizeof now, &a);
    compare(wanted, status, a, b, 1);
}

int main(int count, char **words)
{
    if (count != 3) return 2;
    enc_module module = opened(words[1], words[2], UINT32_MAX);
    uint32_t generations = 0;
    enc_generations(&module, &generations);
    for (uint32_t g = 0; g < generations; g++) {
        enc_module plain = opened(words[1], words[2], g);
        printf("generation %u\n", g);
        for (int table = 0; table < 0x40; table++) {
            uint32_t rows = 0, other = 0;
            enc_count(&plain, (uint8_t)table, &rows);
            if (enc_count_at(&module, g, (uint8_t)table, &other) != ENC_DONE || rows != other) return 1;
        }
        for (uint32_t k = 1; k < generations; k++) {
            static enc_entry entries[1 << 16];
            size_t size = 0;
            enc_entries(&module, k, entries, sizeof entries / sizeof *entries, &size);
            for (size_t i = 0; i < size; i++) show(&module, &plain, g, entries[i].token);
        }
        enc_close(&plain);
    }
    fprintf(stderr, "%lu answers of an earlier generation are those of its own handle\n", same);
    return enc_close(&module) == ENC_DONE ? 0 : 1;
}
