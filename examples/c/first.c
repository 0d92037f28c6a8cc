/* The first lines of docs/library.md: a base and a delta, and a method by its name. */
#include <stdio.h>
#include "enc.h"

static uint8_t bytes[3][1 << 16];

static size_t load(int i, const char *name)
{
    FILE *in = fopen(name, "rb");
    size_t length = in == NULL ? 0 : fread(bytes[i], 1, sizeof bytes[i], in);
    if (in != NULL) fclose(in);
    return length;
}

int main(void)
{
    enc_module module = NULL;
    enc_refusal why;
    uint32_t type, rows[4];
    size_t size, base = load(0, "examples/bank/bank.dll"), meta = load(1, "examples/bank/bank1.meta"), il = load(2, "examples/bank/bank1.il");
    if (enc_open(&module, bytes[0], base, NULL, 0, &why) || enc_apply(&module, bytes[1], meta, bytes[2], il, NULL, 0, &why)) return 1;
    if (enc_find_type(&module, 0, NULL, 0, (const uint8_t *)"Account", 7, &type)) return 2;
    if (enc_find_member(&module, type, ENC_TABLE_METHOD_DEF, (const uint8_t *)"Print", 5, rows, 4, &size)) return 3;
    if (enc_row(&module, 0x06000000 | rows[0], bytes[0], sizeof bytes[0], &size) == ENC_DONE) fwrite(bytes[0], 1, size, stdout);
    return enc_close(&module) != ENC_DONE;
}
