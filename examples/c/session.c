/* A session: runs commands on a module as `enc run` runs a script, and prints the same lines. Usage: session BASE COMMAND ..
 *   spawn TOKEN, step TASK COUNT, apply DELTA, remap TASK FROM:TO,.., state, frames TASK
 * The last prints what a debugger asks for: the frames of a task, each with the generation that gave its body. See docs/library.md. */
#include <stdio.h>
#include <stdlib.h>
#include <string.h>
#include "enc.h"

struct file { uint8_t bytes[1 << 20]; size_t length; };
static struct file files[3];
static enc_session session;
static uint8_t text[1 << 22];

static size_t load(int i, const char *name, const char *end)
{
    char path[4096];
    snprintf(path, sizeof path, "%s%s", name, end);
    FILE *in = fopen(path, "rb");
    files[i].length = in == NULL ? 0 : fread(files[i].bytes, 1, sizeof files[i].bytes, in);
    if (in != NULL) fclose(in);
    return files[i].length;
}

static void must(uint32_t status)
{
    if (status == ENC_DONE) return;
    fprintf(stderr, "status %u\n", status);
    exit((int)status);
}

static void put_output(void)
{
    size_t size = 0;
    must(enc_output(&session, text, sizeof text, &size));
    fwrite(text, 1, size, stdout);
}

static void apply(const char *name)
{
    static uint32_t generation;
    enc_refusal why;
    load(0, name, ".meta"); load(1, name, ".il"); load(2, name, ".pdb");
    uint32_t status = enc_session_apply(&session, files[0].bytes, files[0].length, files[1].bytes, files[1].length,
                                        files[2].bytes, files[2].length, &why);
    if (status == ENC_REFUSED) {
        size_t size = 0;
        must(enc_words(&why, text, sizeof text, &size));
        printf("refused %s.meta %.*s", name, (int)size, (char *)text);
        return;
    }
    must(status);
    printf("applied %s generation %u\n", name, ++generation);
}

static void step(uint32_t task, uint32_t count)
{
    enc_stepped stepped = {0, 0, 0};
    uint32_t known = enc_task(&session, task, &stepped);
    if (known == ENC_ABSENT) { printf("task %u absent\n", task); return; }
    must(known);
    if (stepped.state != ENC_RUNNING) { printf("task %u idle\n", task); return; }
    for (uint32_t left = count; left > 0;) {
        uint32_t some = left < 1000 ? left : 1000;
        enc_stepped part = {0, 0, 0};
        must(enc_step(&session, task, some, &part));
        size_t events = 0;
        must(enc_events(&session, (enc_event *)text, sizeof text / sizeof(enc_event), &events));
        put_output();
        stepped.ran += part.ran;
        left = part.state == 0 && part.ran == some ? left - some : 0;
    }
    printf("task %u ran %u\n", task, stepped.ran);
}

static void remap(uint32_t task, const char *map)
{
    static enc_pair pairs[1 << 16];
    size_t count = 0;
    for (char *rest = (char *)map; *rest != 0; rest += *rest == ',') {
        pairs[count].from = (uint32_t)strtoul(rest, &rest, 10);
        pairs[count++].to = (uint32_t)strtoul(rest + 1, &rest, 10);
    }
    enc_remapped moved;
    uint32_t status = enc_remap(&session, task, pairs, count, &moved);
    if (status == ENC_ABSENT) { printf("task %u absent\n", task); return; }
    must(status);
    if (moved.rule != 0) printf("task %u remap refused Q%u\n", task, moved.rule);
    else printf("task %u remapped %08x IL_%04x IL_%04x\n", task, moved.method, moved.from, moved.to);
}

static void put_frames(uint32_t task)
{
    enc_frame *frames = (enc_frame *)text;
    size_t size = 0;
    must(enc_frames(&session, task, frames, sizeof text / sizeof *frames, &size));
    for (size_t i = 0; i < size; i++)
        printf("task %u frame %zu %08x generation %u IL_%04x line %u\n", task, i, frames[i].method, frames[i].generation,
               frames[i].offset, frames[i].line);
}

int main(int count, char **words)
{
    enc_refusal why;
    if (count < 2) return 2;
    load(0, words[1], ".dll"); load(1, words[1], ".pdb");
    must(enc_session_open(&session, files[0].bytes, files[0].length, files[1].bytes, files[1].length, 1 << 16, &why));
    for (char **word = words + 2; *word != NULL;) {
        if (strcmp(*word, "spawn") == 0) {
            uint32_t task = 0, method = (uint32_t)strtoul(word[1], NULL, 16);
            must(enc_spawn(&session, method, &task));
            printf("task %u spawned %s\n", task, word[1]);
            word += 2;
        } else if (strcmp(*word, "step") == 0) {
            step((uint32_t)atoi(word[1]), (uint32_t)atoi(word[2]));
            word += 3;
        } else if (strcmp(*word, "apply") == 0) {
            apply(word[1]);
            word += 2;
        } else if (strcmp(*word, "remap") == 0) {
            remap((uint32_t)atoi(word[1]), word[2]);
            word += 3;
        } else if (strcmp(*word, "state") == 0) {
            size_t size = 0;
            must(enc_state(&session, text, sizeof text, &size));
            fwrite(text, 1, size, stdout);
            word++;
        } else if (strcmp(*word, "frames") == 0) {
            put_frames((uint32_t)atoi(word[1]));
            word += 2;
        } else return 2;
    }
    return enc_session_close(&session) == ENC_DONE ? 0 : 1;
}
