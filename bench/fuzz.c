/* What `bench/fuzz` has libFuzzer run: calls of the C library, or with -DPROGRAM the program `enc` on files. An input is a command and ten
 * parts, each with its length before it; a change is made within one part. The library and the program aren't compiled for it: which of their
 * blocks a run reaches is told by breakpoints, each of which is taken out when it is met first. So an input that reaches a new block is kept. */
#define _GNU_SOURCE
#include <elf.h>
#include <errno.h>
#include <fcntl.h>
#include <malloc.h>
#include <signal.h>
#include <stdint.h>
#include <stdio.h>
#include <stdlib.h>
#include <string.h>
#include <sys/mman.h>
#include <sys/personality.h>
#include <sys/ptrace.h>
#include <sys/resource.h>
#include <sys/stat.h>
#include <sys/user.h>
#include <sys/wait.h>
#include <time.h>
#include <ucontext.h>
#include <unistd.h>

#define MOST_SECONDS 5
#define MOST_BYTES 500000000
#define MOST_BLOCKS (1 << 17)
#define MOST_INPUT (1 << 20)

enum { BASE, BASE_PDB, META1, IL1, PDB1, META2, IL2, PDB2, TEXT, TOKEN, PARTS };
struct part { const uint8_t *at; size_t n; };
struct input { uint8_t command; struct part parts[PARTS]; };

/* ---- what is told at the end ---- */
static struct { long runs, slow, large, memory, statuses[16]; double slowest; size_t largest; } told;
static size_t blocks, met;

static void tell(void) {
    const char *path = getenv("FUZZ_TOLD");
    FILE *f = path ? fopen(path, "w") : 0;
    if (!f) return;
    fprintf(f, "%ld %ld %ld %ld %.3f %zu %zu %zu", told.runs, told.slow, told.large, told.memory, told.slowest, told.largest, met, blocks);
    for (int i = 0; i < 16; i++) fprintf(f, " %ld", told.statuses[i]);
    fclose(f);
}

static void keep(const char *why, const uint8_t *data, size_t n) {
    char path[512];
    snprintf(path, sizeof path, "%s/%s-%ld", getenv("FUZZ_FOUND") ? getenv("FUZZ_FOUND") : ".", why, told.runs);
    FILE *f = fopen(path, "wb");
    if (f) { fwrite(data, 1, n, f); fclose(f); }
}

static void count(double seconds, size_t bytes, const uint8_t *data, size_t n) {
    told.runs++;
    if (seconds > told.slowest) told.slowest = seconds;
    if (bytes > told.largest) told.largest = bytes;
    if (seconds > MOST_SECONDS) { told.slow++; keep("slow", data, n); }
    if (bytes > MOST_BYTES) { told.large++; keep("large", data, n); }
    if (told.runs % 1024 == 0) tell();
}

/* ---- inputs ---- */
static struct input decoded(const uint8_t *data, size_t n) {
    struct input in = {0};
    if (n == 0) return in;
    in.command = data[0];
    size_t at = 1;
    for (int i = 0; i < PARTS && n - at >= 4; i++) {
        uint32_t length;
        memcpy(&length, data + at, 4);
        at += 4;
        if (length > n - at) length = (uint32_t)(n - at);
        in.parts[i] = (struct part){data + at, length};
        at += length;
    }
    return in;
}

static size_t size_of(const struct input *in) {
    size_t n = 1 + 4 * PARTS;
    for (int i = 0; i < PARTS; i++) n += in->parts[i].n;
    return n;
}

static void encode(const struct input *in, uint8_t *out) {
    *out++ = in->command;
    for (int i = 0; i < PARTS; i++) {
        uint32_t n = (uint32_t)in->parts[i].n;
        memcpy(out, &n, 4);
        if (n) memcpy(out + 4, in->parts[i].at, n);
        out += 4 + n;
    }
}

size_t LLVMFuzzerMutate(uint8_t *data, size_t n, size_t most);
static uint8_t part_room[MOST_INPUT], input_room[MOST_INPUT];

static size_t written(const struct input *in, uint8_t *out, size_t most) {
    size_t n = size_of(in);
    if (n > most || n > sizeof input_room) return 0;
    encode(in, input_room);
    memcpy(out, input_room, n);
    return n;
}

size_t LLVMFuzzerCustomMutator(uint8_t *data, size_t n, size_t most, unsigned seed) {
    struct input in = decoded(data, n);
    unsigned r = seed * 2654435761u >> 8;
    if (r % 32 == 0) in.command = (uint8_t)(r >> 5);
    int p = (int)(r / 32 % PARTS);
    if (p == TOKEN && r / 8192 % 8) p = BASE;
    if (r / 512 % 16) for (int i = 0; i < PARTS && in.parts[p].n == 0; i++) p = (p + 1) % PARTS;
    size_t others = size_of(&in) - in.parts[p].n, room = most > others ? most - others : 0;
    if (room > sizeof part_room) room = sizeof part_room;
    if (in.parts[p].n <= room && room > 0) {
        if (in.parts[p].n) memcpy(part_room, in.parts[p].at, in.parts[p].n);
        size_t length = LLVMFuzzerMutate(part_room, in.parts[p].n, room);
        in.parts[p] = (struct part){part_room, length};
    }
    size_t length = written(&in, data, most);
    return length ? length : n;
}

size_t LLVMFuzzerCustomCrossOver(const uint8_t *a, size_t an, const uint8_t *b, size_t bn, uint8_t *out, size_t most, unsigned seed) {
    struct input in = decoded(a, an), other = decoded(b, bn);
    for (int i = 0; i < PARTS; i++) if (seed >> i & 1) in.parts[i] = other.parts[i];
    return written(&in, out, most);
}

/* ---- blocks that are met for the first time; libFuzzer reads these counters after each run ---- */
__attribute__((section("__libfuzzer_extra_counters"))) static uint8_t counters[MOST_BLOCKS];
static uint64_t addresses[MOST_BLOCKS];

static int by_address(const void *a, const void *b) { return *(const uint64_t *)a < *(const uint64_t *)b ? -1 : *(const uint64_t *)a > *(const uint64_t *)b; }

static void read_blocks(void) {
    FILE *f = fopen(getenv("FUZZ_BLOCKS"), "r");
    unsigned long at;
    while (f && blocks < MOST_BLOCKS && fscanf(f, "%lx", &at) == 1) addresses[blocks++] = at;
    if (f) fclose(f);
    qsort(addresses, blocks, sizeof *addresses, by_address);
}

static long block_at(uint64_t at) {
    uint64_t *found = bsearch(&at, addresses, blocks, sizeof at, by_address);
    return found ? found - addresses : -1;
}

#ifdef PROGRAM
/* ---- the program: its text is written into each new process with the breakpoints that are left ---- */
static uint8_t *text, *own;
static uint64_t text_at, base_at;
static size_t text_size, *left_on_page;
static const char *program;

static void read_text(void) {
    int f = open(program, O_RDONLY);
    struct stat s;
    if (f < 0 || fstat(f, &s)) { perror(program); exit(2); }
    uint8_t *file = mmap(0, (size_t)s.st_size, PROT_READ, MAP_PRIVATE, f, 0);
    Elf64_Ehdr *head = (Elf64_Ehdr *)file;
    Elf64_Phdr *parts = (Elf64_Phdr *)(file + head->e_phoff);
    for (int i = 0; i < head->e_phnum; i++) if (parts[i].p_type == PT_LOAD && (parts[i].p_flags & PF_X)) {
        text_at = parts[i].p_vaddr;
        text_size = parts[i].p_filesz;
        own = file + parts[i].p_offset;
    }
    text = malloc(text_size);
    memcpy(text, own, text_size);
    left_on_page = calloc(text_size / 4096 + 2, sizeof *left_on_page);
    for (size_t i = 0; i < blocks; i++) { text[addresses[i] - text_at] = 0xcc; left_on_page[(addresses[i] - text_at) / 4096]++; }
    base_at = head->e_type == ET_DYN ? 0x555555554000 : 0;
}

int LLVMFuzzerInitialize(int *argc, char ***argv) {
    (void)argc; (void)argv;
    read_blocks();
    program = getenv("FUZZ_ENC");
    read_text();
    personality(ADDR_NO_RANDOMIZE);
    if (chdir(getenv("FUZZ_ROOM"))) { perror("FUZZ_ROOM"); exit(2); }
    atexit(tell);
    return 0;
}

static void put(const char *name, struct part p, int is_there) {
    unlink(name);
    if (!is_there) return;
    int f = open(name, O_WRONLY | O_CREAT | O_TRUNC, 0600);
    if (f < 0 || write(f, p.at, p.n) != (ssize_t)p.n) { perror(name); exit(2); }
    close(f);
}

static pid_t begun(char *const words[]) {
    pid_t child = vfork();
    if (child) return child;
    struct rlimit seconds = {60, 60}, bytes = {3ul << 30, 3ul << 30};
    int to = open("/dev/null", O_RDWR);
    dup2(to, 0); dup2(to, 1); dup2(to, 2);
    setrlimit(RLIMIT_CPU, &seconds); setrlimit(RLIMIT_AS, &bytes);
    ptrace(PTRACE_TRACEME, 0, 0, 0);
    execv(program, words);
    _exit(99);
}

static int waited(pid_t child, struct rusage *used) {
    int status;
    while (wait4(child, &status, 0, used) < 0) if (errno != EINTR) { perror("wait4"); exit(2); }
    return status;
}

static void put_breakpoints(pid_t child) {
    char path[64];
    snprintf(path, sizeof path, "/proc/%d/mem", child);
    int memory = open(path, O_RDWR);
    for (size_t page = 0; page * 4096 < text_size; page++) if (left_on_page[page]) {
        size_t n = text_size - page * 4096 < 4096 ? text_size - page * 4096 : 4096;
        if (pwrite(memory, text + page * 4096, n, (off_t)(base_at + text_at + page * 4096)) != (ssize_t)n) { perror("breakpoints"); exit(2); }
    }
    close(memory);
}

/* whether a stop is at a breakpoint, which is taken out then */
static int is_met(pid_t child) {
    struct user_regs_struct regs;
    ptrace(PTRACE_GETREGS, child, 0, &regs);
    uint64_t at = regs.rip - 1 - base_at;
    long block = block_at(at);
    if (block < 0 || text[at - text_at] == own[at - text_at]) return 0;
    text[at - text_at] = own[at - text_at];
    left_on_page[(at - text_at) / 4096]--;
    counters[block] = 1;
    met++;
    long word = ptrace(PTRACE_PEEKTEXT, child, regs.rip - 1, 0);
    ptrace(PTRACE_POKETEXT, child, regs.rip - 1, (word & ~0xffl) | own[at - text_at]);
    regs.rip--;
    ptrace(PTRACE_SETREGS, child, 0, &regs);
    return 1;
}

/* the most memory that a process held since it began, in bytes */
static size_t most_held_by(pid_t child) {
    char path[64], line[256];
    unsigned long most = 0;
    snprintf(path, sizeof path, "/proc/%d/status", child);
    FILE *f = fopen(path, "r");
    while (f && fgets(line, sizeof line, f)) if (sscanf(line, "VmHWM: %lu kB", &most) == 1) break;
    if (f) fclose(f);
    return most * 1024;
}

static int run(char *const words[], struct rusage *used, size_t *most) {
    pid_t child = begun(words);
    int status = waited(child, used);
    if (WIFSTOPPED(status)) {
        ptrace(PTRACE_SETOPTIONS, child, 0, PTRACE_O_TRACEEXIT | PTRACE_O_EXITKILL);
        put_breakpoints(child);
    }
    for (int signal = 0; WIFSTOPPED(status);) {
        ptrace(PTRACE_CONT, child, 0, signal);
        status = waited(child, used);
        signal = 0;
        if (WIFSTOPPED(status) && status >> 16 == PTRACE_EVENT_EXIT) *most = most_held_by(child);
        else if (WIFSTOPPED(status) && !(WSTOPSIG(status) == SIGTRAP && is_met(child))) signal = WSTOPSIG(status);
    }
    return status;
}

int LLVMFuzzerTestOneInput(const uint8_t *data, size_t n) {
    struct input in = decoded(data, n);
    static const char *names[] = {"b.dll", "b.pdb", "d1.meta", "d1.il", "d1.pdb", "d2.meta", "d2.il", "d2.pdb", "t.json"};
    int deltas = in.parts[META1].n || in.parts[IL1].n ? in.parts[META2].n || in.parts[IL2].n ? 2 : 1 : 0;
    for (int i = 0; i <= TEXT; i++) {
        int needed = i == BASE || i == TEXT || (i != BASE_PDB && i != PDB1 && i != PDB2 && deltas >= (i < META2 ? 1 : 2));
        put(names[i], in.parts[i], needed || in.parts[i].n);
    }
    char token[9] = "01000001";
    if (in.parts[TOKEN].n) for (int i = 0; i < 8; i++) {
        char c = (char)in.parts[TOKEN].at[(size_t)i % in.parts[TOKEN].n];
        token[i] = c && strchr("0123456789abcdef", c) ? c : "0123456789abcdef"[c & 15];
    }
    static const char *const commands[][4] = {{"show", "b", "TOKEN"}, {"list", "b"}, {"check", "b"}, {"apply", "b", "o"}, {"compact", "b", "o"}, {"write", "b", "t.json", "o"}, {"run", "b", "t.json"}, {"merge", "b", "o"}};
    size_t which = in.command % (sizeof commands / sizeof *commands);
    char *words[10] = {"enc"};
    int many = 1;
    for (int i = 0; i < 4 && commands[which][i]; i++) words[many++] = strcmp(commands[which][i], "TOKEN") ? (char *)commands[which][i] : token;
    /* a script names its deltas, and two are merged, also where one is missing */
    if (which == 6) deltas = 0;
    if (which == 7) deltas = 2;
    if (deltas > 0) words[many++] = "d1";
    if (deltas > 1) words[many++] = "d2";
    unlink("o.dll"); unlink("o.pdb"); unlink("o.meta"); unlink("o.il");
    struct rusage used;
    size_t most = 0;
    int status = run(words, &used, &most);
    double seconds = (double)(used.ru_utime.tv_sec + used.ru_stime.tv_sec) + (double)(used.ru_utime.tv_usec + used.ru_stime.tv_usec) / 1e6;
    count(seconds, most, data, n);
    if (WIFEXITED(status) && WEXITSTATUS(status) < 16) told.statuses[WEXITSTATUS(status)]++;
    /* the words are always a command */
    if (WIFEXITED(status) && WEXITSTATUS(status) == 3) told.memory++;
    int is_known = WIFEXITED(status) && WEXITSTATUS(status) <= 6 && WEXITSTATUS(status) != 2;
    int saves = (which >= 3 && which <= 5) || which == 7;
    if (is_known && (WEXITSTATUS(status) != 0 || !saves) && (!access("o.dll", F_OK) || !access("o.meta", F_OK))) is_known = 0;
    if (!is_known) {
        fprintf(stderr, "enc %s: status %x\n", words[1], status);
        tell();
        abort();
    }
    return 0;
}

#else
/* ---- the C library: its text is written over ---- */
#include "enc.h"

static uint8_t own[MOST_BLOCKS];

static void at_breakpoint(int signal, siginfo_t *info, void *context) {
    (void)signal; (void)info;
    greg_t *rip = &((ucontext_t *)context)->uc_mcontext.gregs[REG_RIP];
    long block = block_at((uint64_t)*rip - 1);
    if (block < 0) abort();
    --*rip;
    *(volatile uint8_t *)*rip = own[block];
    counters[block] = 1;
    met++;
}

/* memory of the library's calls: how much is held, and the most of it; a piece past the limit isn't given */
static int inside;
static long pieces;
static size_t held, most_held;
void *__real_malloc(size_t), *__real_realloc(void *, size_t), *__real_calloc(size_t, size_t);
void __real_free(void *);
static void *given(void *p) {
    if (inside && p) { pieces++; held += malloc_usable_size(p); if (held > most_held) most_held = held; }
    return p;
}
static int is_too_much(size_t n) { return inside && (n > 2ul << 30 || held + n > 2ul << 30); }
void *__wrap_malloc(size_t n) { return is_too_much(n) ? 0 : given(__real_malloc(n)); }
void *__wrap_calloc(size_t n, size_t m) { return is_too_much(n * m) ? 0 : given(__real_calloc(n, m)); }
void __wrap_free(void *p) {
    if (inside && p) { pieces--; held -= malloc_usable_size(p); }
    __real_free(p);
}
void *__wrap_realloc(void *p, size_t n) {
    if (is_too_much(n)) return 0;
    size_t before = inside && p ? malloc_usable_size(p) : 0;
    void *q = __real_realloc(p, n);
    if (inside && q) { if (p) { pieces--; held -= before; } given(q); }
    return q;
}

int LLVMFuzzerInitialize(int *argc, char ***argv) {
    (void)argc; (void)argv;
    read_blocks();
    struct sigaction action = {.sa_sigaction = at_breakpoint, .sa_flags = SA_SIGINFO};
    sigaction(SIGTRAP, &action, 0);
    for (size_t i = 0; i < blocks; i++) {
        if (mprotect((void *)(addresses[i] & ~4095ul), 8192, PROT_READ | PROT_WRITE | PROT_EXEC)) { perror("mprotect"); exit(2); }
        own[i] = *(uint8_t *)addresses[i];
        *(volatile uint8_t *)addresses[i] = 0xcc;
    }
    atexit(tell);
    return 0;
}

static void wrong(const char *what) {
    inside = 0;
    fprintf(stderr, "the C library: %s\n", what);
    tell();
    abort();
}
static void want(int holds, const char *what) { if (!holds) wrong(what); }

/* an answer that is copied: the size is told first, into a buffer of no item, and then all of it fits; nothing is written behind it */
static uint8_t buffer[1 << 22];
#define COPIED(CALL, ITEM) do { \
    size_t size = 0, again = 0; \
    uint32_t s = CALL(0, &size); \
    want(s == ENC_DONE || s == ENC_SHORT || s == ENC_ABSENT || s == ENC_UNLIKE || s == ENC_LATER || s == ENC_MEMORY, #CALL); \
    if (s == ENC_SHORT && size * sizeof(ITEM) < sizeof buffer) { \
        buffer[size * sizeof(ITEM)] = 0xa5; \
        s = CALL(size, &again); \
        want((s == ENC_DONE && again == size) || s == ENC_MEMORY, #CALL " again"); \
        want(buffer[size * sizeof(ITEM)] == 0xa5, #CALL " behind the buffer"); \
    } \
} while (0)

static enc_module h;
static void look_at_column(uint32_t token, uint8_t column) {
    uint32_t n;
    uint32_t s = enc_number(&h, token, column, &n);
    want(s == ENC_DONE || s == ENC_ABSENT || s == ENC_UNLIKE, "enc_number");
    s = enc_token(&h, token, column, &n);
    want(s == ENC_DONE || s == ENC_ABSENT || s == ENC_UNLIKE, "enc_token");
#define TEXT_OF(LENGTH, SIZE) enc_text(&h, token, column, buffer, LENGTH, SIZE)
#define BLOB_OF(LENGTH, SIZE) enc_blob(&h, token, column, buffer, LENGTH, SIZE)
#define GUID_OF(LENGTH, SIZE) enc_guid(&h, token, column, buffer, LENGTH, SIZE)
    COPIED(TEXT_OF, uint8_t);
    COPIED(BLOB_OF, uint8_t);
    COPIED(GUID_OF, uint8_t);
}

static void look_at_row(uint32_t token) {
    enc_place place;
    enc_code_head head;
    uint32_t owner, s = enc_locate(&h, token, &place);
    want(s == ENC_DONE || s == ENC_ABSENT, "enc_locate");
    s = enc_owner(&h, token, &owner);
    want(s == ENC_DONE || s == ENC_ABSENT || s == ENC_UNLIKE, "enc_owner");
    for (uint8_t column = 0; column < 9; column++) look_at_column(token, column);
    static const uint8_t tables[] = {0x04, 0x06, 0x08, 0x14, 0x17};
#define KIDS_OF(LENGTH, SIZE) enc_kids(&h, token, tables[t], (uint32_t *)buffer, LENGTH, SIZE)
    for (size_t t = 0; t < sizeof tables; t++) COPIED(KIDS_OF, uint32_t);
#define ROW_OF(LENGTH, SIZE) enc_row(&h, token, buffer, LENGTH, SIZE)
#define CODE_OF(LENGTH, SIZE) enc_code(&h, token, buffer, LENGTH, SIZE, &head)
#define POINTS_OF(LENGTH, SIZE) enc_points(&h, token, (enc_point *)buffer, LENGTH, SIZE)
#define DOCUMENT_OF(LENGTH, SIZE) enc_document(&h, token, 1, buffer, LENGTH, SIZE)
    COPIED(ROW_OF, uint8_t);
    COPIED(CODE_OF, uint8_t);
    COPIED(POINTS_OF, enc_point);
    COPIED(DOCUMENT_OF, uint8_t);
}

/* the first two rows and the last of each table, one that isn't there, entries of heaps, EncIds */
static void look_at_all(const struct input *in) {
    uint32_t generations, rows;
    want(enc_generations(&h, &generations) == ENC_DONE, "enc_generations");
    for (uint32_t table = 0; table < 64; table++) {
        uint32_t s = enc_count(&h, (uint8_t)table, &rows);
        want(s == ENC_DONE || s == ENC_UNLIKE, "enc_count");
        if (s != ENC_DONE || rows == 0) continue;
        look_at_row(table << 24 | 1);
        if (rows > 1) look_at_row(table << 24 | 2);
        if (rows > 2) look_at_row(table << 24 | rows);
        if (table == 6) look_at_row(table << 24 | (rows + 1));
    }
    for (uint32_t heap = 0; heap < 9; heap++) for (uint32_t i = 0; i < 6; i++) {
        enc_place place;
        uint32_t offset = i < 3 ? i : (uint32_t)in->command * 37 + i, s = enc_locate_heap(&h, heap, offset, &place);
        want(s == ENC_DONE || s == ENC_ABSENT || s == ENC_UNLIKE, "enc_locate_heap");
    }
#define ID_OF(LENGTH, SIZE) enc_id(&h, g, buffer, LENGTH, SIZE)
    for (uint32_t g = 0; g <= generations; g++) COPIED(ID_OF, uint8_t);
}

static int is_told(uint32_t s, const enc_refusal *why) {
    told.statuses[s & 15]++;
    if (s == ENC_MEMORY) told.memory++;
    want(s == ENC_DONE || s == ENC_REFUSED || s == ENC_MEMORY, "a status of enc_open or enc_apply");
    if (s != ENC_REFUSED) return s == ENC_DONE;
    size_t size = 0;
    want(enc_words(why, buffer, 256, &size) == ENC_DONE && size > 3 && buffer[size - 1] == '\n', "the words of a refusal");
    return 0;
}

static void work(const struct input *in) {
    const struct part *p = in->parts;
    enc_refusal why;
    h = 0;
    if (!is_told(enc_open(&h, p[BASE].at, p[BASE].n, p[BASE_PDB].at, p[BASE_PDB].n, &why), &why)) { want(h == 0, "a handle that isn't open"); return; }
    for (int d = META1; d <= META2; d += META2 - META1) {
        if (p[d].n == 0 && p[d + 1].n == 0) break;
        uint32_t before = 0, after = 0;
        enc_generations(&h, &before);
        int is_added = is_told(enc_apply(&h, p[d].at, p[d].n, p[d + 1].at, p[d + 1].n, p[d + 2].at, p[d + 2].n, &why), &why);
        enc_generations(&h, &after);
        want(after == before + (uint32_t)is_added, "the generations behind enc_apply");
    }
    look_at_all(in);
    want(enc_close(&h) == ENC_DONE && h == 0 && enc_close(&h) == ENC_CLOSED, "enc_close");
}

int LLVMFuzzerTestOneInput(const uint8_t *data, size_t n) {
    struct input in = decoded(data, n);
    struct timespec before, after;
    most_held = 0;
    clock_gettime(CLOCK_PROCESS_CPUTIME_ID, &before);
    inside = 1;
    work(&in);
    inside = 0;
    clock_gettime(CLOCK_PROCESS_CPUTIME_ID, &after);
    want(pieces == 0 && held == 0, "memory that is leaked");
    count((double)(after.tv_sec - before.tv_sec) + (double)(after.tv_nsec - before.tv_nsec) / 1e9, most_held, data, n);
    return 0;
}
#endif
