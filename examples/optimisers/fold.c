/* A small optimiser from outside, in C: it reads a program's RTL, and writes offers of pass 1, in which constants are folded.
 *
 *     cc -O2 -o fold examples/optimisers/fold.c
 *     cfarm emit life.c --of rtl > life.rtl
 *     mkdir -p offers/node1 && ./fold life.rtl offers/node1
 *     cfarm build life.c --offers offers --dir built
 *
 * It knows docs/FORMATS.md and docs/PASSES.md, and nothing of the farm's code. Where a node has one way in, it knows what is known
 * behind the node before it; at every other node it knows nothing. Whatever it writes, the farm's checks decide. */
#include <stdint.h>
#include <stdio.h>
#include <stdlib.h>

enum { NOTHING, CONSTANT, MOVE, OPERATOR, LOAD, STORE, CALL, PUT, BRANCH, RETURN };
enum { FACTS = 16, NODES = 65536 };

typedef struct {
    const uint8_t *from;                    /* its bytes, of which there are so many */
    int size, kind, code, reads, goes;      /* how many registers it reads, and to how many nodes it goes on */
    int read[2], target, to[2];             /* the first two that it reads; target is -1 where nothing is written */
    uint32_t word;
    int ways_in, feeder, is_known;
    int count, fact[FACTS];                 /* the registers whose words are known before it, newest last */
    uint32_t fact_word[FACTS];
} Node;

static const uint8_t *at;
static Node node[NODES];

static int u8(void) { return *at++; }
static int u16(void) { at += 2; return at[-2] << 8 | at[-1]; }
static uint32_t u32(void) { uint32_t high = u16(); return high << 16 | u16(); }
static void put16(FILE *file, int number) { putc(number >> 8, file); putc(number & 255, file); }
static void put32(FILE *file, uint32_t word) { put16(file, word >> 16); put16(file, word & 65535); }

static void read_node(Node *it) {
    *it = (Node){ .from = at, .target = -1, .goes = 1 };
    it->kind = u8();
    if (it->kind == OPERATOR || it->kind == BRANCH || it->kind == CALL) it->code = u8();
    if (it->kind == CONSTANT || it->kind == MOVE || it->kind == OPERATOR || it->kind == LOAD) it->target = u16();
    if (it->kind == LOAD || it->kind == STORE) u16();
    if (it->kind == CONSTANT) it->word = u32();
    if (it->kind == MOVE || it->kind == LOAD || it->kind == PUT) it->reads = 1;
    if (it->kind == STORE) it->reads = 2;
    if (it->kind == OPERATOR) it->reads = it->code <= 4 ? 1 : 2;
    if (it->kind == BRANCH) it->reads = it->code ? 2 : 1, it->goes = 2;
    if (it->kind == CALL) it->reads = u8();
    if (it->kind == RETURN) it->reads = u8(), it->goes = 0;
    for (int i = 0; i < it->reads; i++) {
        int named = u16();
        if (i < 2) it->read[i] = named;
    }
    if ((it->kind == CALL || it->kind == PUT) && u8()) it->target = u16();
    for (int i = 0; i < it->goes; i++) it->to[i] = u16();
    it->size = at - it->from;
}

/* What an operator of the machine gives; 0 where its table has no answer. */
static int operated(int code, uint32_t x, uint32_t y, uint32_t *word) {
    int32_t s = x, t = y;
    if (code >= 11 && code <= 14 && (y == 0 || (code % 2 && s == INT32_MIN && t == -1))) return 0;
    if (code >= 18 && code <= 21 && y >= 32) return 0;
    switch (code) {
    case 1: case 2: *word = -x; break;
    case 3: *word = ~x; break;
    case 4: *word = x == 0; break;
    case 5: case 6: *word = x + y; break;
    case 7: case 8: *word = x - y; break;
    case 9: case 10: *word = x * y; break;
    case 11: *word = s / t; break;
    case 12: *word = x / y; break;
    case 13: *word = s % t; break;
    case 14: *word = x % y; break;
    case 15: *word = x & y; break;
    case 16: *word = x | y; break;
    case 17: *word = x ^ y; break;
    case 18: case 19: *word = x << y; break;
    case 20: *word = s < 0 ? ~(~x >> y) : x >> y; break;
    case 21: *word = x >> y; break;
    case 22: *word = x == y; break;
    case 23: *word = x != y; break;
    case 24: *word = s < t; break;
    case 25: *word = x < y; break;
    case 26: *word = s <= t; break;
    default: *word = x <= y;
    }
    return 1;
}

static int holds(int condition, uint32_t x, uint32_t y) {
    int32_t s = x, t = y;
    int answers[] = { x != 0, x == y, x != y, s < t, x < y, s <= t, x <= y };
    return answers[condition];
}

static int known(const Node *it, int place, uint32_t *word) {
    for (int i = 0; i < it->count; i++)
        if (it->fact[i] == it->read[place]) { *word = it->fact_word[i]; return 1; }
    return 0;
}

/* Whether all that it reads is known. */
static int are_known(const Node *it, uint32_t *x, uint32_t *y) {
    return known(it, 0, x) && (it->reads < 2 || known(it, 1, y));
}

/* Whether it is known which word it writes. */
static int is_written(const Node *it, uint32_t *word) {
    uint32_t x = 0, y = 0;
    *word = it->word;
    if (it->kind == CONSTANT) return 1;
    if (it->kind == MOVE) return known(it, 0, word);
    return it->kind == OPERATOR && are_known(it, &x, &y) && operated(it->code, x, y, word);
}

/* Hands on to a node what is known behind the one node from which it is reached. */
static void hand_on(const Node *from, Node *to) {
    uint32_t word;
    to->count = 0;
    for (int i = 0; i < from->count; i++)
        if (from->fact[i] != from->target) {
            to->fact[to->count] = from->fact[i];
            to->fact_word[to->count++] = from->fact_word[i];
        }
    if (!is_written(from, &word)) return;
    if (to->count == FACTS) {               /* the oldest is forgotten */
        to->count--;
        for (int i = 0; i < to->count; i++) to->fact[i] = to->fact[i + 1], to->fact_word[i] = to->fact_word[i + 1];
    }
    to->fact[to->count] = from->target;
    to->fact_word[to->count++] = word;
}

static void write_node(FILE *file, const Node *it) {
    uint32_t x = 0, y = 0, word;
    if ((it->kind == MOVE || it->kind == OPERATOR) && is_written(it, &word)) {
        putc(CONSTANT, file); put16(file, it->target); put32(file, word); put16(file, it->to[0]);
    } else if (it->kind == BRANCH && are_known(it, &x, &y)) {
        putc(NOTHING, file); put16(file, it->to[!holds(it->code, x, y)]);
    } else
        fwrite(it->from, 1, it->size, file);
}

/* A row for each marked node of which something is known; registers rise. */
static void write_rows(FILE *file, int count) {
    int rows = 0;
    for (int n = 0; n < count; n++) rows += node[n].count && node[n].feeder >= n;
    put16(file, rows);
    for (int n = 0; n < count; n++) {
        Node *it = &node[n];
        if (!it->count || it->feeder < n) continue;
        put16(file, n); put16(file, it->count);
        for (int last = -1, next = 0; next >= 0; last = it->fact[next]) {
            next = -1;
            for (int i = 0; i < it->count; i++)
                if (it->fact[i] > last && (next < 0 || it->fact[i] < it->fact[next])) next = i;
            if (next < 0) break;
            put16(file, it->fact[next]); put32(file, it->fact_word[next]);
        }
    }
}

/* Reads one function and writes its offer. */
static void offer(const char *folder, const char *name, int length) {
    static char path[4096];
    const uint8_t *begun = at;
    at++;
    at += 2 * *at + 1;                      /* the parameters */
    u16();                                  /* how many registers there are */
    int entry = u16(), count = u16();
    const uint8_t *nodes = at;
    for (int n = 0; n < count; n++) read_node(&node[n]);
    for (int n = 0; n < count; n++)
        for (int i = 0; i < node[n].goes; i++) node[node[n].to[i]].ways_in++, node[node[n].to[i]].feeder = n;
    for (int n = 0; n < count; n++) {       /* along each way from where it begins */
        static int waiting[NODES];
        int waits = 0;
        if (n == entry || node[n].ways_in != 1) waiting[waits++] = n;
        while (waits) {
            Node *from = &node[waiting[--waits]];
            for (int i = 0; i < from->goes; i++) {
                int to = from->to[i];
                if (to == entry || node[to].ways_in != 1 || node[to].is_known) continue;
                node[to].is_known = 1;
                hand_on(from, &node[to]);
                waiting[waits++] = to;
            }
        }
    }
    snprintf(path, sizeof path, "%s/%.*s.pass1", folder, length, name);
    FILE *file = fopen(path, "wb");
    if (!file) { perror(path); exit(1); }
    putc(17, file);
    fwrite(begun, 1, at - begun, file);
    fwrite(begun, 1, nodes - begun, file);
    for (int n = 0; n < count; n++) write_node(file, &node[n]);
    write_rows(file, count);
    if (fclose(file)) { perror(path); exit(1); }
}

int main(int words, char **word) {
    if (words != 3) { fputs("usage: fold PROGRAM.rtl FOLDER\n", stderr); return 2; }
    FILE *file = fopen(word[1], "rb");
    if (!file) { perror(word[1]); return 1; }
    fseek(file, 0, SEEK_END);
    long size = ftell(file);
    rewind(file);
    uint8_t *bytes = malloc(size + 1);
    if (!bytes || fread(bytes, 1, size, file) != (size_t)size) { perror(word[1]); return 1; }
    fclose(file);
    at = bytes + 5;                         /* behind `CFP1` and the number of the language */
    for (int globals = u16(); globals; globals--) {
        u32();
        uint32_t listed = u32();
        at += 4 * listed;
    }
    for (int functions = u8(); functions; functions--) {
        int length = u8();
        const char *name = (const char *)at;
        at += length;
        offer(word[2], name, length);
    }
    return 0;
}
