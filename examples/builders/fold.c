/* A builder in C: it reads the function form that pass 1 or 3 begins with, and writes an offer of that pass.
 *
 *     cc -O2 -o fold fold.c
 *     ./fold agreed/main.pass1 offers/node1/main.pass1
 *
 * It knows docs/FORMATS.md and docs/PASSES.md, and nothing of the farm's code. The number at the end of the first name says which pass it is;
 * of passes 2 and 4 it knows nothing, and writes nothing. In pass 1 it folds constants: where a node has one way in, it knows what is known
 * behind the node before it, and at every other node nothing. In pass 3 it gives each register a place of its own for as long as it lives. What
 * writes a word that nobody reads is dropped, and a move too whose ends share a place. Places are r2 to r7, for what lives over a call r4 to
 * r7, and slots, whose words go through r0 and r1. Whatever it writes, the farm's checks decide. */
#include <stdint.h>
#include <stdio.h>
#include <stdlib.h>
#include <string.h>

enum { NOTHING, CONSTANT, MOVE, OPERATOR, LOAD, STORE, CALL, PUT, BRANCH, RETURN };
enum { FACTS = 16, NODES = 65536, REGISTERS = 4096, SLOTS = 8, PLACES = SLOTS + 2048, WORDS = REGISTERS / 64 };

typedef struct {
    const uint8_t *from, *read;             /* its bytes, and those of the registers that it reads, of which there are so many */
    int size, kind, code, global, reads;
    int target, goes, to[2];                /* target is -1 where nothing is written; it goes on to so many nodes */
    uint32_t word;
    int ways_in, feeder, is_known;
    int count, fact[FACTS];                 /* the registers whose words are known before it, newest last */
    uint32_t fact_word[FACTS];
} Node;

static const uint8_t *at, *nodes_at;
static FILE *out;
static int parameters, parameter[16], registers, entry, count;
static Node node[NODES];

static int u8(void) { return *at++; }
static int u16(void) { at += 2; return at[-2] << 8 | at[-1]; }
static uint32_t u32(void) { uint32_t high = u16(); return high << 16 | u16(); }
static void put8(int number) { putc(number, out); }
static void put16(int number) { put8(number >> 8); put8(number & 255); }
static void put32(uint32_t word) { put16(word >> 16); put16(word & 65535); }
static int read_of(const Node *it, int place) { return it->read[2 * place] << 8 | it->read[2 * place + 1]; }
static int is_marked(int n) { return n == entry || node[n].ways_in != 1 || node[n].feeder >= n; }

static void read_node(Node *it) {
    *it = (Node){ .from = at, .target = -1, .goes = 1 };
    it->kind = u8();
    if (it->kind == OPERATOR || it->kind == BRANCH || it->kind == CALL) it->code = u8();
    if (it->kind == CONSTANT || it->kind == MOVE || it->kind == OPERATOR || it->kind == LOAD) it->target = u16();
    if (it->kind == LOAD || it->kind == STORE) it->global = u16();
    if (it->kind == CONSTANT) it->word = u32();
    if (it->kind == MOVE || it->kind == LOAD || it->kind == PUT) it->reads = 1;
    if (it->kind == STORE) it->reads = 2;
    if (it->kind == OPERATOR) it->reads = it->code <= 4 ? 1 : 2;
    if (it->kind == BRANCH) it->reads = it->code ? 2 : 1, it->goes = 2;
    if (it->kind == CALL) it->reads = u8();
    if (it->kind == RETURN) it->reads = u8(), it->goes = 0;
    it->read = at;
    at += 2 * it->reads;
    if ((it->kind == CALL || it->kind == PUT) && u8()) it->target = u16();
    for (int i = 0; i < it->goes; i++) it->to[i] = u16();
    it->size = at - it->from;
}

static void read_function(void) {
    at++;
    parameters = u8();
    for (int i = 0; i < parameters; i++) parameter[i] = u16();
    registers = u16(), entry = u16(), count = u16();
    nodes_at = at;
    for (int n = 0; n < count; n++) read_node(&node[n]);
    for (int n = 0; n < count; n++)
        for (int i = 0; i < node[n].goes; i++) node[node[n].to[i]].ways_in++, node[node[n].to[i]].feeder = n;
}

/* Pass 1. What an operator of the machine gives; 0 where its table has no answer. */
static int operated(int code, uint32_t x, uint32_t y, uint32_t *word) {
    int32_t s = x, t = y;
    if (code >= 11 && code <= 14 && (y == 0 || (code % 2 && s == INT32_MIN && t == -1))) return 0;
    if (code >= 18 && code <= 21 && y >= 32) return 0;
    switch (code) {
    case 1: case 2: *word = -x; break;
    case 3: *word = ~x; break;
    case 4: *word = x == 0; break;
    case 5: case 6: *word = x + y; break;
    case 7: case 8: *word = x - y; break;
    case 9: case 10: *word = x * y; break;
    case 11: *word = s / t; break;
    case 12: *word = x / y; break;
    case 13: *word = s % t; break;
    case 14: *word = x % y; break;
    case 15: *word = x & y; break;
    case 16: *word = x | y; break;
    case 17: *word = x ^ y; break;
    case 18: case 19: *word = x << y; break;
    case 20: *word = s < 0 ? ~(~x >> y) : x >> y; break;
    case 21: *word = x >> y; break;
    case 22: *word = x == y; break;
    case 23: *word = x != y; break;
    case 24: *word = s < t; break;
    case 25: *word = x < y; break;
    case 26: *word = s <= t; break;
    default: *word = x <= y;
    }
    return 1;
}

static int holds(int condition, uint32_t x, uint32_t y) {
    int32_t s = x, t = y;
    int answers[] = { x != 0, x == y, x != y, s < t, x < y, s <= t, x <= y };
    return answers[condition];
}

static int known(const Node *it, int place, uint32_t *word) {
    for (int i = 0; i < it->count; i++)
        if (it->fact[i] == read_of(it, place)) { *word = it->fact_word[i]; return 1; }
    return 0;
}

/* Whether all that it reads is known. */
static int are_known(const Node *it, uint32_t *x, uint32_t *y) {
    return known(it, 0, x) && (it->reads < 2 || known(it, 1, y));
}

/* Whether it is known which word it writes. */
static int is_written(const Node *it, uint32_t *word) {
    uint32_t x = 0, y = 0;
    *word = it->word;
    if (it->kind == CONSTANT) return 1;
    if (it->kind == MOVE) return known(it, 0, word);
    return it->kind == OPERATOR && are_known(it, &x, &y) && operated(it->code, x, y, word);
}

/* Hands on to a node what is known behind the one node from which it is reached. */
static void hand_on(const Node *from, Node *to) {
    uint32_t word;
    to->count = 0;
    for (int i = 0; i < from->count; i++)
        if (from->fact[i] != from->target) {
            to->fact[to->count] = from->fact[i];
            to->fact_word[to->count++] = from->fact_word[i];
        }
    if (!is_written(from, &word)) return;
    if (to->count == FACTS) {               /* the oldest is forgotten */
        to->count--;
        for (int i = 0; i < to->count; i++) to->fact[i] = to->fact[i + 1], to->fact_word[i] = to->fact_word[i + 1];
    }
    to->fact[to->count] = from->target;
    to->fact_word[to->count++] = word;
}

/* Goes along each way from where it begins. */
static void find_facts(void) {
    static int waiting[NODES];
    for (int n = 0; n < count; n++) {
        int waits = 0;
        if (n == entry || node[n].ways_in != 1) waiting[waits++] = n;
        while (waits) {
            Node *from = &node[waiting[--waits]];
            for (int i = 0; i < from->goes; i++) {
                int to = from->to[i];
                if (to == entry || node[to].ways_in != 1 || node[to].is_known) continue;
                node[to].is_known = 1;
                hand_on(from, &node[to]);
                waiting[waits++] = to;
            }
        }
    }
}

static void write_folded(const Node *it) {
    uint32_t x = 0, y = 0, word;
    if ((it->kind == MOVE || it->kind == OPERATOR) && is_written(it, &word)) {
        put8(CONSTANT); put16(it->target); put32(word); put16(it->to[0]);
    } else if (it->kind == BRANCH && are_known(it, &x, &y)) {
        put8(NOTHING); put16(it->to[!holds(it->code, x, y)]);
    } else
        fwrite(it->from, 1, it->size, out);
}

/* A row for each marked node of which something is known; registers rise. */
static void write_facts(void) {
    int rows = 0;
    for (int n = 0; n < count; n++) rows += node[n].count && is_marked(n);
    put16(rows);
    for (int n = 0; n < count; n++) {
        const Node *it = &node[n];
        if (!it->count || !is_marked(n)) continue;
        put16(n); put16(it->count);
        for (int last = -1, next = 0; ; last = it->fact[next]) {
            next = -1;
            for (int i = 0; i < it->count; i++)
                if (it->fact[i] > last && (next < 0 || it->fact[i] < it->fact[next])) next = i;
            if (next < 0) break;
            put16(it->fact[next]); put32(it->fact_word[next]);
        }
    }
}

/* Pass 3. The registers that are read behind a node before they are written; which of them may not share a place; and the places. */
typedef uint64_t Set[WORDS];

static Set *live, apart[REGISTERS];
static int crosses[REGISTERS], uses[REGISTERS], place[REGISTERS], slots;

static int has(const uint64_t *set, int it) { return set[it / 64] >> it % 64 & 1; }
static void add(uint64_t *set, int it) { set[it / 64] |= (uint64_t)1 << it % 64; }

static void live_behind(const Node *it, uint64_t *behind) {
    memset(behind, 0, sizeof(Set));
    for (int i = 0; i < it->goes; i++)
        for (int w = 0; w < WORDS; w++) behind[w] |= live[it->to[i]][w];
}

/* Whether what it writes is never read, and nothing else comes of it. */
static int is_dropped(const Node *it, const uint64_t *behind) {
    return (it->kind == CONSTANT || it->kind == MOVE || it->kind == OPERATOR || it->kind == LOAD) && !has(behind, it->target);
}

static void find_live(void) {
    Set before;
    live = calloc(count, sizeof(Set));
    if (!live) { perror("fold"); exit(1); }
    for (int changes = 1; changes; ) {
        changes = 0;
        for (int n = count - 1; n >= 0; n--) {
            const Node *it = &node[n];
            live_behind(it, before);
            if (!is_dropped(it, before)) {
                if (it->target >= 0) before[it->target / 64] &= ~((uint64_t)1 << it->target % 64);
                for (int i = 0; i < it->reads; i++) add(before, read_of(it, i));
            }
            if (memcmp(before, live[n], sizeof before)) changes = 1, memcpy(live[n], before, sizeof before);
        }
    }
}

static void keep_apart(int one, int other) {
    if (one != other) add(apart[one], other), add(apart[other], one);
}

static void find_apart(void) {
    Set begun, behind;
    memcpy(begun, live[entry], sizeof begun);
    for (int i = 0; i < parameters; i++) add(begun, parameter[i]);
    for (int one = 0; one < registers; one++)
        for (int other = 0; has(begun, one) && other < one; other++)
            if (has(begun, other)) keep_apart(one, other);
    for (int n = 0; n < count; n++) {
        const Node *it = &node[n];
        live_behind(it, behind);
        if (is_dropped(it, behind)) continue;
        for (int i = 0; i < it->reads; i++) uses[read_of(it, i)]++;
        if (it->target >= 0) uses[it->target]++;
        for (int other = 0; other < registers; other++) {
            if (!has(behind, other) || other == it->target) continue;
            if (it->kind == CALL) crosses[other] = 1;
            if (it->target >= 0 && !(it->kind == MOVE && other == read_of(it, 0))) keep_apart(it->target, other);
        }
    }
}

static int by_uses(const void *one, const void *other) {
    int x = *(const int *)one, y = *(const int *)other;
    return uses[x] != uses[y] ? uses[y] - uses[x] : x - y;
}

/* Gives out places, first to what is named most: that of the other end of a move, if it is free, else the lowest. */
static void find_places(void) {
    static int order[REGISTERS];
    static char taken[PLACES + REGISTERS];
    for (int i = 0; i < registers; i++) order[i] = i, place[i] = -1;
    qsort(order, registers, sizeof order[0], by_uses);
    for (int i = 0; i < registers; i++) {
        int it = order[i], lowest = crosses[it] ? 4 : 2;
        memset(taken, 0, sizeof taken);
        for (int other = 0; other < registers; other++)
            if (place[other] >= 0 && has(apart[it], other)) taken[place[other]] = 1;
        for (int n = 0; n < count && place[it] < 0; n++) {
            int to = node[n].target, of = node[n].kind == MOVE ? read_of(&node[n], 0) : -1;
            int other = to == it ? of : of == it ? to : -1;
            if (other >= 0 && place[other] >= lowest && !taken[place[other]]) place[it] = place[other];
        }
        for (int free = lowest; place[it] < 0; free++)
            if (!taken[free]) place[it] = free;
        if (place[it] >= SLOTS + slots) slots = place[it] - SLOTS + 1;
    }
}

static void put_place(int it) {
    put8(it >= SLOTS);
    if (it >= SLOTS) put16(it - SLOTS); else put8(it);
}

static void put_move(int to, int of) { put_place(to); put_place(of); }

/* A move of RTL is moves alone; there are none where both ends share a place. */
static void write_move(const Node *it) {
    int to = place[it->target], of = place[read_of(it, 0)], both = to >= SLOTS && of >= SLOTS && to != of;
    put8(to == of ? 0 : both ? 2 : 1);
    if (both) put_move(0, of);
    if (to != of) put_move(to, both ? 0 : of);
    put8(NOTHING); put16(it->to[0]); put8(0);
}

static void write_call(const Node *it) {
    put8(0); put8(CALL); put8(it->code); put8(it->reads);
    for (int i = 0; i < it->reads; i++) put_place(place[read_of(it, i)]);
    put8(it->target >= 0);
    if (it->target >= 0) put_place(place[it->target]);
    put16(it->to[0]); put8(0);
}

/* Words of slots come to r0 and r1 before, and a result of a slot goes from r0 behind. */
static void write_block(const Node *it) {
    Set behind;
    int from[2] = { 0, 0 }, moves = 0, target = it->target < 0 ? -1 : place[it->target];
    live_behind(it, behind);
    if (is_dropped(it, behind) || it->kind == NOTHING) { put8(0); put8(NOTHING); put16(it->to[0]); put8(0); return; }
    if (it->kind == MOVE) { write_move(it); return; }
    if (it->kind == CALL) { write_call(it); return; }
    for (int i = 0; i < it->reads; i++) from[i] = place[read_of(it, i)], moves += from[i] >= SLOTS;
    put8(moves);
    for (int i = 0; i < it->reads; i++)
        if (from[i] >= SLOTS) put_move(i, from[i]), from[i] = i;
    int result = target >= SLOTS ? 0 : target;
    put8(it->kind);
    if (it->kind == OPERATOR || it->kind == BRANCH) put8(it->code);
    if (it->kind == CONSTANT || it->kind == OPERATOR || it->kind == LOAD) put8(result);
    if (it->kind == CONSTANT) put32(it->word);
    if (it->kind == LOAD || it->kind == STORE) put16(it->global);
    if (it->kind == RETURN) put8(it->reads);
    for (int i = 0; i < it->reads; i++) put8(from[i]);
    if (it->kind == PUT) put8(target >= 0);
    if (it->kind == PUT && target >= 0) put8(result);
    for (int i = 0; i < it->goes; i++) put16(it->to[i]);
    if (it->kind == BRANCH || it->kind == RETURN) return;
    put8(target >= SLOTS);
    if (target >= SLOTS) put_move(target, 0);
}

/* A row for each marked node before which something is live: where each such register is. */
static void write_rows(void) {
    static int lives[NODES];
    int rows = 0;
    for (int n = 0; n < count; n++) {
        for (int it = 0; it < registers; it++) lives[n] += has(live[n], it);
        rows += lives[n] && is_marked(n);
    }
    put16(rows);
    for (int n = 0; n < count; n++) {
        if (!lives[n] || !is_marked(n)) continue;
        put16(n); put16(lives[n]);
        for (int it = 0; it < registers; it++)
            if (has(live[n], it)) put16(it), put_place(place[it]);
    }
}

int main(int words, char **word) {
    if (words != 3 || !*word[1]) { fputs("usage: fold NAME.passK OFFER\n", stderr); return 2; }
    int pass = word[1][strlen(word[1]) - 1] - '0';
    if (pass != 1 && pass != 3) return 0;
    FILE *file = fopen(word[1], "rb");
    if (!file) { perror(word[1]); return 1; }
    fseek(file, 0, SEEK_END);
    long size = ftell(file);
    rewind(file);
    uint8_t *bytes = malloc(size + 1);
    if (!bytes || fread(bytes, 1, size, file) != (size_t)size) { perror(word[1]); return 1; }
    fclose(file);
    at = bytes;
    read_function();
    out = fopen(word[2], "wb");
    if (!out) { perror(word[2]); return 1; }
    put8(16 + pass);
    fwrite(bytes, 1, size, out);
    if (pass == 1) {
        find_facts();
        fwrite(bytes, 1, nodes_at - bytes, out);
        for (int n = 0; n < count; n++) write_folded(&node[n]);
        write_facts();
    } else {
        find_live(); find_apart(); find_places();
        put8(3); put8(parameters);
        for (int i = 0; i < parameters; i++) put_place(place[parameter[i]]);
        put16(slots); put16(entry); put16(count);
        for (int n = 0; n < count; n++) write_block(&node[n]);
        write_rows();
    }
    if (fclose(out)) { perror(word[2]); return 1; }
    return 0;
}
