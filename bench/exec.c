/* A plain interpreter of target programs without inputs and without par: flat code with jumps, registers in one array, blocks in
   one array of words. It tests what a run must test: the budget of steps, a divisor, a shift, that a block is live and an index
   within it, and the depth of calls. It reads a program on standard input, and prints the results and the number of steps. */
#include <stdint.h>
#include <stdio.h>
#include <stdlib.h>
#include <string.h>

enum { CONST, MOV, ADD, SUB, MUL, DIV, MOD, MIN, MAX, LT, LE, EQ, NE, AND, OR, XOR, SHL, SHR, LOAD, STORE, ALLOC, FREE, IF, ENTER, JUMP, TEST, CALL, RETURN };
static const char *names[] = { "const", "mov", "add", "sub", "mul", "div", "mod", "min", "max", "lt", "le", "eq", "ne", "and", "or", "xor", "shl", "shr", "load", "store", "alloc", "free" };

typedef struct { int op; uint32_t a, b, c; uint64_t word; uint32_t *list; uint32_t args, results; char *proc; } Instr;
typedef struct { char *name; uint32_t first, regs; } Proc;
typedef struct { uint32_t back, base; Instr *call; } Frame;

static Instr code[100000];
static uint32_t used;
static Proc procs[1000];
static uint32_t count;

static void fail(const char *why) { puts(why); exit(1); }

static Instr *put(int op) {
    if (used == 100000) fail("too long");
    code[used].op = op;
    return &code[used++];
}

/* the registers named in a text, behind those that are there */
static uint32_t registers(const char *text, uint32_t *list, uint32_t n) {
    for (const char *at = strchr(text, 'r'); at; at = strchr(at + 1, 'r')) {
        if (at[1] >= '0' && at[1] <= '9') list[n++] = (uint32_t)strtoul(at + 1, 0, 10);
    }
    return n;
}

static void call(char *line, char *word) {
    char *open = strchr(word, '(');
    *open = 0;
    Instr *i = put(CALL);
    i->list = malloc(sizeof(uint32_t) * (strlen(line) + strlen(open + 1) + 1));
    i->proc = strdup(word + 5);
    i->args = registers(open + 1, i->list, 0);
    word[0] = 0;
    i->results = registers(line, i->list, i->args) - i->args;
}

static void plain(char *line) {
    char *word = strstr(line, "call ");
    if (word) { call(line, word); return; }
    uint32_t list[4] = { 0 };
    char *is = strstr(line, " = ");
    word = is ? is + 3 : line;
    int op = 0;
    while (op <= FREE && (strncmp(word, names[op], strlen(names[op])) || word[strlen(names[op])] != ' ')) op++;
    if (op > FREE) fail("not known");
    registers(line, list, 0);
    Instr *i = put(op);
    i->a = list[0]; i->b = list[1]; i->c = list[2];
    if (op == CONST) i->word = strtoull(word + 6, 0, 10);
}

static void read_program(void) {
    static char line[1 << 20];
    uint32_t open[200], depth = 0;
    while (fgets(line, sizeof line, stdin)) {
        char *text = line + strspn(line, " ");
        text[strcspn(text, "\n")] = 0;
        if (!strncmp(text, "sepref ", 7) || !strncmp(text, "out ", 4)) continue;
        if (!strncmp(text, "proc ", 5)) {
            char *space = strchr(text + 5, ' ');
            *space = 0;
            procs[count].name = strdup(text + 5);
            procs[count].first = used;
            procs[count++].regs = (uint32_t)strtoul(strchr(space + 1, ' '), 0, 10);
        } else if (!strncmp(text, "ret", 3)) {
            Instr *i = put(RETURN);
            i->list = malloc(sizeof(uint32_t) * (strlen(text) + 1));
            i->results = registers(text + 3, i->list, 0);
        } else if (!strncmp(text, "if r", 4)) {
            put(IF)->a = (uint32_t)strtoul(text + 4, 0, 10);
            open[depth++] = used - 1;
        } else if (!strcmp(text, "else")) {
            put(JUMP);
            code[open[depth - 1]].b = used;
            open[depth - 1] = used - 1;
        } else if (!strcmp(text, "while")) {
            put(ENTER);
            open[depth++] = used;
        } else if (!strncmp(text, "do r", 4)) {
            put(TEST)->a = (uint32_t)strtoul(text + 4, 0, 10);
            open[depth++] = used - 1;
        } else if (!strcmp(text, "end")) {
            if (depth == 0) continue;
            uint32_t at = open[--depth];
            if (code[at].op == JUMP) { code[at].b = used; continue; }
            put(JUMP)->b = open[--depth];
            code[at].b = used;
        } else plain(text);
    }
    for (uint32_t k = 0; k < used; k++) {
        if (code[k].op != CALL) continue;
        uint32_t p = 0;
        while (p < count && strcmp(procs[p].name, code[k].proc)) p++;
        if (p == count) fail("no such procedure");
        code[k].b = p;
    }
}

#define HEAP 16777216u
#define REGISTERS 16777216u
#define FRAMES 10000u
static uint64_t *heap;
static unsigned char *live;

static uint64_t *word_at(uint64_t block, uint64_t index) {
    if (block == 0 || block > HEAP || !live[block]) fail("block");
    if (index >= heap[block]) fail("index");
    return &heap[block + 1 + index];
}

static void run(uint64_t budget) {
    static Frame frames[FRAMES];
    uint64_t *all = calloc(REGISTERS, 8), *r = all, steps = 0, top = 1;
    uint32_t frame = 0, base = 0, regs = procs[0].regs;
    Instr *at = code + procs[0].first;
    for (;;) {
        Instr *i = at++;
        if (i->op != JUMP && steps++ >= budget) fail("steps");
        switch (i->op) {
        case CONST: r[i->a] = i->word; break;
        case MOV: r[i->a] = r[i->b]; break;
        case ADD: r[i->a] = r[i->b] + r[i->c]; break;
        case SUB: r[i->a] = r[i->b] - r[i->c]; break;
        case MUL: r[i->a] = r[i->b] * r[i->c]; break;
        case DIV: if (!r[i->c]) fail("zero"); r[i->a] = r[i->b] / r[i->c]; break;
        case MOD: if (!r[i->c]) fail("zero"); r[i->a] = r[i->b] % r[i->c]; break;
        case MIN: r[i->a] = r[i->b] < r[i->c] ? r[i->b] : r[i->c]; break;
        case MAX: r[i->a] = r[i->b] > r[i->c] ? r[i->b] : r[i->c]; break;
        case LT: r[i->a] = r[i->b] < r[i->c]; break;
        case LE: r[i->a] = r[i->b] <= r[i->c]; break;
        case EQ: r[i->a] = r[i->b] == r[i->c]; break;
        case NE: r[i->a] = r[i->b] != r[i->c]; break;
        case AND: r[i->a] = r[i->b] & r[i->c]; break;
        case OR: r[i->a] = r[i->b] | r[i->c]; break;
        case XOR: r[i->a] = r[i->b] ^ r[i->c]; break;
        case SHL: if (r[i->c] > 63) fail("shift"); r[i->a] = r[i->b] << r[i->c]; break;
        case SHR: if (r[i->c] > 63) fail("shift"); r[i->a] = r[i->b] >> r[i->c]; break;
        case LOAD: r[i->a] = *word_at(r[i->b], r[i->c]); break;
        case STORE: *word_at(r[i->a], r[i->b]) = r[i->c]; break;
        case ALLOC: {
            uint64_t len = r[i->b];
            if (len >= HEAP || top + len > HEAP) fail("full");
            heap[top] = len; live[top] = 1; memset(heap + top + 1, 0, len * 8);
            r[i->a] = top; top += len + 1;
            break;
        }
        case FREE: if (r[i->a] == 0 || r[i->a] > HEAP || !live[r[i->a]]) fail("block"); live[r[i->a]] = 0; break;
        case IF: if (!r[i->a]) at = code + i->b; break;
        case ENTER: break;
        case JUMP: at = code + i->b; break;
        case TEST: if (!r[i->a]) at = code + i->b; break;
        case CALL: {
            Proc *p = procs + i->b;
            if (frame + 1 >= FRAMES || base + regs + p->regs > REGISTERS) fail("depth");
            frames[frame++] = (Frame){ (uint32_t)(at - code), base, i };
            uint64_t *new = r + regs;
            for (uint32_t k = 0; k < i->args; k++) new[k] = r[i->list[k]];
            memset(new + i->args, 0, (p->regs - i->args) * 8);
            base += regs; regs = p->regs; r = new; at = code + p->first;
            break;
        }
        case RETURN: {
            if (frame == 0) {
                for (uint32_t k = 0; k < i->results; k++) printf("%llu ", (unsigned long long)r[i->list[k]]);
                printf("after %llu steps\n", (unsigned long long)steps);
                return;
            }
            Frame f = frames[--frame];
            uint64_t *old = all + f.base;
            for (uint32_t k = 0; k < i->results; k++) old[f.call->list[f.call->args + k]] = r[i->list[k]];
            regs = base - f.base; base = f.base; r = old; at = code + f.back;
            break;
        }
        }
    }
}

int main(int argc, char **argv) {
    heap = calloc(HEAP + 2, 8);
    live = calloc(HEAP + 2, 1);
    read_program();
    run(argc > 1 ? strtoull(argv[1], 0, 10) : 1000000000000000000ull);
    return 0;
}
