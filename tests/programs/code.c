// An interpreter of a small code on a stack: a switch in a loop, which finds primes.
#include <stdio.h>

enum Kind { PUSH, LOAD, STORE, ADD, MUL, MOD, LESS, JUMP, UNLESS, WRITE, STOP };
typedef struct { enum Kind kind; int with; } Step;
static const Step code[] = {
    {PUSH, 2}, {STORE, 0},                                              //  0: n = 2
    {LOAD, 0}, {PUSH, 60}, {LESS, 0}, {UNLESS, 33},                     //  2: while n < 60
    {PUSH, 2}, {STORE, 1},                                              //  6: d = 2
    {LOAD, 1}, {LOAD, 1}, {MUL, 0}, {LOAD, 0}, {PUSH, 1}, {ADD, 0}, {LESS, 0}, {UNLESS, 26}, // 8: while d * d < n + 1
    {LOAD, 0}, {LOAD, 1}, {MOD, 0}, {UNLESS, 28},                       // 16: n % d is 0: no prime
    {LOAD, 1}, {PUSH, 1}, {ADD, 0}, {STORE, 1}, {JUMP, 8}, {STOP, 0},   // 20: d = d + 1
    {LOAD, 0}, {WRITE, 0},                                              // 26
    {LOAD, 0}, {PUSH, 1}, {ADD, 0}, {STORE, 0}, {JUMP, 2}, {STOP, 0},   // 28: n = n + 1
};

static int run(const Step *steps, int *cells, int limit) {
    int stack[16], top = 0, written = 0, at = 0;
    for (int made = 0; made < limit; made++) {
        const Step *step = &steps[at++];
        switch (step->kind) {
        case PUSH: stack[top++] = step->with; break;
        case LOAD: stack[top++] = cells[step->with]; break;
        case STORE: cells[step->with] = stack[--top]; break;
        case ADD: top--; stack[top - 1] += stack[top]; break;
        case MUL: top--; stack[top - 1] *= stack[top]; break;
        case MOD: top--; stack[top - 1] %= stack[top]; break;
        case LESS: top--; stack[top - 1] = stack[top - 1] < stack[top]; break;
        case JUMP: at = step->with; break;
        case UNLESS: if (!stack[--top]) at = step->with; break;
        case WRITE: printf("%d%c", stack[--top], ++written % 6 ? ' ' : '\n'); break;
        default: return made;
        }
    }
    return -1;
}

int main(void) {
    int cells[2] = {0, 0};
    int made = run(code, cells, 20000);
    int short_of = run(code, cells, 100);
    printf("%d %d %d\n", made, cells[0], short_of);
    return made & 127;
}
