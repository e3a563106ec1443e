// A switch in a loop: a small stack machine that computes and prints.
int putchar(int byte);

enum op { PUSH, ADD, MUL, SUB, DUP, PRINT, JUMP_IF, HALT };

static const signed char code[] = {PUSH, 5, DUP, PUSH, 48, ADD, PRINT, PUSH, 1, SUB, DUP, JUMP_IF, 2, HALT};

int main(void) {
    int stack[16], top = 0, at = 0, steps = 0;
    for (;;) {
        steps++;
        switch ((enum op)code[at++]) {
        case PUSH: stack[top++] = code[at++]; break;
        case ADD: top--; stack[top - 1] += stack[top]; break;
        case MUL: top--; stack[top - 1] *= stack[top]; break;
        case SUB: top--; stack[top - 1] -= stack[top]; break;
        case DUP: stack[top] = stack[top - 1]; top++; break;
        case PRINT: putchar(stack[--top]); break;
        case JUMP_IF: if (stack[--top]) at = code[at]; else at++; break;
        case HALT: putchar('\n'); return steps;
        }
    }
}
