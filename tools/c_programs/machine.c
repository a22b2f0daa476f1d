/* A machine with a stack that interprets bytes: a switch of many cases, which becomes a table of addresses. */
#include "put.h"

enum { HALT, PUSH, ADD, MUL, SUB, DUP, SWAP, DROP, SHOW, JUMP_IF, ROT, LESS };

static const signed char code[] = {
    /* 10 factorial */
    PUSH, 1, PUSH, 10,                  /* result, n */
    DUP, ROT, MUL, SWAP,                /* result * n, n */
    PUSH, 1, SUB, DUP, JUMP_IF, -10,    /* while n - 1 */
    DROP, SHOW, PUSH, 5, PUSH, 7, LESS, SHOW, HALT,
};

int main(void)
{
    long stack[16], *top = stack, held;
    const signed char *at = code;

    for (;;) {
        switch (*at++) {
        case PUSH: *top++ = *at++; break;
        case ADD: top--; top[-1] += *top; break;
        case MUL: top--; top[-1] *= *top; break;
        case SUB: top--; top[-1] -= *top; break;
        case DUP: *top = top[-1]; top++; break;
        case SWAP: held = top[-1]; top[-1] = top[-2]; top[-2] = held; break;
        case DROP: top--; break;
        case SHOW: put_number(*--top); put('\n'); break;
        case JUMP_IF: at++; if (*--top) at += at[-1]; break;
        case ROT: held = top[-3]; top[-3] = top[-2]; top[-2] = top[-1]; top[-1] = held; break;
        case LESS: top--; top[-1] = top[-1] < *top; break;
        case HALT: return 0;
        default: put('?'); return 1;
        }
    }
}
