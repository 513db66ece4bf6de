/* How much stack the functions of the library use. Each is called on a stack of its own that was filled with one byte value before; what
 * differs afterwards was used. What the call itself takes here, some hundred bytes, is in the figures. They are of these inputs: the largest
 * settings, n 16, t 5 and k 128; every call of a run, with random messages in all slots, in call 3t + 7 that one of many graphs of which the
 * star uses most; decoding, by itself and in the last call, of pieces of which t are false in all stripes but the last, one in each set of slots that a
 * guess is made from, so that a stripe is interpolated with errors inside the search. No theorem bounds the stack. */
#define _XOPEN_SOURCE 700
#include <stdbool.h>
#include <stddef.h>
#include <stdint.h>
#include <stdio.h>
#include <string.h>
#include <ucontext.h>

#include "potekawhi.h"

#define N 16
#define T 5
#define K 128
#define CALLS (3 * T + 9)
#define RUN 513
#define BLOCK_LENGTH (K * (T + 1))
/* A slot's bytes in front of its message. */
#define FRONT 3
#define LONGEST_BOX (N * (FRONT + BLOCK_LENGTH))

/* ---- The stack ------------------------------------------------------------------------------------------------------------------ */

#define STACK_LENGTH 65536
#define UNUSED 0xa5

static uint8_t stack[STACK_LENGTH];
static ucontext_t caller;
static ucontext_t called;

/* The bytes of stack that a function uses. */
static size_t used(void (*function)(void)) {
    size_t unused = 0;
    memset(stack, UNUSED, sizeof stack);
    if (getcontext(&called) != 0) {
        return 0;
    }
    called.uc_stack.ss_sp = stack;
    called.uc_stack.ss_size = sizeof stack;
    called.uc_link = &caller;
    makecontext(&called, function, 0);
    if (swapcontext(&caller, &called) != 0) {
        return 0;
    }
    while (unused < sizeof stack && stack[unused] == UNUSED) {
        unused++;
    }
    return sizeof stack - unused;
}

/* ---- The calls ------------------------------------------------------------------------------------------------------------------ */

static uint8_t state[POTEKAWHI_STATE_LENGTH];
static uint8_t block[BLOCK_LENGTH];
static uint8_t inbox[LONGEST_BOX];
static uint8_t outbox[LONGEST_BOX];
static uint8_t piece[K];
static uint8_t rows[POTEKAWHI_ROWS_LENGTH];
static uint8_t pairs[POTEKAWHI_PAIRS_LENGTH];
static uint8_t sets[POTEKAWHI_SETS_LENGTH];
static uint16_t named;
static size_t call;
static uint8_t answer;

static void nothing(void) {
}

static void start(void) {
    answer = potekawhi_start(N, T, K, 1, 1, RUN, block, sizeof block, state, sizeof state);
}

static void step(void) {
    answer = potekawhi_step(state, sizeof state, block, sizeof block, inbox, potekawhi_inbox_length(N, T, K, call), outbox,
                            potekawhi_outbox_length(N, T, K, call));
}

static void encode(void) {
    answer = potekawhi_encode(N, T, K, N, block, sizeof block, piece, sizeof piece);
}

static void decode(void) {
    answer = potekawhi_decode(N, T, K, RUN, inbox, N * (FRONT + K), block, sizeof block, &named);
}

static void star(void) {
    answer = potekawhi_star(N, T, rows, sizeof rows, sets, sizeof sets);
}

static void missing_pairs(void) {
    answer = potekawhi_missing_pairs(N, rows, sizeof rows, pairs, sizeof pairs);
}

static void star_of_pairs(void) {
    answer = potekawhi_star_of_pairs(N, T, pairs, sizeof pairs, sets, sizeof sets);
}

/* ---- What they are given -------------------------------------------------------------------------------------------------------- */

static uint8_t random_byte(void) {
    static uint32_t x = 1;
    x = x * 1664525u + 1013904223u;
    return (uint8_t)(x >> 24);
}

/* Makes a slot present: 01 and the run number. */
static void fill_front(uint8_t *slot) {
    slot[0] = 1;
    slot[1] = RUN % 256;
    slot[2] = RUN / 256;
}

/* Slots of random messages, all present. */
static void fill_inbox(size_t message_length) {
    size_t width = FRONT + message_length;
    for (size_t b = 0; b < sizeof inbox; b++) {
        inbox[b] = random_byte();
    }
    for (size_t j = 0; j < N; j++) {
        fill_front(inbox + j * width);
    }
}

/* Whether the piece of controller j is false, for T of them: 1, 4, 7 and so on. */
static int is_false(size_t j) { return j % 3 == 1 && j <= 3 * T; }

/* Their marks. */
static unsigned false_marks(void) {
    unsigned marks = 0;
    for (size_t j = 1; j <= N; j++) {
        marks |= (unsigned)is_false(j) << (j - 1);
    }
    return marks;
}

/* Slots of the block's pieces, of which T are false in every byte but the last. */
static void fill_pieces(void) {
    for (size_t j = 1; j <= N; j++) {
        uint8_t *slot = inbox + (j - 1) * (FRONT + K);
        fill_front(slot);
        potekawhi_encode(N, T, K, j, block, sizeof block, slot + FRONT, K);
        for (size_t s = 0; s < K - 1 && is_false(j); s++) {
            slot[FRONT + s] ^= 0xff;
        }
    }
}

#define GRAPHS 20000

/* Marks of which each is set with a chance of `of_256` in 256. */
static void fill_rows(unsigned of_256) {
    memset(rows, 0, sizeof rows);
    for (size_t bit = 0; bit < 8 * sizeof rows; bit++) {
        if (random_byte() < of_256) {
            rows[bit / 8] |= (uint8_t)(1u << bit % 8);
        }
    }
}

/* Of graphs of all densities the star's use of stack where it is largest; `rows` is that graph. */
static size_t most_for_star(void) {
    static uint8_t of_most[POTEKAWHI_ROWS_LENGTH];
    size_t most = 0;
    for (unsigned graph = 0; graph < GRAPHS; graph++) {
        size_t bytes;
        fill_rows(graph % 257);
        bytes = used(star);
        if (bytes > most) {
            most = bytes;
            memcpy(of_most, rows, sizeof rows);
        }
    }
    memcpy(rows, of_most, sizeof rows);
    return most;
}

/* The state before a call: every buffer of its length is one. The next call stands at 40, the matrix at 49, the core at 113, whom the controller
 * names at 115, the run number at 117. */
static void make_state(size_t c) {
    start();
    state[40] = (uint8_t)c;
    memcpy(state + 49, rows, sizeof rows);
    state[113] = 0xfe;
    state[114] = 0xff;
}

static bool report(const char *name, size_t bytes) {
    printf("%-24s %6zu\n", name, bytes);
    return bytes > 0 && bytes < STACK_LENGTH;
}

int main(void) {
    size_t most = 0;
    bool right = true;
    char name[32];
    printf("function                  bytes\n");
    right = report("nothing", used(nothing)) && right;
    right = report("potekawhi_star", most_for_star()) && right && answer == POTEKAWHI_OK;
    right = report("potekawhi_missing_pairs", used(missing_pairs)) && right && answer == POTEKAWHI_OK;
    right = report("potekawhi_star_of_pairs", used(star_of_pairs)) && right && answer == POTEKAWHI_OK;
    right = report("potekawhi_start", used(start)) && right && answer == POTEKAWHI_OK;
    for (call = 1; call <= CALLS; call++) {
        size_t bytes;
        make_state(call);
        fill_inbox(potekawhi_message_length(N, T, K, call - 1));
        if (call == CALLS) {
            fill_pieces();
        }
        bytes = used(step);
        right = right && answer == POTEKAWHI_OK;
        if (bytes > most || call == 3 * T + 7 || call == CALLS) {
            most = bytes > most ? bytes : most;
            snprintf(name, sizeof name, "step, call %zu", call);
            right = report(name, bytes) && right;
        }
    }
    right = right && potekawhi_named(state, sizeof state) == false_marks();
    right = report("potekawhi_encode", used(encode)) && right && answer == POTEKAWHI_OK;
    fill_pieces();
    right = report("potekawhi_decode", used(decode)) && right && answer == POTEKAWHI_OK && named == false_marks();
    return right ? 0 : 1;
}
