/* Four controllers in one process, of which controller 1 is two-faced: a faulty controller that shows different faces to different
 * controllers, in every round. Each face is a copy of the library with a block of its own, so that all that it sends is well formed and
 * agrees with all else that the same face sends. Seven runs, one after the other, each with its number here as run number:
 *   1. The two-faced controller is the sender and shows 2 and 3 one block and 4 another. They agree on the block that 2 and 3 received.
 *   2. It is the sender and shows each of 2, 3 and 4 another block. They agree that there is none, and end with zeros.
 *   3. The sender is 2, which is correct; 1 says to 4 that it received another block. All end with the sender's block.
 *   4. There is no sender; 2, 3 and 4 start with one block, and 1 says to 4 that it started with another. All end with that one block.
 *   5. There is no sender, and each of 2, 3 and 4 starts with another block. They agree that there is none, and end with zeros; that accuses
 *      nobody.
 *   6. The sender is 2, which is correct; 1 shows all one face, as a correct one does, and nobody is named.
 *   7. The same, but nothing arrives from 1 in time: all its messages of run 6 come late, with that run's number. So they are read as absent, and 1 is
 *      named; with the number of this run they would have counted.
 * It prints what each correct controller received in round 1, or started with, what it ended with, and whom it names: those whose piece in the
 * last round was absent or false. The exit code is 0 if in every run all correct controllers have one outcome and one block (in runs 3, 6
 * and 7 the sender's, in run 4 the one that all started with) and none names a correct one, nor anybody in run 6, and all name 1 in run 7, and
 * otherwise 1.
 *
 * What a board needs is the first part, 'One controller': its buffers, its start, its calls. The rest takes the place of the bus and of the
 * faulty board. Nothing is allocated. */
#include <stdbool.h>
#include <stddef.h>
#include <stdint.h>
#include <stdio.h>
#include <string.h>

#include "potekawhi.h"

/* ---- One controller ------------------------------------------------------------------------------------------------------------- */

/* The settings, which are the same in all controllers of a system. */
#define N 4
#define T 1
#define K 4

/* The sizes of the buffers for these settings. The longest message is that of round 1 or, where the block is short, that of a round
 * 3p + 2, which has 4n bytes. A slot has three bytes in front of it: 01 or 00, and the run number. Buffers for all settings are those of n 16,
 * t 5 and k 128: a block of 768 bytes and boxes of 12336. */
#define BLOCK_LENGTH (K * (T + 1))
#define LONGEST_MESSAGE (BLOCK_LENGTH > 4 * N ? BLOCK_LENGTH : 4 * N)
#define FRONT 3
#define LONGEST_SLOT (FRONT + LONGEST_MESSAGE)
#define LONGEST_BOX (N * LONGEST_SLOT)

/* All that a controller keeps during a run. Between two calls the bus driver sends the outbox and fills the inbox; nobody but the library
 * writes the state and the block. */
struct controller {
    size_t own;
    uint8_t state[POTEKAWHI_STATE_LENGTH];
    uint8_t block[BLOCK_LENGTH];
    uint8_t inbox[LONGEST_BOX];
    uint8_t outbox[LONGEST_BOX];
};

/* The board's own number is set before, and never changes. All boards start a run with one run number, and the next run with another. The sender has
 * put its block in `block`; the others leave there what they like. Without a sender, sender 0, each has put the block there that it believes in.
 * Answers 0, or the number of the refusal. */
static uint8_t start(struct controller *a, size_t sender, uint16_t run_number) {
    return potekawhi_start(N, T, K, a->own, sender, run_number, a->block, sizeof a->block, a->state, sizeof a->state);
}

/* Call c: reads the inbox, which holds the messages of round c - 1, and writes the outbox, which holds those of round c. Answers 0, or the
 * number of the refusal: 7 also if the state does not stand before call c, and 6 also if the buffers are too short. Refused, nothing was
 * written, and nothing is to be sent. */
static uint8_t make_call(struct controller *a, size_t c) {
    size_t inbox_length = potekawhi_inbox_length(N, T, K, c);
    size_t outbox_length = potekawhi_outbox_length(N, T, K, c);
    if (potekawhi_next_call(a->state, sizeof a->state) != c) {
        return POTEKAWHI_BAD_STATE;
    }
    if (inbox_length > sizeof a->inbox || outbox_length > sizeof a->outbox) {
        return POTEKAWHI_BAD_LENGTH;
    }
    return potekawhi_step(a->state, sizeof a->state, a->block, sizeof a->block, a->inbox, inbox_length, a->outbox, outbox_length);
}

/* ---- The bus -------------------------------------------------------------------------------------------------------------------- */

/* Before the messages of round c come in: all slots are absent. One into which nothing is copied in time stays so. */
static void clear_inbox(struct controller *to, size_t c) {
    memset(to->inbox, 0, potekawhi_inbox_length(N, T, K, c + 1));
}

/* One message of round c, also where it is absent: slot j of i's outbox to slot i of j's inbox. A controller's message to itself takes the
 * same way. */
static void copy_slot(const struct controller *from, struct controller *to, size_t c) {
    size_t width = FRONT + potekawhi_message_length(N, T, K, c);
    memcpy(to->inbox + (from->own - 1) * width, from->outbox + (to->own - 1) * width, width);
}

/* ---- The two-faced controller --------------------------------------------------------------------------------------------------- */

#define TWO_FACED 1
#define FACES 3

/* The block of each face. As sender, or without a sender, it was started with it; otherwise it says that it received it from the sender. The
 * sender of runs 3, 6 and 7 is correct and has the block of face 0. The codings of no two of them have a piece in common. */
static const uint8_t BLOCKS[FACES][BLOCK_LENGTH] = {
    {0xa1, 0xa2, 0xa3, 0xa4, 0xa5, 0xa6, 0xa7, 0xa8},
    {0xb8, 0xb7, 0xb6, 0xb5, 0xb4, 0xb3, 0xb2, 0xb1},
    {0xc1, 0xc3, 0xc5, 0xc7, 0xc9, 0xcb, 0xcd, 0xcf},
};

#define NO_SENDER 0

/* What controller 1 does in a run: it shows faces; it shows one face, as a correct one does; or its messages of the run before come late. */
enum conduct { SHOWS_FACES, AS_CORRECT, LATE };

/* A run: its number, what controller 1 does, who sends, which face 1 shows to controllers 2, 3 and 4, whose block each of these starts with if there
 * is no sender, and whether all of them must end with the block of face 0. */
struct run {
    uint16_t number;
    const char *title;
    enum conduct conduct;
    size_t sender;
    size_t shown[N + 1];
    size_t held[N + 1];
    bool first_block;
};

static const struct run RUNS[] = {
    {1, "sender 1 is two-faced and shows 2 and 3 one block and 4 another", SHOWS_FACES, TWO_FACED, {0, 0, 0, 0, 1}, {0}, false},
    {2, "sender 1 is two-faced and shows each of the others another block", SHOWS_FACES, TWO_FACED, {0, 0, 0, 1, 2}, {0}, false},
    {3, "sender 2 is correct; 1 is two-faced and says to 4 that it received another block", SHOWS_FACES, 2, {0, 0, 0, 0, 1}, {0}, true},
    {4, "no sender; 2, 3 and 4 start with one block; 1 is two-faced and shows 4 another", SHOWS_FACES, NO_SENDER, {0, 0, 0, 0, 1}, {0}, true},
    {5, "no sender; 2, 3 and 4 start with a block each; 1 is two-faced and shows each its own", SHOWS_FACES, NO_SENDER, {0, 0, 0, 1, 2},
     {0, 0, 0, 1, 2}, false},
    {6, "sender 2 is correct; 1 shows all one face", AS_CORRECT, 2, {0}, {0}, true},
    {7, "sender 2 is correct; from 1 come its messages of run 6, late", LATE, 2, {0}, {0}, true},
};

/* The faces of controller 1, and the correct controllers 2 to N, at their numbers. */
static struct controller faces[FACES];
static struct controller correct[N + 1];

/* Whether call c, or the start where c is 0, was carried out. */
static bool carried_out(const struct controller *a, size_t c, uint8_t refusal) {
    if (refusal != POTEKAWHI_OK) {
        fprintf(stderr, "controller %zu: call %zu was refused with %u (call 0 is the start)\n", a->own, c, (unsigned)refusal);
    }
    return refusal == POTEKAWHI_OK;
}

static bool start_all(const struct run *run) {
    bool all = true;
    memset(faces, 0, sizeof faces);
    memset(correct, 0, sizeof correct);
    for (size_t f = 0; f < FACES; f++) {
        faces[f].own = TWO_FACED;
        memcpy(faces[f].block, BLOCKS[f], BLOCK_LENGTH);
        all = carried_out(&faces[f], 0, start(&faces[f], run->sender, run->number)) && all;
    }
    for (size_t i = 2; i <= N; i++) {
        correct[i].own = i;
        if (i == run->sender) {
            memcpy(correct[i].block, BLOCKS[0], BLOCK_LENGTH);
        }
        if (run->sender == NO_SENDER) {
            memcpy(correct[i].block, BLOCKS[run->held[i]], BLOCK_LENGTH);
        }
        all = carried_out(&correct[i], 0, start(&correct[i], run->sender, run->number)) && all;
    }
    return all;
}

static bool call_all(size_t c) {
    bool all = true;
    for (size_t f = 0; f < FACES; f++) {
        all = carried_out(&faces[f], c, make_call(&faces[f], c)) && all;
    }
    for (size_t i = 2; i <= N; i++) {
        all = carried_out(&correct[i], c, make_call(&correct[i], c)) && all;
    }
    return all;
}

/* The slots from controller 1 to each of the others, of each round of the run before, with that run's number. */
#define ROUNDS (3 * T + 8)
static uint8_t before[ROUNDS + 1][N + 1][LONGEST_SLOT];

/* Round c: keeps the slot from controller 1 to j, the first of the inbox, for the next run; where its messages come late, puts there the slot of
 * the run before. */
static void keep_or_repeat(const struct run *run, size_t c, size_t j) {
    size_t width = FRONT + potekawhi_message_length(N, T, K, c);
    if (run->conduct == LATE) {
        memcpy(correct[j].inbox, before[c][j], width);
    } else {
        memcpy(before[c][j], correct[j].inbox, width);
    }
}

/* Round c: each correct controller gets the messages of the face that is shown to it, or late ones, and those of all correct controllers. Each face
 * gets its own message to itself, and what the correct controllers sent to controller 1. */
static void deliver(const struct run *run, size_t c) {
    for (size_t j = 2; j <= N; j++) {
        clear_inbox(&correct[j], c);
        copy_slot(&faces[run->shown[j]], &correct[j], c);
        keep_or_repeat(run, c, j);
        for (size_t i = 2; i <= N; i++) {
            copy_slot(&correct[i], &correct[j], c);
        }
    }
    for (size_t f = 0; f < FACES; f++) {
        clear_inbox(&faces[f], c);
        copy_slot(&faces[f], &faces[f], c);
        for (size_t i = 2; i <= N; i++) {
            copy_slot(&correct[i], &faces[f], c);
        }
        if (c == 1 && run->sender != TWO_FACED && run->sender != NO_SENDER) {
            /* the block that this face says it received, in place of the one that the sender sent */
            memcpy(faces[f].inbox + (run->sender - 1) * (FRONT + BLOCK_LENGTH) + FRONT, BLOCKS[f], BLOCK_LENGTH);
        }
    }
}

/* ---- What is printed and compared ----------------------------------------------------------------------------------------------- */

static const char *outcome_name(uint8_t outcome) {
    switch (outcome) {
    case POTEKAWHI_OUTCOME_OPEN:
        return "open";
    case POTEKAWHI_OUTCOME_AGREED:
        return "agreed";
    case POTEKAWHI_OUTCOME_NONE:
        return "none";
    case POTEKAWHI_OUTCOME_BEYOND:
        return "beyond";
    default:
        return "refused";
    }
}

static void print_bytes(const uint8_t *bytes, size_t length) {
    for (size_t b = 0; b < length; b++) {
        printf("%02x", (unsigned)bytes[b]);
    }
}

/* The numbers of the controllers in a set. */
static void print_marks(uint16_t marks) {
    const char *before = "";
    if (marks == 0) {
        printf("nobody");
    }
    for (size_t i = 1; i <= 16; i++) {
        if (((unsigned)marks >> (i - 1)) % 2 == 1) {
            printf("%s%zu", before, i);
            before = ", ";
        }
    }
}

/* What i received from the sender: read after round 1, before call 2. Here every sender sends; elsewhere the slot may be absent. Without a sender
 * it is the block that i started with, which call 2 keeps. */
static bool keep_received(size_t i, const struct run *run, uint8_t received[BLOCK_LENGTH]) {
    size_t offset = 0;
    if (run->sender == NO_SENDER) {
        memcpy(received, correct[i].block, BLOCK_LENGTH);
        return true;
    }
    size_t message_length = potekawhi_message_length(N, T, K, 1);
    size_t inbox_length = potekawhi_inbox_length(N, T, K, 2);
    if (potekawhi_message(correct[i].inbox, inbox_length, run->number, message_length, run->sender, &offset) != BLOCK_LENGTH) {
        fprintf(stderr, "controller %zu received nothing from the sender\n", i);
        return false;
    }
    memcpy(received, correct[i].inbox + offset, BLOCK_LENGTH);
    return true;
}

/* One run to its end; whether all correct controllers have one outcome and one block, that of face 0 where it must be, and name nobody but
 * controller 1; where it shows one face nobody, and where its messages come late it. */
static bool play(const struct run *run) {
    static uint8_t received[N + 1][BLOCK_LENGTH];
    static uint8_t final_block[N + 1][BLOCK_LENGTH];
    uint8_t outcome[N + 1];
    size_t calls = potekawhi_calls(T);

    if (calls == 0 || potekawhi_block_length(N, T, K) != BLOCK_LENGTH) {
        fprintf(stderr, "the settings are refused\n");
        return false;
    }
    if (!start_all(run)) {
        return false;
    }
    for (size_t c = 1; c <= calls; c++) {
        if (!call_all(c)) {
            return false;
        }
        if (c < calls) { /* the last call sends nothing */
            deliver(run, c);
        }
        for (size_t i = 2; c == 1 && i <= N; i++) {
            if (!keep_received(i, run, received[i])) {
                return false;
            }
        }
    }

    printf("run %u: %s\n", (unsigned)run->number, run->title);
    bool all_right = true;
    for (size_t i = 2; i <= N; i++) {
        outcome[i] = potekawhi_final_block(correct[i].state, sizeof correct[i].state, correct[i].block, sizeof correct[i].block,
                                           final_block[i], sizeof final_block[i]);
        printf("  controller %zu %s ", i, run->sender == NO_SENDER ? "started with" : "received");
        print_bytes(received[i], BLOCK_LENGTH);
        printf(" and ended with %s ", outcome_name(outcome[i]));
        print_bytes(final_block[i], BLOCK_LENGTH);
        uint16_t named = potekawhi_named(correct[i].state, sizeof correct[i].state);
        printf("; it names ");
        print_marks(named);
        printf("\n");

        bool at_end = outcome[i] == POTEKAWHI_OUTCOME_AGREED || outcome[i] == POTEKAWHI_OUTCOME_NONE;
        bool as_first = outcome[i] == outcome[2] && memcmp(final_block[i], final_block[2], BLOCK_LENGTH) == 0;
        bool as_due = outcome[i] == POTEKAWHI_OUTCOME_AGREED && memcmp(final_block[i], BLOCKS[0], BLOCK_LENGTH) == 0;
        bool nobody = named == 0, only_first = named == 1u << (TWO_FACED - 1);
        bool named_right = (nobody && run->conduct != LATE) || (only_first && run->conduct != AS_CORRECT);
        all_right = all_right && at_end && as_first && (!run->first_block || as_due) && named_right;
    }
    return all_right;
}

int main(void) {
    bool all_right = true;
    for (size_t r = 0; r < sizeof RUNS / sizeof RUNS[0]; r++) {
        all_right = play(&RUNS[r]) && all_right;
    }
    puts(all_right ? "all correct controllers agree in every run and name no correct one"
                   : "in some run the correct controllers do not agree, or name others than they must");
    return all_right ? 0 : 1;
}
