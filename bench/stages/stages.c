/* A model of what a repair moves and sums, in one thread and in arrangements of several that live as long as the call. No answer
 * is right: it copies and sums as many bytes as a repair of 10 by 10 at window 100 and depth 400, and decides nothing.
 *
 *   gcc -O3 -march=x86-64-v2 -pthread -o stages stages.c
 *   stages ARRANGEMENT BATCH FLOWS OUT < trace
 *
 * ARRANGEMENT is one of
 *   one      all in one thread
 *   pw       one that reads and plays, and one that writes
 *   rp       one that reads, and one that plays and writes
 *   rpw      one that reads, one that plays, one that writes
 *   rppww    as rpw, with two that play, each every second flow, and a writer for each
 *   lent     as rpw, where the reader reads into the batch itself, so that a payload isn't copied into it
 * BATCH is the most records that are handed on at once.
 */
#define _GNU_SOURCE
#include <fcntl.h>
#include <linux/futex.h>
#include <pthread.h>
#include <stdatomic.h>
#include <stdint.h>
#include <stdio.h>
#include <stdlib.h>
#include <string.h>
#include <sys/syscall.h>
#include <time.h>
#include <unistd.h>

enum { BLOCK = 262144, MOST = 256, ROOM = 1 << 20, RING = 8, WINDOW = 100, DEPTH = 400, SHARES = 512, SHARE = 1408, HEADER = 12, SPIN = 200 };

/* ---- bounded rings ---- */
typedef struct {
    _Atomic unsigned head, tail;
    _Atomic int ended;
    void *slots[RING];
} Ring;

static void rest(_Atomic unsigned *word, unsigned seen) {
    struct timespec most = {0, 2000000};
    syscall(SYS_futex, word, FUTEX_WAIT_PRIVATE, seen, &most, 0, 0);
}
static void wake(_Atomic unsigned *word) { syscall(SYS_futex, word, FUTEX_WAKE_PRIVATE, 1, 0, 0, 0); }

static void push(Ring *ring, void *item) {
    unsigned head = atomic_load(&ring->head), tail;
    for (int turn = 0; head - (tail = atomic_load(&ring->tail)) == RING; turn++)
        if (turn > SPIN) rest(&ring->tail, tail);
    ring->slots[head % RING] = item;
    atomic_store(&ring->head, head + 1);
    wake(&ring->head);
}
static void *pop(Ring *ring) {
    unsigned tail = atomic_load(&ring->tail), head;
    for (int turn = 0; (head = atomic_load(&ring->head)) == tail; turn++) {
        if (atomic_load(&ring->ended) && atomic_load(&ring->head) == tail) return NULL;
        if (turn > SPIN) rest(&ring->head, head);
    }
    void *item = ring->slots[tail % RING];
    atomic_store(&ring->tail, tail + 1);
    wake(&ring->tail);
    return item;
}
static void end(Ring *ring) {
    atomic_store(&ring->ended, 1);
    wake(&ring->head);
}

/* ---- batches and pieces ---- */
typedef struct {
    int count;
    uint32_t at[MOST];
    uint16_t length[MOST], port[MOST];
    size_t filled;
    uint8_t bytes[ROOM];
} Batch;
typedef struct {
    size_t length;
    uint8_t bytes[WINDOW * 1316];
} Piece;

static int flows, out, most;
static Ring full[2], empty[2], pieces[2], spare[2];

/* ---- reading ---- */
static uint8_t block[2 * BLOCK + 70000];
static size_t have, gone;
static int at_end;

static int next(const uint8_t **payload, int *length, int *port) {
    for (;;) {
        size_t left = have - gone;
        const uint8_t *record = block + gone;
        if (left >= 12) {
            *length = record[10] << 8 | record[11];
            if (left >= 12 + (size_t)*length) {
                *payload = record + 12;
                *port = record[8] << 8 | record[9];
                gone += 12 + *length;
                return 1;
            }
        }
        if (at_end) return 0;
        memmove(block, record, left);
        have = left, gone = 0;
        ssize_t got = read(0, block + have, BLOCK);
        if (got <= 0) at_end = 1;
        else have += got;
    }
}

/* ---- playing ---- */
static uint8_t *shares[64], rows[64][SHARE], columns[64][10][SHARE];
static uint32_t come[64], played[64];

static void sum(uint8_t *into, const uint8_t *word) {
    for (int i = 0; i < 1328; i += 8) {
        uint64_t a, b;
        memcpy(&a, into + i, 8), memcpy(&b, word + i, 8);
        a ^= b;
        memcpy(into + i, &a, 8);
    }
}
static void put(Piece *piece) {
    for (size_t done = 0; done < piece->length;) {
        ssize_t wrote = write(out, piece->bytes + done, piece->length - done);
        if (wrote <= 0) exit(1);
        done += wrote;
    }
}
static Piece own;
static int writes_apart, players = 1;

static void play(const uint8_t *payload, int length, int port) {
    int flow = (port - 5000) / 10;
    if ((port - 5000) % 10) return;
    memcpy(shares[flow] + (size_t)(come[flow]++ % SHARES) * SHARE, payload, length);
    if (come[flow] - played[flow] < DEPTH + WINDOW) return;
    int to = players == 2 ? flow % 2 : 0;
    Piece *piece = writes_apart ? pop(&spare[to]) : &own;
    piece->length = 0;
    for (int i = 0; i < WINDOW; i++) {
        uint8_t *word = shares[flow] + (size_t)((played[flow] + i) % SHARES) * SHARE;
        sum(rows[flow], word), sum(columns[flow][i % 10], word);
        memcpy(piece->bytes + piece->length, word + HEADER, 1316);
        piece->length += 1316;
    }
    played[flow] += WINDOW;
    if (writes_apart) push(&pieces[to], piece);
    else put(piece);
}

/* ---- the threads ---- */
/* A batch goes on where it is full. (A live one goes on as soon as nothing waits for the player: a file is always behind.) */
static void *read_and_copy(void *none) {
    const uint8_t *payload;
    int length, port, to = 0;
    Batch *batch[2];
    for (int i = 0; i < players; i++) batch[i] = pop(&empty[i]), batch[i]->count = 0, batch[i]->filled = 0;
    while (next(&payload, &length, &port)) {
        to = players == 2 ? (port - 5000) / 10 % 2 : 0;
        Batch *into = batch[to];
        memcpy(into->bytes + into->filled, payload, length);
        into->at[into->count] = into->filled, into->length[into->count] = length, into->port[into->count++] = port;
        into->filled += length;
        if (into->count >= most || into->filled + 2048 > ROOM) {
            push(&full[to], into);
            batch[to] = pop(&empty[to]), batch[to]->count = 0, batch[to]->filled = 0;
        }
    }
    for (int i = 0; i < players; i++) push(&full[i], batch[i]), end(&full[i]);
    return none;
}
static void *read_in_place(void *none) {
    static uint8_t rest_of[70000];
    size_t left = 0;
    for (;;) {
        Batch *batch = pop(&empty[0]);
        memcpy(batch->bytes, rest_of, left);
        ssize_t got = read(0, batch->bytes + left, BLOCK);
        size_t held = left + (got > 0 ? got : 0), gone_here = 0;
        batch->count = 0;
        while (held - gone_here >= 12 && batch->count < MOST) {
            const uint8_t *record = batch->bytes + gone_here;
            size_t length = record[10] << 8 | record[11];
            if (held - gone_here < 12 + length) break;
            batch->at[batch->count] = gone_here + 12, batch->length[batch->count] = length;
            batch->port[batch->count++] = record[8] << 8 | record[9];
            gone_here += 12 + length;
        }
        left = held - gone_here;
        memcpy(rest_of, batch->bytes + gone_here, left);
        push(&full[0], batch);
        if (got <= 0) break;
    }
    end(&full[0]);
    return none;
}
static void *play_all(void *which) {
    int own_ring = (int)(intptr_t)which;
    for (Batch *batch; (batch = pop(&full[own_ring])); push(&empty[own_ring], batch))
        for (int i = 0; i < batch->count; i++) play(batch->bytes + batch->at[i], batch->length[i], batch->port[i]);
    return NULL;
}
static void *write_all(void *which) {
    int from = (int)(intptr_t)which;
    for (Piece *piece; (piece = pop(&pieces[from])); push(&spare[from], piece)) put(piece);
    return NULL;
}

int main(int count, char **words) {
    if (count != 5) return 2;
    const char *how = words[1];
    int lent = !strcmp(how, "lent"), reads_apart = how[0] == 'r' || lent;
    most = atoi(words[2]), flows = atoi(words[3]);
    out = open(words[4], O_WRONLY | O_CREAT | O_TRUNC, 0644);
    for (int i = 0; i < flows; i++) shares[i] = malloc(SHARES * SHARE);
    if (most > MOST || read(0, block, 8) != 8) return 1;
    players = !strcmp(how, "rppww") ? 2 : 1;
    writes_apart = strchr(how, 'w') != NULL || lent;
    pthread_t reader, writers[2], second;
    for (int p = 0; p < players; p++) {
        for (int i = 0; i < 6; i++) {
            push(&spare[p], malloc(sizeof(Piece)));
            if (reads_apart) push(&empty[p], malloc(sizeof(Batch)));
        }
        if (writes_apart) pthread_create(&writers[p], 0, write_all, (void *)(intptr_t)p);
    }
    if (reads_apart) {
        pthread_create(&reader, 0, lent ? read_in_place : read_and_copy, 0);
        if (players == 2) pthread_create(&second, 0, play_all, (void *)1);
        play_all(0);
        pthread_join(reader, 0);
        if (players == 2) pthread_join(second, 0);
    } else {
        const uint8_t *payload;
        int length, port;
        while (next(&payload, &length, &port)) play(payload, length, port);
    }
    for (int p = 0; p < players && writes_apart; p++) end(&pieces[p]), pthread_join(writers[p], 0);
    return 0;
}
