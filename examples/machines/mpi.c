/* mpi.c: a clearinghouse (rank 0) and nodes (the other ranks) over MPI, for whoever has it. MPI ends all where one of them is
 * lost, so this serves where nobody is; then it has the shortest way.
 *   mpicc -O2 -I../../machines -o mpi mpi.c -L../../out/machines -lcilknow
 *   mpirun -np 5 ./mpi FILE STORE INPUT..           STORE: the clearinghouse's file, on rank 0's machine
 * A start word is 47 bits by chance and the rank, which is also where the word's packets go. */
#include <cilknow.h>
#include <fcntl.h>
#include <mpi.h>
#include <stdio.h>
#include <stdlib.h>
#include <string.h>
#include <sys/file.h>
#include <sys/random.h>
#include <time.h>
#include <unistd.h>

enum { PACKET = 1, OVER = 2, MOST_TEXT = 65537 };

static uint64_t micros(void) {
    struct timespec now;
    clock_gettime(CLOCK_MONOTONIC, &now);
    return (uint64_t)now.tv_sec * 1000000 + (uint64_t)now.tv_nsec / 1000;
}

/* Sends that aren't done yet: MPI wants their buffers kept. */
static struct { MPI_Request request; uint8_t *bytes; } out[4096];
static size_t outs;

static void reap(void) {
    for (size_t i = 0; i < outs;) {
        int done;
        MPI_Test(&out[i].request, &done, MPI_STATUS_IGNORE);
        if (done) free(out[i].bytes), out[i] = out[--outs];
        else i++;
    }
}

/* What is to be done to the file is done, and then what waits is sent. What can't be is lost, and sent again. */
static int sends(cilknow_actor *actor, int file, int ranks) {
    static uint8_t bytes[CILKNOW_LONGEST], call[CILKNOW_FILE_LONGEST];
    int64_t len;
    while (file >= 0 && (len = cilknow_file_call(actor, call, sizeof call)) > 0) {
        uint64_t number = cilknow_file_number(call);
        int done = call[0] == 1 ? pwrite(file, call + 9, (size_t)len - 9, (off_t)number) == len - 9 : call[0] == 2 ? !ftruncate(file, (off_t)number) : !fsync(file);
        if (!done) return perror("the store"), 0;
    }
    while ((len = cilknow_packet(actor, bytes, sizeof bytes)) > 0) {
        uint64_t to = cilknow_address(bytes);
        int rank = cilknow_to_house(to) ? 0 : (int)(to & 0xffff);
        if (outs == sizeof out / sizeof out[0]) reap();
        if (rank >= ranks || outs == sizeof out / sizeof out[0] || !(out[outs].bytes = malloc((size_t)len))) continue;
        memcpy(out[outs].bytes, bytes, (size_t)len);
        MPI_Isend(out[outs].bytes, (int)len, MPI_BYTE, rank, PACKET, MPI_COMM_WORLD, &out[outs].request);
        outs++;
    }
    return 1;
}

/* A node's next step: work, a request, or what waits sent again. Whether it did something. */
static int acts(cilknow_actor *node, uint64_t word, uint64_t now, int ranks) {
    static uint64_t sent_at, ask_at, pause;
    if (cilknow_work(node) > 0) return pause = ask_at = 0, sends(node, -1, ranks);
    if (now - sent_at > 50000) return sent_at = now, cilknow_resend(node), sends(node, -1, ranks);
    if (cilknow_state(node) != CILKNOW_MEMBER || cilknow_asked(node) == 1 || now < ask_at) return 0;
    uint64_t members = (uint64_t)cilknow_members(node), victim = members && rand() % 8 ? cilknow_member(node, (uint64_t)rand() % members) : 0;
    if (victim == word || cilknow_ask(node, victim)) return 0;
    pause = pause ? pause * 2 < 2000 ? pause * 2 : 2000 : 10, ask_at = now + pause;
    return sends(node, -1, ranks);
}

int main(int count, char **given) {
    MPI_Init(&count, &given);
    int rank, ranks, file = -1, over = 0;
    MPI_Comm_rank(MPI_COMM_WORLD, &rank);
    MPI_Comm_size(MPI_COMM_WORLD, &ranks);
    static uint8_t text[MOST_TEXT], content[8192], got[CILKNOW_LONGEST];
    int64_t input[8], value = 0, kind = 0;
    FILE *program = count > 2 && count < 12 ? fopen(given[1], "rb") : NULL;
    if (!program) return fprintf(stderr, "usage: mpi FILE STORE INPUT..\n"), MPI_Abort(MPI_COMM_WORLD, 2);
    size_t text_len = fread(text, 1, sizeof text, program), inputs = (size_t)count - 3, content_len = 0;
    fclose(program);
    for (size_t i = 0; i < inputs; i++) input[i] = strtoll(given[3 + i], NULL, 10);
    cilknow_actor *actor;
    uint64_t word = 0;
    int32_t error;
    if (rank == 0) {
        file = open(given[2], O_RDWR | O_CREAT, 0666);
        if (file < 0 || flock(file, LOCK_EX | LOCK_NB)) return perror(given[2]), MPI_Abort(MPI_COMM_WORLD, 4);
        content_len = (size_t)pread(file, content, sizeof content, 0);
        error = cilknow_house(text, text_len, input, inputs, 1, content, content_len, &actor);
    } else {
        if (getrandom(&word, 8, 0) != 8) return MPI_Abort(MPI_COMM_WORLD, 3);
        word = (word >> 1 & ~(uint64_t)0xffff) | (uint64_t)rank, srand((unsigned)(word >> 16));
        error = cilknow_node(text, text_len, input, inputs, 1, word, 100000, &actor);
    }
    if (error) return fprintf(stderr, "E%d\n", -error), MPI_Abort(MPI_COMM_WORLD, 3);
    over = !sends(actor, file, ranks);
    uint64_t begun = micros(), ticked = begun;
    while (!over) {
        int there = 0, did = 0, len;
        MPI_Status status;
        MPI_Iprobe(MPI_ANY_SOURCE, MPI_ANY_TAG, MPI_COMM_WORLD, &there, &status);
        if (there) {
            MPI_Get_count(&status, MPI_BYTE, &len);
            MPI_Recv(got, len, MPI_BYTE, status.MPI_SOURCE, status.MPI_TAG, MPI_COMM_WORLD, MPI_STATUS_IGNORE);
            if (status.MPI_TAG == OVER) over = 1;
            else if (cilknow_take(actor, got, (size_t)len), !sends(actor, file, ranks)) MPI_Abort(MPI_COMM_WORLD, 3);
            did = 1;
        }
        uint64_t now = micros();
        if (rank == 0) {
            /* (a moment is 4 ms: a node that is silent for 2 s is taken for dead) */
            if (now - ticked > 20000 && (ticked = now, cilknow_tick(actor, (now - begun) / 4000), !sends(actor, file, ranks))) MPI_Abort(MPI_COMM_WORLD, 3);
            if ((kind = cilknow_outcome(actor, &value)) != 0) {
                over = 1;
                for (int i = 1; i < ranks; i++) MPI_Send("", 0, MPI_BYTE, i, OVER, MPI_COMM_WORLD);
            }
        } else if (!over) did |= acts(actor, word, now, ranks);
        if (!did) usleep(20);
        reap();
    }
    if (kind == 1) printf("value %lld\n", (long long)value);
    else if (kind == 2) printf("too deep\n");
    else if (kind) printf("E%lld\n", (long long)-kind);
    fflush(stdout);
    /* (packets may still be on their way: who is done takes no more of them, but MPI wants them received) */
    MPI_Request all;
    MPI_Ibarrier(MPI_COMM_WORLD, &all);
    for (int done = 0; !done;) {
        int there, len;
        MPI_Status status;
        MPI_Iprobe(MPI_ANY_SOURCE, MPI_ANY_TAG, MPI_COMM_WORLD, &there, &status);
        if (there) MPI_Get_count(&status, MPI_BYTE, &len), MPI_Recv(got, len, MPI_BYTE, status.MPI_SOURCE, status.MPI_TAG, MPI_COMM_WORLD, MPI_STATUS_IGNORE);
        MPI_Test(&all, &done, MPI_STATUS_IGNORE);
        reap();
    }
    cilknow_end(actor);
    MPI_Finalize();
    return kind > 0 || rank ? 0 : 3;
}
