/* main.c: cilknow-node, the clearinghouse or workers of a job over UDP. */
#include "host.h"
#include <errno.h>
#include <signal.h>
#include <string.h>
#include <sys/mman.h>
#include <sys/prctl.h>
#include <sys/wait.h>
#include <unistd.h>

enum { MOST_WORKERS = 1024 };
static volatile pid_t workers[MOST_WORKERS];
static volatile sig_atomic_t ends;

/* Who is told to go tells the workers. */
static void end(int signal) {
    ends = 1;
    for (int i = 0; i < MOST_WORKERS; i++)
        if (workers[i] > 0) (void)kill(workers[i], signal == SIGINT ? SIGINT : SIGTERM);
}

/* Workers, each a process. The greatest status. */
static int run_workers(const struct words *words) {
    int status = 0;
    sigset_t both, before;
    /* (the first one shows what all have done) */
    struct progress *progress = mmap(NULL, words->bodies * sizeof *progress, PROT_READ | PROT_WRITE, MAP_SHARED | MAP_ANONYMOUS, -1, 0);
    if (progress == MAP_FAILED) return tell("memory for counts: %s", strerror(errno)), STATUS_NONE;
    sigemptyset(&both), sigaddset(&both, SIGTERM), sigaddset(&both, SIGINT);
    signal(SIGTERM, end), signal(SIGINT, end);
    uint64_t count = 0;
    for (; count < words->bodies && !ends; count++) {
        /* (a signal comes before this, or once its process is known) */
        sigprocmask(SIG_BLOCK, &both, &before);
        pid_t worker = fork();
        if (worker == 0) {
            struct words own = *words;
            own.faults.seed += count;
            (void)prctl(PR_SET_PDEATHSIG, SIGTERM);
            signal(SIGTERM, SIG_DFL), signal(SIGINT, SIG_DFL);
            sigprocmask(SIG_SETMASK, &before, NULL);
            return run_worker(&own, progress + count, count ? 0 : words->bodies);
        }
        workers[count] = worker;
        sigprocmask(SIG_SETMASK, &before, NULL);
        if (worker < 0) {
            tell("a process: %s", strerror(errno));
            status = STATUS_FILE;
            end(SIGTERM);
            break;
        }
    }
    for (;;) {
        int one;
        pid_t ended = wait(&one);
        if (ended < 0 && errno == EINTR) continue;
        if (ended < 0) return status;
        for (uint64_t i = 0; i < count; i++)
            if (workers[i] == ended) workers[i] = 0;
        int own = WIFEXITED(one) ? WEXITSTATUS(one) : ends ? STATUS_OK : STATUS_NONE;
        status = own > status ? own : status;
    }
}

int main(int count, char **given) {
    struct words words;
    int status = words_of(count, given, &words);
    if (status) return status < 0 ? STATUS_OK : status;
    if (words.house) return run_house(&words);
    static struct progress progress;
    return words.bodies > 1 ? run_workers(&words) : run_worker(&words, &progress, 1);
}
