/* words.c: what the command line asks for. */
#include "host.h"
#include <errno.h>
#include <getopt.h>
#include <stdlib.h>
#include <string.h>

static const char usage[] =
    "usage: cilknow-node house FILE [INPUT..] --store PATH --listen ADDR:PORT --key FILE\n"
    "                    [--job N] [--silence S] [--linger S] [--trace FOLDER] [--stats]\n"
    "       cilknow-node worker --join ADDR:PORT --key FILE [--bodies B] [--grain T]\n"
    "                    [--grace S] [--patience S] [--trace FOLDER] [--stats]\n"
    "\n"
    "One `house` keeps a job's outcome in the file PATH; any number of `worker`s, on any machines, compute it. They may\n"
    "start before it or after it, and end whenever they have to. docs/MACHINES.md tells more.\n"
    "\n"
    "  --key FILE      16 to 65,536 bytes that nobody else knows; the same for all of them\n"
    "  --job N         the job's number, 1 where it is left out\n"
    "  --silence S     a worker that is silent for S seconds is taken for dead (2)\n"
    "  --linger S      how long the house tells workers that the job is over (2)\n"
    "  --bodies B      so many workers, each a process (1)\n"
    "  --grain T       a task may be evaluated whole in at most T turns at once (100000)\n"
    "  --grace S       told to go by SIGTERM, a worker hands its work on in at most S seconds (30)\n"
    "  --patience S    a worker ends that has heard nothing for S seconds (0: it waits for ever)\n"
    "  --trace FOLDER  each actor writes what it did to a file there\n"
    "  --stats         counts, on standard error, at the end\n"
    "On a terminal each tells how far it has come, once it has taken two seconds.\n"
    "For tests, of datagrams that are sent: --lose N, --repeat N, --late N (one in N), --seed N; and --deaf A-B: none comes\n"
    "or goes from so many seconds after the start to so many\n";

static int misused(const char *why, const char *word) {
    tell("usage: %s%s%s", why, word ? ": " : "", word ? word : "");
    return STATUS_USAGE;
}

static bool number_of(const char *word, uint64_t most, uint64_t *number) {
    char *end;
    errno = 0;
    if (*word < '0' || *word > '9') return false;
    *number = strtoull(word, &end, 10);
    return !*end && !errno && *number <= most;
}

/* Seconds, with parts, as thousandths. */
static bool seconds_of(const char *word, uint64_t *ms) {
    char *end;
    if ((*word < '0' || *word > '9') && *word != '.') return false;
    double seconds = strtod(word, &end);
    if (*end || !(seconds >= 0 && seconds <= 1e6)) return false;
    *ms = (uint64_t)(seconds * 1000 + 0.5);
    return true;
}

/* Two of them, A-B. */
static bool span_of(const char *word, struct faults *faults) {
    char first[32];
    const char *dash = strchr(word, '-');
    size_t len = dash ? (size_t)(dash - word) : sizeof first;
    if (len >= sizeof first) return false;
    memcpy(first, word, len);
    first[len] = 0;
    return seconds_of(first, &faults->deaf_from) && seconds_of(dash + 1, &faults->deaf_to);
}

enum which { STORE = 256, LISTEN, JOIN, KEY_FILE, JOB, SILENCE, LINGER, BODIES, GRAIN, GRACE, PATIENCE, TRACE, STATS, LOSE, REPEAT, LATE, SEED, DEAF, HELP };
static const struct option options[] = {
    {"store", 1, 0, STORE}, {"listen", 1, 0, LISTEN}, {"join", 1, 0, JOIN}, {"key", 1, 0, KEY_FILE}, {"job", 1, 0, JOB},
    {"silence", 1, 0, SILENCE}, {"linger", 1, 0, LINGER}, {"bodies", 1, 0, BODIES}, {"grain", 1, 0, GRAIN}, {"grace", 1, 0, GRACE},
    {"patience", 1, 0, PATIENCE}, {"trace", 1, 0, TRACE}, {"stats", 0, 0, STATS}, {"lose", 1, 0, LOSE}, {"repeat", 1, 0, REPEAT},
    {"late", 1, 0, LATE}, {"seed", 1, 0, SEED}, {"deaf", 1, 0, DEAF}, {"help", 0, 0, HELP}, {0, 0, 0, 0}};

/* An option that only the other kind of actor has. */
static bool is_others(enum which option, bool house) {
    switch (option) {
    case STORE: case LISTEN: case JOB: case SILENCE: case LINGER: return !house;
    case JOIN: case BODIES: case GRAIN: case GRACE: case PATIENCE: return house;
    default: return false;
    }
}

int words_of(int count, char **given, struct words *words) {
    *words = (struct words){.job = 1, .grain = 100000, .bodies = 1, .silence_ms = 2000, .grace_ms = 30000, .linger_ms = 2000, .faults.seed = 1};
    if (count < 2) return fputs(usage, stderr), STATUS_USAGE;
    if (!strcmp(given[1], "--help") || !strcmp(given[1], "help")) return fputs(usage, stdout), -1;
    words->house = !strcmp(given[1], "house");
    if (!words->house && strcmp(given[1], "worker")) return misused("neither `house` nor `worker`", given[1]);
    const char *address = NULL;
    bool fits = true;
    opterr = 0, optind = 2;
    for (bool only_words = false; optind < count;) {
        const char *word = given[optind];
        if (!only_words && !strcmp(word, "--")) {
            only_words = true, optind++;
            continue;
        }
        /* (a number below 0 is an input: what begins with `-` and a digit isn't an option) */
        if (only_words || word[0] != '-' || (word[1] >= '0' && word[1] <= '9')) {
            optind++;
            if (!words->house) return misused("a worker takes no FILE and no INPUT", word);
            if (!words->file) {
                words->file = word;
                continue;
            }
            if (words->inputs == 64) return misused("more than 64 inputs", NULL);
            char *end;
            errno = 0;
            words->input[words->inputs++] = strtoll(word, &end, 10);
            if (!*word || *end || errno) return misused("no number", word);
            continue;
        }
        int option = getopt_long(count, given, "+", options, NULL);
        if (option == HELP) return fputs(usage, stdout), -1;
        if (option == '?') return misused("no such option, or one without what it takes", given[optind - 1]);
        if (is_others((enum which)option, words->house)) return misused(words->house ? "not for a house" : "not for a worker", given[optind - 1]);
        switch (option) {
        case STORE: words->store = optarg; break;
        case LISTEN: case JOIN: address = optarg; break;
        case KEY_FILE: words->key = optarg; break;
        case TRACE: words->trace = optarg; break;
        case STATS: words->stats = true; break;
        case JOB: fits = number_of(optarg, UINT64_MAX, &words->job); break;
        case BODIES: fits = number_of(optarg, 1024, &words->bodies) && words->bodies; break;
        case GRAIN: fits = number_of(optarg, 1000000000, &words->grain); break;
        case SILENCE: fits = seconds_of(optarg, &words->silence_ms) && words->silence_ms >= 500; break;
        case LINGER: fits = seconds_of(optarg, &words->linger_ms); break;
        case GRACE: fits = seconds_of(optarg, &words->grace_ms); break;
        case PATIENCE: fits = seconds_of(optarg, &words->patience_ms); break;
        case LOSE: fits = number_of(optarg, UINT32_MAX, &words->faults.lose); break;
        case REPEAT: fits = number_of(optarg, UINT32_MAX, &words->faults.repeat); break;
        case LATE: fits = number_of(optarg, UINT32_MAX, &words->faults.late); break;
        case SEED: fits = number_of(optarg, UINT64_MAX, &words->faults.seed); break;
        case DEAF: fits = span_of(optarg, &words->faults); break;
        default: break;
        }
        if (!fits) return misused("a number that doesn't fit", optarg);
    }
    words->address = address;
    if (!address) return misused(words->house ? "--listen ADDR:PORT is missing" : "--join ADDR:PORT is missing", NULL);
    if (!words->key) return misused("--key FILE is missing", NULL);
    if (words->house && !words->file) return misused("FILE is missing", NULL);
    if (words->house && !words->store) return misused("--store PATH is missing", NULL);
    return STATUS_OK;
}
