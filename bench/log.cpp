// Opening a log in C++, with the checks and the copies of the proved `Log::open`.
//     log make N D            writes ann.log with N inserts of D components, and an empty ann2.log, into the current folder
//     log open                opens the log that is there. It prints three lines:
//                                 open NANOSECONDS COUNT GENERATION wall NANOSECONDS peak KILOBYTES
//                                 held KILOBYTES
//                                 pass NANOSECONDS COUNT SUM
//     log peak PROGRAM WORD   runs a program with a word, and prints the kilobytes of its greatest memory. (Of what Python
//                             starts the system counts Python's own memory too.)
#include "log.h"

// The sum of the tags and the components of the inserts.
__attribute__((noinline)) static u64 sum_of(const std::vector<Entry> &entries) {
    u64 sum = 0;
    for (const Entry &e : entries) {
        if (e.kind != 1) continue;
        sum += e.number;
        for (u8 component : e.vector) sum += component;
    }
    return sum;
}

static Params params_of(u16 d) { return {d, 64, 75, 12, 10, 4, (u16)(d % 32 ? 1 : 32), 100000}; }

static void time_open() {
    u64 wall = now(CLOCK_MONOTONIC), busy = now(CLOCK_THREAD_CPUTIME_ID);
    Log log = open_log();
    busy = now(CLOCK_THREAD_CPUTIME_ID) - busy, wall = now(CLOCK_MONOTONIC) - wall;
    rusage usage;
    getrusage(RUSAGE_SELF, &usage);
    u64 count = log.entries.size();
    printf("open %lu %lu %lu wall %lu peak %ld\n", busy, count, log.preamble.generation, wall, usage.ru_maxrss);
    printf("held %ld\n", resident());
    busy = now(CLOCK_THREAD_CPUTIME_ID);
    u64 sum = sum_of(log.entries);
    printf("pass %lu %lu %lu\n", now(CLOCK_THREAD_CPUTIME_ID) - busy, count, sum);
}

static void peak(char **words) {
    pid_t child = fork();
    if (!child) {
        dup2(2, 1); // what the program writes isn't part of the answer
        execv(words[0], words);
        _exit(127);
    }
    int status;
    rusage usage;
    if (wait4(child, &status, 0, &usage) < 0 || status) fail("the program failed");
    printf("%ld\n", usage.ru_maxrss);
}

int main(int count, char **words) {
    if (count == 4 && !strcmp(words[1], "make")) make(strtoull(words[2], nullptr, 10), params_of(atoi(words[3])));
    else if (count == 2 && !strcmp(words[1], "open")) time_open();
    else if (count >= 3 && !strcmp(words[1], "peak")) peak(words + 2);
    else fail("log make N D, log open or log peak PROGRAM WORD");
}
