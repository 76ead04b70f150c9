// The calls of a run, and nothing between them, for bench/floor to time beside `lrs run`: a process for each job, at
// most so many at once, and a record for each reply with its two syncs. No reply is read or judged, and no keys are kept.
//
// `floor_calls LEDGER FOLDER WORKERS SYNCS PROGRAM` starts `PROGRAM job` for each job. What these print goes to files
// without a name in FOLDER, each of which serves one process after the other; with SYNCS 0 nothing is synced. Standard
// input has two numbers, how many jobs there are and the bytes of a file, and then the file; and for each job the bytes of
// its head, the bytes of its reply, how many jobs it gives back, their numbers, from 0, and then the head. A job's text is
// its head and the file. It begins with job 0. As in `lrs run` a process is started beforehand once one has ended, and the
// listing is read from the ledger and printed at the end. It waits for whichever process ends first in one call, which std
// of the language does not have.
//
// `floor_calls job` is such a program: it reads its text to the end, keeps its processor busy for as many microseconds as the
// text says first, and prints as many bytes as it says then.
#define _GNU_SOURCE
#include <errno.h>
#include <fcntl.h>
#include <spawn.h>
#include <stdbool.h>
#include <stdio.h>
#include <stdlib.h>
#include <string.h>
#include <sys/wait.h>
#include <time.h>
#include <unistd.h>

enum { MOST_WORKERS = 256, MOST_TEXT = 1 << 26, PIECE = 1 << 16 };

typedef struct {
    char *head;
    long head_bytes, reply_bytes;
    int given_back, *jobs;
} Job;

typedef struct {
    pid_t pid;
    int input, writer, reply, job;
} Process;

typedef struct {
    int file;
    long end;
    bool syncs;
} Ledger;

static const char *folder;
static char *program;
static char text[MOST_TEXT];
static long text_bytes;

static void need(bool holds, const char *what) {
    if (!holds) {
        perror(what);
        exit(1);
    }
}

static void write_all(int file, const char *bytes, long count) {
    while (count > 0) {
        ssize_t written = write(file, bytes, count);
        need(written > 0, "write");
        bytes += written;
        count -= written;
    }
}

// What a process does that is started with the word `job`.
static int work(void) {
    long taken = 0, micros, bytes;
    for (ssize_t more; (more = read(0, text + taken, sizeof text - taken)) > 0;)
        taken += more;
    need(sscanf(text, "%ld %ld", &micros, &bytes) == 2, "job");
    struct timespec start, now;
    clock_gettime(CLOCK_PROCESS_CPUTIME_ID, &start);
    do {
        for (volatile int i = 0; i < 1000; i++) {
        }
        clock_gettime(CLOCK_PROCESS_CPUTIME_ID, &now);
    } while ((now.tv_sec - start.tv_sec) * 1000000 + (now.tv_nsec - start.tv_nsec) / 1000 < micros);
    static char piece[PIECE];
    memset(piece, '1', sizeof piece);
    for (; bytes > 0; bytes -= PIECE)
        write_all(1, piece, bytes < PIECE ? bytes : PIECE);
    return 0;
}

// the file of the process that has ended last, empty
static bool has_spare;
static Process spare;

// Opens a file for what a process prints, or takes the spare one.
static Process reply_file(void) {
    static int number;
    if (has_spare) {
        has_spare = false;
        return spare;
    }
    char name[4096];
    snprintf(name, sizeof name, "%s/floor_calls-%d-%d", folder, getpid(), number++);
    Process process = {.writer = open(name, O_CREAT | O_EXCL | O_WRONLY | O_CLOEXEC, 0600)};
    process.reply = open(name, O_RDONLY | O_CLOEXEC);
    need(process.writer >= 0 && process.reply >= 0 && unlink(name) == 0, name);
    return process;
}

// Empties the file of a process that has ended, for the next one.
static void keep_file(const Process *process) {
    if (has_spare) {
        close(spare.writer);
        close(spare.reply);
    }
    need(ftruncate(process->writer, 0) == 0, "ftruncate");
    need(lseek(process->writer, 0, SEEK_SET) == 0 && lseek(process->reply, 0, SEEK_SET) == 0, "lseek");
    spare = *process;
    has_spare = true;
}

// A process that waits for its text, and the file to which it prints.
static Process prepare(void) {
    Process process = reply_file();
    int ends[2];
    need(pipe2(ends, O_CLOEXEC) == 0, "pipe");
    posix_spawn_file_actions_t actions;
    posix_spawn_file_actions_init(&actions);
    posix_spawn_file_actions_adddup2(&actions, ends[0], 0);
    posix_spawn_file_actions_adddup2(&actions, process.writer, 1);
    posix_spawn_file_actions_addopen(&actions, 2, "/dev/null", O_WRONLY, 0);
    char *words[] = {program, "job", NULL};
    errno = posix_spawn(&process.pid, program, &actions, NULL, words, NULL);
    need(errno == 0, "posix_spawn");
    posix_spawn_file_actions_destroy(&actions);
    close(ends[0]);
    process.input = ends[1];
    return process;
}

static void give(Process *process, const Job *jobs, int job) {
    write_all(process->input, jobs[job].head, jobs[job].head_bytes);
    write_all(process->input, text, text_bytes);
    close(process->input);
    process->job = job;
}

static void sync_ledger(const Ledger *ledger) {
    need(!ledger->syncs || fsync(ledger->file) == 0, "fsync");
}

// Adds what a process has printed as a record: its length, the reply and a closed gate, and then the gate before it.
static void record(Ledger *ledger, const Process *process, long bytes) {
    char *payload = malloc(bytes + 16);
    need(payload != NULL, "memory");
    snprintf(payload, 15, "%013ld\n", bytes);
    long taken = 14;
    // one byte more, so that a longer reply is seen
    for (ssize_t more; (more = read(process->reply, payload + taken, bytes + 15 - taken)) > 0;)
        taken += more;
    keep_file(process);
    payload[taken] = 0;
    need(taken == bytes + 14 && pwrite(ledger->file, payload, taken + 1, ledger->end) == taken + 1, "record");
    sync_ledger(ledger);
    need(pwrite(ledger->file, "\xf5", 1, ledger->end - 1) == 1, "gate");
    sync_ledger(ledger);
    ledger->end += taken + 1;
    free(payload);
}

static void print_listing(const Ledger *ledger) {
    static char piece[PIECE];
    int out = open("/dev/null", O_WRONLY);
    lseek(ledger->file, 0, SEEK_SET);
    for (ssize_t more; (more = read(ledger->file, piece, sizeof piece)) > 0;)
        write_all(out, piece, more);
}

// The bytes behind a number and its line feed.
static void read_text(char *bytes, long count) {
    need(getchar() == '\n' && fread(bytes, 1, count, stdin) == (size_t)count, "text");
}

static Job *read_jobs(int *count) {
    need(scanf("%d %ld", count, &text_bytes) == 2 && 0 < *count && text_bytes <= MOST_TEXT, "jobs");
    read_text(text, text_bytes);
    Job *jobs = calloc(*count, sizeof *jobs);
    for (Job *job = jobs; job < jobs + *count; job++) {
        need(scanf("%ld %ld %d", &job->head_bytes, &job->reply_bytes, &job->given_back) == 3, "job");
        job->head = malloc(job->head_bytes);
        job->jobs = calloc(job->given_back + 1, sizeof *job->jobs);
        for (int k = 0; k < job->given_back; k++)
            need(scanf("%d", &job->jobs[k]) == 1, "job");
        read_text(job->head, job->head_bytes);
    }
    return jobs;
}

// The place of the process that has ended, of those that are out.
static int wait_for_one(const Process *out, int count) {
    int status;
    pid_t pid = wait(&status);
    for (int i = 0; i < count; i++)
        if (out[i].pid == pid && status == 0)
            return i;
    need(false, "wait");
    return 0;
}

int main(int count, char **words) {
    if (count == 2 && strcmp(words[1], "job") == 0)
        return work();
    need(count == 6, "words");
    int workers = atoi(words[3]), many;
    folder = words[2];
    program = words[5];
    Job *jobs = read_jobs(&many);
    Ledger ledger = {open(words[1], O_CREAT | O_TRUNC | O_RDWR, 0600), 1, atoi(words[4]) != 0};
    need(0 < workers && workers <= MOST_WORKERS && pwrite(ledger.file, "", 1, 0) == 1, words[1]);
    int *queue = calloc(many, sizeof *queue), next = 0, last = 1, busy = 0;
    Process out[MOST_WORKERS], beforehand;
    bool waits = false;
    while (next < last || busy > 0) {
        if (next < last && busy < workers) {
            out[busy] = waits ? beforehand : prepare();
            waits = false;
            give(&out[busy++], jobs, queue[next++]);
            continue;
        }
        int place = wait_for_one(out, busy);
        if (!waits)
            beforehand = prepare();
        waits = true;
        Process ended = out[place];
        memmove(out + place, out + place + 1, (--busy - place) * sizeof *out);
        record(&ledger, &ended, jobs[ended.job].reply_bytes);
        for (int k = 0; k < jobs[ended.job].given_back; k++)
            queue[last++] = jobs[ended.job].jobs[k];
    }
    print_listing(&ledger);
    return next == many ? 0 : 1;
}
