/* Runs periodic tasks under real-time priorities, and writes what happened as events.

       cc -O2 -pthread -o recorder recorder.c
       ./recorder fmlp+|spin|plain TASKS MILLISECONDS >EVENTS

   The events' form, and the rules by which they become rows, stand in docs/RECORDING.md. TASKS has a line for each task, from the highest base priority to the lowest: its name, its processor from 1 on, its period in
   microseconds, the microsecond of its first release, and a script: local microseconds and requests RESOURCE:MICROSECONDS in turn.
   Processor K is the K-th of those that this process may run on. It needs the right to use SCHED_FIFO (root, or CAP_SYS_NICE).

   A thread per task is pinned to its processor. It busies itself until it has executed the times of its script, and looks at the clock
   all along: where more than GAP passes between two looks, it was stopped. Locks are made of atomics and futexes. Who touches them runs
   above all tasks for the moment, so that it isn't stopped there.

   Under `fmlp+` requests of a resource are served in the order of their issue, and who waits is suspended. From its grant on a request
   runs above all local work of its processor, an earlier one above a later one. Under `spin` who waits goes round in a loop, and from
   its issue to its end a request isn't preempted. Under `plain` all is as under `fmlp+`, but a request runs at its task's priority. */
#define _GNU_SOURCE
#include <errno.h>
#include <linux/futex.h>
#include <pthread.h>
#include <sched.h>
#include <stdatomic.h>
#include <stdint.h>
#include <stdio.h>
#include <stdlib.h>
#include <string.h>
#include <sys/mman.h>
#include <sys/syscall.h>
#include <time.h>
#include <unistd.h>

enum { TASKS = 32, RESOURCES = 16, PARTS = 16, PROCESSORS = 64, EVENTS = 200000, NAME = 33 };
/* base priorities go down from BASE, those of requests from FIRST_BOOST to LAST_BOOST, and locks are touched at TOP */
enum { BASE = 40, LAST_BOOST = 50, FIRST_BOOST = 90, TOP = 98 };
/* nanoseconds between two looks at the clock above which a thread was stopped */
static const int64_t GAP = 2000;

struct part { int resource; int64_t length; }; /* resource -1: local */
struct event { int64_t time; int task; const char *what; int resource; };

struct task {
    char name[NAME];
    int processor, parts, number;
    int64_t period, first;
    struct part script[PARTS];
    pthread_t thread;
    atomic_int granted;
    int64_t seen;
    int boost, events, next_waiting;
    struct event *log;
};

struct resource {
    char name[NAME];
    int holder, first_waiting, last_waiting;
};

static struct task tasks[TASKS];
static struct resource resources[RESOURCES];
static int task_count, resource_count, spins, boosts, processor_ids[PROCESSORS], processor_count;
static int open_requests[PROCESSORS], next_boost[PROCESSORS];
static atomic_flag lists = ATOMIC_FLAG_INIT;
static int64_t begin, end_of_run;

static void fail(const char *why) {
    fprintf(stderr, "recorder: %s\n", why);
    _exit(1);
}

static int64_t clock_now(void) {
    struct timespec at;
    clock_gettime(CLOCK_MONOTONIC, &at);
    return at.tv_sec * 1000000000LL + at.tv_nsec;
}

static void note(struct task *by, int64_t time, int task, const char *what, int resource) {
    if (by->events == EVENTS) fail("there are more events than a thread can keep");
    by->log[by->events++] = (struct event){time, task, what, resource};
}

/* A look at the clock by a thread that executes: where it was stopped since the last one, the log says from when to when. */
static int64_t look(struct task *me) {
    int64_t now = clock_now();
    if (now - me->seen > GAP) {
        note(me, me->seen, me->number, "stop", -1);
        note(me, now, me->number, "start", -1);
    }
    me->seen = now;
    return now;
}

/* Executes for so long, not counting the time for which it was stopped. */
static void execute(struct task *me, int64_t length) {
    for (int64_t done = 0; done < length;) {
        int64_t before = me->seen, now = look(me);
        if (now - before <= GAP) done += now - before;
    }
}

static void run_at(int priority) {
    struct sched_param param = {.sched_priority = priority};
    if (sched_setscheduler(0, SCHED_FIFO, &param) != 0) fail("SCHED_FIFO isn't allowed here");
}

static void lock_lists(void) {
    run_at(TOP);
    while (atomic_flag_test_and_set_explicit(&lists, memory_order_acquire)) {}
}

static void unlock_lists(void) { atomic_flag_clear_explicit(&lists, memory_order_release); }

/* The priority of a request that is issued now: below those that are open on its processor. */
static int boost_of(int processor) {
    if (open_requests[processor]++ == 0) next_boost[processor] = FIRST_BOOST;
    if (next_boost[processor] < LAST_BOOST) fail("requests came without a pause for too long");
    return next_boost[processor]--;
}

static void enqueue(struct resource *resource, struct task *me) {
    me->next_waiting = -1;
    if (resource->first_waiting < 0) resource->first_waiting = me->number;
    else tasks[resource->last_waiting].next_waiting = me->number;
    resource->last_waiting = me->number;
}

static void await_grant(struct task *me) {
    while (!atomic_load_explicit(&me->granted, memory_order_acquire))
        if (!spins) syscall(SYS_futex, &me->granted, FUTEX_WAIT_PRIVATE, 0, NULL, NULL, 0);
}

static void issue(struct task *me, int of) {
    struct resource *resource = &resources[of];
    atomic_store(&me->granted, 0);
    look(me);
    lock_lists();
    int64_t now = look(me);
    note(me, now, me->number, "issue", of);
    int is_free = resource->holder < 0;
    if (is_free) {
        resource->holder = me->number;
        note(me, now, me->number, "grant", of);
    } else {
        enqueue(resource, me);
        note(me, now, me->number, "stop", -1);
    }
    if (boosts) me->boost = boost_of(me->processor);
    unlock_lists();
    if (!spins) run_at(boosts ? me->boost : BASE - me->number);
    if (is_free) return;
    await_grant(me);
    me->seen = clock_now();
    note(me, me->seen, me->number, "start", -1);
}

static void end_request(struct task *me, int of) {
    struct resource *resource = &resources[of];
    look(me);
    lock_lists();
    int64_t now = look(me);
    note(me, now, me->number, "end", of);
    int next = resource->holder = resource->first_waiting;
    if (next >= 0) {
        resource->first_waiting = tasks[next].next_waiting;
        note(me, now, next, "grant", of);
        atomic_store_explicit(&tasks[next].granted, 1, memory_order_release);
    }
    if (boosts) open_requests[me->processor]--;
    unlock_lists();
    if (next >= 0 && !spins) syscall(SYS_futex, &tasks[next].granted, FUTEX_WAKE_PRIVATE, 1, NULL, NULL, 0);
    run_at(BASE - me->number);
}

static void run_job(struct task *me) {
    me->seen = clock_now();
    note(me, me->seen, me->number, "start", -1);
    for (int p = 0; p < me->parts; p++) {
        struct part *part = &me->script[p];
        if (part->resource >= 0) issue(me, part->resource);
        execute(me, part->length);
        if (part->resource >= 0) end_request(me, part->resource);
    }
    int64_t now = look(me);
    note(me, now, me->number, "stop", -1);
    note(me, now, me->number, "finish", -1);
}

static void *run_task(void *given) {
    struct task *me = given;
    cpu_set_t one;
    CPU_ZERO(&one);
    CPU_SET(processor_ids[me->processor], &one);
    if (sched_setaffinity(0, sizeof one, &one) != 0) fail("a thread can't be pinned");
    run_at(BASE - me->number);
    for (int64_t release = begin + me->first; release < end_of_run; release += me->period) {
        struct timespec at = {release / 1000000000LL, release % 1000000000LL};
        while (clock_nanosleep(CLOCK_MONOTONIC, TIMER_ABSTIME, &at, NULL) == EINTR) {}
        note(me, release, me->number, "release", -1);
        run_job(me);
    }
    return NULL;
}

static int resource_named(const char *name, size_t length) {
    for (int q = 0; q < resource_count; q++)
        if (strlen(resources[q].name) == length && strncmp(resources[q].name, name, length) == 0) return q;
    if (resource_count == RESOURCES || length == 0 || length >= NAME) fail("there are too many resources, or a name is too long");
    resources[resource_count] = (struct resource){.holder = -1, .first_waiting = -1, .last_waiting = -1};
    memcpy(resources[resource_count].name, name, length);
    return resource_count++;
}

static void read_part(struct task *task, const char *word) {
    const char *colon = strchr(word, ':');
    if (task->parts == PARTS) fail("a script has too many parts");
    int resource = colon ? resource_named(word, colon - word) : -1;
    task->script[task->parts++] = (struct part){resource, 1000LL * atoll(colon ? colon + 1 : word)};
}

static void read_tasks(const char *path) {
    FILE *file = fopen(path, "r");
    char line[512];
    if (!file) fail("the file of tasks can't be read");
    while (fgets(line, sizeof line, file)) {
        char *words = line, *word, *fields[4];
        int taken = 0;
        struct task *task = &tasks[task_count];
        if (line[0] == '#' || line[0] == '\n') continue;
        if (task_count == TASKS) fail("there are too many tasks");
        while ((word = strsep(&words, " \n")))
            if (*word && taken < 4) fields[taken++] = word;
            else if (*word) read_part(task, word);
        if (taken < 4 || task->parts == 0 || strlen(fields[0]) >= NAME) fail("a line of the tasks has another form");
        strcpy(task->name, fields[0]);
        task->processor = atoi(fields[1]) - 1;
        if (task->processor < 0 || task->processor >= processor_count) fail("there are too few processors");
        task->period = 1000LL * atoll(fields[2]);
        task->first = 1000LL * atoll(fields[3]);
        task->number = task_count++;
        task->log = calloc(EVENTS, sizeof *task->log);
        if (!task->log || task->period <= 0) fail("a task has no period, or there is no memory");
    }
    fclose(file);
}

static void find_processors(void) {
    cpu_set_t allowed;
    if (sched_getaffinity(0, sizeof allowed, &allowed) != 0) fail("the processors can't be asked for");
    for (int id = 0; id < CPU_SETSIZE && processor_count < PROCESSORS; id++)
        if (CPU_ISSET(id, &allowed)) processor_ids[processor_count++] = id;
}

static void write_events(void) {
    printf("time,processor,task,what,resource\n");
    for (int t = 0; t < task_count; t++)
        for (int e = 0; e < tasks[t].events; e++) {
            struct event *one = &tasks[t].log[e];
            struct task *of = &tasks[one->task];
            printf("%lld,%d,%s,%s,%s\n", (long long)(one->time - begin), of->processor + 1, of->name, one->what, one->resource < 0 ? "" : resources[one->resource].name);
        }
}

int main(int count, char **words) {
    if (count != 4 || (strcmp(words[1], "fmlp+") && strcmp(words[1], "spin") && strcmp(words[1], "plain"))) fail("the words are fmlp+, spin or plain, TASKS and MILLISECONDS");
    spins = strcmp(words[1], "spin") == 0;
    boosts = strcmp(words[1], "fmlp+") == 0;
    find_processors();
    read_tasks(words[2]);
    if (mlockall(MCL_CURRENT | MCL_FUTURE) != 0) fail("memory can't be locked");
    begin = clock_now() + 300000000LL;
    end_of_run = begin + 1000000LL * atoll(words[3]);
    for (int t = 0; t < task_count; t++)
        if (pthread_create(&tasks[t].thread, NULL, run_task, &tasks[t]) != 0) fail("a thread can't be made");
    for (int t = 0; t < task_count; t++) pthread_join(tasks[t].thread, NULL);
    write_events();
    return 0;
}
