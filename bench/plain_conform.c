/* Judges a schedule by the rules of MPCP, FMLP+ or DPCP, tick by tick, and measures it: a plain reading of the rules to compare with.

       plain_conform FILE

   FILE has whole numbers alone: the protocol (0, 1 and 2 in this order); the numbers of processors, resources, tasks, jobs and runs;
   the home of each resource (0: none); the processor of each task and whether it uses each resource; for each job its task, its
   release and its segments, as local ticks, resource and length (0 0: no request), after their number; for each run its ticks, the
   job of each processor and the holder of each resource (0: none). It prints the verdict, what is measured of each task, and how many
   nanoseconds the judging took. */
#include <time.h>

#include "plain_jobs.h"

enum { LOCAL, ASKING, FINISHED };

typedef struct { long ticks, *running, *holders; } Run;

static long runs, *kept, *last;
static Run *rows;

static int phase(const Job *job) {
    if (job->at == job->count) return FINISHED;
    return job->into < job->segments[job->at].local ? LOCAL : ASKING;
}

static long asked(const Job *job) { return job->segments[job->at].resource; }

/* The active job of a task, or 0. */
static long active_of(long x, long t) {
    long j = current[x];
    return j <= count && jobs[j].task == x && jobs[j].release <= t ? j : 0;
}

static int is_active(long j, long t) { return active_of(jobs[j].task, t) == j; }

static int asks(long j, long t, long q) { return is_active(j, t) && phase(&jobs[j]) == ASKING && asked(&jobs[j]) == q; }

static int holds(long j, const Run *run) { return phase(&jobs[j]) == ASKING && run->holders[asked(&jobs[j])] == j; }

static long place_of(long j) {
    const Job *job = &jobs[j];
    return protocol == DPCP && phase(job) == ASKING ? home[asked(job)] : processor[job->task];
}

static int keeps_run(const Run *run, long t) {
    for (long k = 1; k <= processors; k++) {
        long j = run->running[k];
        if (j == 0) continue;
        if (!is_active(j, t) || place_of(j) != k || (phase(&jobs[j]) == ASKING && !holds(j, run))) return 0;
    }
    return 1;
}

static int keeps_keep(const Run *run, long t) {
    for (long q = 1; q <= resources; q++) {
        kept[q] = last[q] && asks(last[q], t, q) ? last[q] : 0;
        if (kept[q] && run->holders[q] != kept[q]) return 0;
    }
    return 1;
}

static long rank(long j) { return protocol == MPCP ? jobs[j].task : jobs[j].issued; }

static int keeps_shared_grant(const Run *run, long t) {
    for (long q = 1; q <= resources; q++) {
        long h = run->holders[q];
        if (h && !asks(h, t, q)) return 0;
    }
    for (long x = 1; x <= tasks; x++) {
        long j = active_of(x, t);
        if (!j || phase(&jobs[j]) != ASKING) continue;
        long h = run->holders[asked(&jobs[j])];
        if (!h || (kept[asked(&jobs[j])] != h && rank(h) > rank(j))) return 0;
    }
    return 1;
}

/* The highest ceiling of what is kept at a home. */
static long kept_ceiling(long k) {
    long least = tasks + 1;
    for (long q = 1; q <= resources; q++)
        if (home[q] == k && kept[q] && ceiling[q] < least) least = ceiling[q];
    return least;
}

static int keeps_dpcp_grant(const Run *run, long t) {
    for (long q = 1; q <= resources; q++)
        if (run->holders[q] && !asks(run->holders[q], t, q)) return 0;
    for (long k = 1; k <= processors; k++) {
        long first = 0;
        for (long x = 1; x <= tasks; x++) {
            long j = active_of(x, t);
            if (!j || phase(&jobs[j]) != ASKING || home[asked(&jobs[j])] != k || kept[asked(&jobs[j])] == j) continue;
            int due = !first && x < kept_ceiling(k);
            first = 1;
            if (due != (run->holders[asked(&jobs[j])] == j)) return 0;
        }
    }
    return 1;
}

static int keeps_idle(const Run *run, long t) {
    for (long x = 1; x <= tasks; x++) {
        long j = active_of(x, t);
        if (!j) continue;
        int ready = protocol == DPCP || phase(&jobs[j]) == LOCAL || holds(j, run);
        if (ready && !run->running[place_of(j)]) return 0;
    }
    return 1;
}

static long run_rank(long j, long k) { return protocol == MPCP ? boost[asked(&jobs[j]) * (processors + 1) + k] : jobs[j].issued; }

static int keeps_priority(const Run *run, long t) {
    for (long x = 1; x <= tasks; x++) {
        long j = active_of(x, t);
        if (!j) continue;
        long k = place_of(j), r = run->running[k];
        if (!r) continue;
        int holder = holds(r, run);
        if (phase(&jobs[j]) == ASKING) {
            if (protocol == DPCP && !holder) return 0;
            if (!holds(j, run)) continue;
            if (!holder) return 0;
            if (protocol == DPCP ? jobs[r].task > x : run_rank(r, k) > run_rank(j, k)) return 0;
        } else if (!holder && jobs[r].task > x) return 0;
    }
    return 1;
}

static const char *judge(const Run *run, long t) {
    if (!keeps_run(run, t)) return "run";
    if (!keeps_keep(run, t)) return "keep";
    if (!(protocol == DPCP ? keeps_dpcp_grant(run, t) : keeps_shared_grant(run, t))) return "grant";
    if (!keeps_idle(run, t)) return "idle";
    if (!keeps_priority(run, t)) return "priority";
    return NULL;
}

static void count_blocked(const Run *run, long t) {
    for (long x = 1; x <= tasks; x++) {
        long j = active_of(x, t);
        if (!j) continue;
        if (run->running[place_of(j)] == j) continue;
        long r = run->running[processor[x]];
        int interferes = r && jobs[r].task < x && processor[jobs[r].task] == processor[x] && (protocol != DPCP || phase(&jobs[r]) == LOCAL);
        if (!interferes) jobs[j].blocked++;
    }
}

static void advance(const Run *run, long t) {
    for (long k = 1; k <= processors; k++) {
        long j = run->running[k];
        if (!j) continue;
        Job *job = &jobs[j];
        Segment *segment = &job->segments[job->at];
        job->into++;
        job->end = t + 1;
        if (job->into == segment->local && segment->length) job->issued = t + 1;
        if (job->into == segment->local + segment->length) {
            job->at++;
            job->into = 0;
            if (job->at == job->count) {
                long x = job->task, next = j + 1;
                while (next <= count && jobs[next].task != x) next++;
                current[x] = next;
            }
        }
    }
    for (long q = 1; q <= resources; q++) last[q] = run->holders[q];
}

static void read_file(FILE *file) {
    read_sizes(file);
    runs = number(file);
    read_set_and_jobs(file);
    rows = malloc((runs + 1) * sizeof *rows);
    for (long i = 0; i < runs; i++) {
        rows[i].ticks = number(file);
        rows[i].running = numbers(file, processors);
        rows[i].holders = numbers(file, resources);
    }
}

static void print_measures(long ticks) {
    printf("lawful %ld", ticks);
    for (long x = 1; x <= tasks; x++) {
        long finished = 0, response = 0, blocking = 0;
        for (long j = 1; j <= count; j++) {
            if (jobs[j].task != x) continue;
            if (jobs[j].blocked > blocking) blocking = jobs[j].blocked;
            if (phase(&jobs[j]) != FINISHED) continue;
            finished++;
            if (jobs[j].end - jobs[j].release > response) response = jobs[j].end - jobs[j].release;
        }
        printf(" | %ld %ld %ld", finished, response, blocking);
    }
}

int main(int argc, char **argv) {
    FILE *file = argc == 2 ? fopen(argv[1], "r") : NULL;
    if (!file) return 2;
    read_file(file);
    make_tables();
    kept = calloc(resources + 1, sizeof *kept);
    last = calloc(resources + 1, sizeof *last);
    struct timespec start, end;
    clock_gettime(CLOCK_MONOTONIC, &start);
    long t = 0;
    const char *broken = NULL;
    for (long i = 0; i < runs && !broken; i++) {
        for (long k = 0; k < rows[i].ticks; k++, t++) {
            broken = judge(&rows[i], t);
            if (broken) break;
            count_blocked(&rows[i], t);
            advance(&rows[i], t);
        }
    }
    clock_gettime(CLOCK_MONOTONIC, &end);
    if (broken) printf("broken %ld %s", t, broken);
    else print_measures(t);
    printf("\n%ld\n", (end.tv_sec - start.tv_sec) * 1000000000L + end.tv_nsec - start.tv_nsec);
    return 0;
}
