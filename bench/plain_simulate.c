/* Makes the schedule that MPCP, FMLP+ or DPCP chooses for jobs, tick by tick: a plain reading of the rules to compare with.

       plain_simulate FILE TICKS

   FILE has whole numbers alone: the protocol (0, 1 and 2 in this order); the numbers of processors, resources, tasks and jobs; the
   home of each resource; the processor of each task and whether it uses each resource; for each job its task, its release and its
   segments, as local ticks, resource and length (0 0: no request), after their number. It prints a line for each run of equal rows,
   as a file of rows has them after its header. */
#include <string.h>

#include "plain_jobs.h"

static long *row, *before;

/* What runs on processor k, and who holds resource q, in the row that is made. */
#define RUNNING(k) row[(k)]
#define HOLDER(q) row[processors + (q)]

/* The active job of a task, or 0. */
static long active_of(long x, long t) {
    long j = current[x];
    return j <= count && jobs[j].release <= t ? j : 0;
}

/* The resource that an unfinished job requests, or 0 where it is local. */
static long asked(long j) {
    const Segment *segment = &jobs[j].segments[jobs[j].at];
    return jobs[j].into < segment->local ? 0 : segment->resource;
}

static long grant_rank(long j) { return protocol == MPCP ? jobs[j].task : jobs[j].issued; }

static long run_rank(long j, long k) { return protocol == MPCP ? boost[asked(j) * (processors + 1) + k] : jobs[j].issued; }

/* The holders of the row before that still ask stay; all other resources are free. */
static void keep(long t) {
    for (long q = 1; q <= resources; q++) {
        long j = before[processors + q];
        HOLDER(q) = j && active_of(jobs[j].task, t) == j && asked(j) == q ? j : 0;
    }
}

static void grant_shared(long t) {
    long kept[65];
    memcpy(kept, row + processors, (resources + 1) * sizeof *kept);
    for (long x = 1; x <= tasks; x++) {
        long j = active_of(x, t), q = j ? asked(j) : 0;
        if (q && !kept[q] && (!HOLDER(q) || grant_rank(j) < grant_rank(HOLDER(q)))) HOLDER(q) = j;
    }
}

/* At each home the first task that waits gets what it asks for where it is higher than the ceilings of all that is kept there. */
static void grant_at_homes(long t) {
    long bar[65], seen[65] = {0};
    for (long k = 1; k <= processors; k++) bar[k] = tasks + 1;
    for (long q = 1; q <= resources; q++)
        if (HOLDER(q) && ceiling[q] < bar[home[q]]) bar[home[q]] = ceiling[q];
    for (long x = 1; x <= tasks; x++) {
        long j = active_of(x, t), q = j ? asked(j) : 0;
        if (!q || HOLDER(q) == j || seen[home[q]]) continue;
        seen[home[q]] = 1;
        if (x < bar[home[q]]) HOLDER(q) = j;
    }
}

/* The tasks from the highest, so that a later one takes the processor only where it goes strictly before. */
static void run_all(long t) {
    for (long k = 1; k <= processors; k++) RUNNING(k) = 0;
    for (long x = 1; x <= tasks; x++) {
        long j = active_of(x, t), q = j ? asked(j) : 0;
        if (!j || (q && HOLDER(q) != j)) continue;
        long k = q && protocol == DPCP ? home[q] : processor[x], r = RUNNING(k);
        int held = r && asked(r);
        if (!r || (q && !held) || (q && held && protocol != DPCP && run_rank(j, k) < run_rank(r, k))) RUNNING(k) = j;
    }
}

static void advance(long t) {
    for (long k = 1; k <= processors; k++) {
        long j = RUNNING(k);
        if (!j) continue;
        Job *job = &jobs[j];
        Segment *segment = &job->segments[job->at];
        job->into++;
        if (job->into == segment->local && segment->length) job->issued = t + 1;
        if (job->into < segment->local + segment->length) continue;
        job->at++;
        job->into = 0;
        if (job->at < job->count) continue;
        long next = j + 1;
        while (next <= count && jobs[next].task != job->task) next++;
        current[job->task] = next;
    }
}

static void print_run(long ticks, const long *cells) {
    printf("%ld", ticks);
    for (long c = 1; c <= processors + resources; c++) {
        if (cells[c]) printf(",%ld", cells[c]);
        else putchar(',');
    }
    putchar('\n');
}

int main(int argc, char **argv) {
    FILE *file = argc == 3 ? fopen(argv[1], "r") : NULL;
    if (!file) return 2;
    read_sizes(file);
    read_set_and_jobs(file);
    make_tables();
    row = calloc(processors + resources + 1, sizeof *row);
    before = calloc(processors + resources + 1, sizeof *before);
    long ticks = atol(argv[2]), length = 0;
    size_t size = (processors + resources + 1) * sizeof *row;
    for (long t = 0; t < ticks; t++) {
        keep(t);
        if (protocol == DPCP) grant_at_homes(t);
        else grant_shared(t);
        run_all(t);
        advance(t);
        if (length && memcmp(row, before, size) == 0) {
            length++;
            continue;
        }
        if (length) print_run(length, before);
        memcpy(before, row, size);
        length = 1;
    }
    if (length) print_run(length, before);
    return 0;
}
