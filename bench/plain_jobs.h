/* What the plain readings of the rules share: the set and the jobs of a file of whole numbers, as each of them describes it, and the tables
   that the rules look into. */
#include <stdio.h>
#include <stdlib.h>

enum { MPCP, FMLP, DPCP };

typedef struct { long local, resource, length; } Segment;
typedef struct {
    long task, release, count;
    Segment *segments;
    long at, into, issued, end, blocked;
} Job;

static long protocol, processors, resources, tasks, count;
static long *home, *processor, *ceiling, *boost, *current;
static char *uses;
static Job *jobs;

static long number(FILE *file) {
    long n;
    if (fscanf(file, "%ld", &n) != 1) exit(2);
    return n;
}

static long *numbers(FILE *file, long n) {
    long *list = malloc((n + 1) * sizeof *list);
    for (long i = 1; i <= n; i++) list[i] = number(file);
    return list;
}

static void read_sizes(FILE *file) {
    protocol = number(file);
    processors = number(file), resources = number(file), tasks = number(file), count = number(file);
}

static void read_set_and_jobs(FILE *file) {
    home = numbers(file, resources);
    processor = malloc((tasks + 1) * sizeof *processor);
    uses = calloc((tasks + 1) * (resources + 1), 1);
    for (long x = 1; x <= tasks; x++) {
        processor[x] = number(file);
        for (long q = 1; q <= resources; q++) uses[x * (resources + 1) + q] = number(file) != 0;
    }
    jobs = calloc(count + 1, sizeof *jobs);
    for (long j = 1; j <= count; j++) {
        jobs[j].task = number(file), jobs[j].release = number(file), jobs[j].count = number(file);
        jobs[j].segments = malloc(jobs[j].count * sizeof(Segment));
        for (long s = 0; s < jobs[j].count; s++) {
            Segment *segment = &jobs[j].segments[s];
            segment->local = number(file), segment->resource = number(file), segment->length = number(file);
        }
    }
}

/* The ceilings, the ranks that requests run at, and the first job of each task. */
static void make_tables(void) {
    ceiling = calloc(resources + 1, sizeof *ceiling);
    boost = calloc((resources + 1) * (processors + 1), sizeof *boost);
    current = calloc(tasks + 1, sizeof *current);
    for (long q = 1; q <= resources; q++) {
        for (long x = tasks; x >= 1; x--)
            if (uses[x * (resources + 1) + q]) ceiling[q] = x;
        for (long k = 1; k <= processors; k++) {
            long *b = &boost[q * (processors + 1) + k];
            *b = ceiling[q];
            for (long x = tasks; x >= 1; x--)
                if (uses[x * (resources + 1) + q] && processor[x] != k) *b = x;
        }
    }
    for (long x = 1; x <= tasks; x++) {
        long j = 1;
        while (j <= count && jobs[j].task != x) j++;
        current[x] = j;
    }
}
