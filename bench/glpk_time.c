// Solves blocking programs by GLPK in floating point, and says for each its optimum and for how long GLPK solved it.
//
//     cc -O2 glpk_time.c -o glpk_time -lglpk
//     glpk_time <programs.txt
//
// A line is a program in the form of bench/programs.txt: the costs, then for each row, after a semicolon, its limit and its
// coefficients, each as COLUMN:NUMBER. Empty lines and those that begin with # are left out. For each program it writes a line at once:
// the optimum, the nanoseconds of the shortest of TRIES solutions, and the iterations; or "stopped" where GLPK finds no optimum. Reading
// the line and making GLPK's problem of it aren't timed. Times are those of the clock, since GLPK solves in one thread.
#include <glpk.h>
#include <stdio.h>
#include <stdlib.h>
#include <time.h>

enum { TRIES = 3 };

typedef struct {
    int columns, rows, cells;
    double *cost, *limit, *weight;  // from 0, from 0, and from 1
    int *row_of, *column_of;        // of each cell, from 1, as GLPK counts
} Program;

static double nanoseconds(void) {
    struct timespec now;
    clock_gettime(CLOCK_MONOTONIC, &now);
    return now.tv_sec * 1e9 + now.tv_nsec;
}

static void *room(size_t count, size_t size) {
    void *taken = calloc(count, size);
    if (!taken) exit(7);
    return taken;
}

// Each number of a line takes two characters at least, but for the last one.
static Program of_room(size_t characters) {
    size_t numbers = characters / 2 + 2;
    Program made = {0};
    made.cost = room(numbers, sizeof *made.cost);
    made.limit = room(numbers, sizeof *made.limit);
    made.weight = room(numbers, sizeof *made.weight);
    made.row_of = room(numbers, sizeof *made.row_of);
    made.column_of = room(numbers, sizeof *made.column_of);
    return made;
}

static void give_back(Program *program) {
    free(program->cost);
    free(program->limit);
    free(program->weight);
    free(program->row_of);
    free(program->column_of);
}

static Program parsed(const char *line, size_t characters) {
    Program made = of_room(characters);
    int at_limit = 0;
    while (*line && *line != '\n') {
        if (*line == ' ') {
            line++;
            continue;
        }
        if (*line == ';') {
            made.rows++;
            at_limit = 1;
            line++;
            continue;
        }
        char *behind;
        double number = strtod(line, &behind);
        if (behind == line) exit(2);
        if (!made.rows) {
            made.cost[made.columns++] = number;
        } else if (at_limit) {
            made.limit[made.rows - 1] = number;
            at_limit = 0;
        } else if (*behind == ':') {
            made.cells++;
            made.row_of[made.cells] = made.rows;
            made.column_of[made.cells] = (int)number + 1;
            made.weight[made.cells] = strtod(behind + 1, &behind);
        } else {
            exit(2);
        }
        line = behind;
    }
    return made;
}

static glp_prob *problem_of(const Program *program) {
    glp_prob *problem = glp_create_prob();
    glp_set_obj_dir(problem, GLP_MAX);
    if (program->rows) glp_add_rows(problem, program->rows);
    if (program->columns) glp_add_cols(problem, program->columns);
    for (int k = 1; k <= program->rows; k++) glp_set_row_bnds(problem, k, GLP_UP, 0, program->limit[k - 1]);
    for (int c = 1; c <= program->columns; c++) {
        glp_set_col_bnds(problem, c, GLP_LO, 0, 0);
        glp_set_obj_coef(problem, c, program->cost[c - 1]);
    }
    glp_load_matrix(problem, program->cells, program->row_of, program->column_of, program->weight);
    return problem;
}

static void solve(const Program *program) {
    glp_smcp quiet;
    glp_init_smcp(&quiet);
    quiet.msg_lev = GLP_MSG_OFF;
    double shortest = 0, optimum = 0;
    int iterations = 0;
    for (int k = 0; k < TRIES; k++) {
        glp_prob *problem = problem_of(program);
        double begun = nanoseconds();
        int failed = glp_simplex(problem, &quiet);
        double took = nanoseconds() - begun;
        failed = failed || glp_get_status(problem) != GLP_OPT;
        if (!k || took < shortest) shortest = took;
        optimum = glp_get_obj_val(problem);
        iterations = glp_get_it_cnt(problem);
        glp_delete_prob(problem);
        if (failed) {
            puts("stopped");
            return;
        }
    }
    printf("%.17g %.0f %d\n", optimum, shortest, iterations);
}

int main(void) {
    char *line = NULL;
    size_t room_of_line = 0;
    ssize_t characters;
    glp_term_out(GLP_OFF);
    while ((characters = getline(&line, &room_of_line, stdin)) > 0) {
        if (*line == '#' || *line == '\n') continue;
        Program program = parsed(line, (size_t)characters);
        solve(&program);
        give_back(&program);
        fflush(stdout);
    }
    free(line);
    return 0;
}
