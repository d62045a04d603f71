/* From a sheet's lines to its settings, over the library: reads the lines, checks, measures and writes the table, hands the clauses to a solver
   through a file, decodes the solver's model and prints the exact value of every row.

       solve LINES [SOLVER]

   LINES is a file of bare lines (docs/SHEETS.md), SOLVER a command that takes the name of a DIMACS file and answers in 's' and 'v' lines; cadical
   without it. The solver is not trusted: fordrambler_decode tries its model on every clause.

   Exit status, as that of ./solve: 0 settings were printed; 20 none claimed; 1 the sheet is refused; 2 wrong use, or a file that can't be read or
   made; 4 the solver can't be run, failed, gave an answer that can't be read, or a false model; 5 the settings could not be written. */
#define _POSIX_C_SOURCE 200809L
#include "fordrambler.h"

#include <inttypes.h>
#include <stdarg.h>
#include <stdio.h>
#include <stdlib.h>
#include <string.h>
#include <sys/wait.h>
#include <unistd.h>

enum status { SETTINGS = 0, REFUSED = 1, UNUSABLE = 2, SOLVER_FAILED = 4, UNWRITTEN = 5, NONE_CLAIMED = 20 };

/* The table and what is lent to the calls. What depends on the clauses is allocated once they are measured. */
static uint8_t table[FORDRAMBLER_TABLE_BYTES];
static size_t table_len, rows, unknowns, place;
static fordrambler_record records[FORDRAMBLER_MOST_ROWS];
static int32_t map[FORDRAMBLER_MOST_ROWS * FORDRAMBLER_MAP_PLACES];
static uint32_t variables, clauses, slots_len;
static int32_t *slots;
static uint8_t *model;
static int64_t values[FORDRAMBLER_MOST_ROWS], results[FORDRAMBLER_MOST_ROWS];

/* The solver's two files, in a folder of their own. */
static char folder[4000], clauses_path[4096], answer_path[4096];

static void remove_files(void) {
    if (folder[0] == 0) return;
    unlink(clauses_path);
    unlink(answer_path);
    rmdir(folder);
    folder[0] = 0;
}

static void stop(enum status status, const char *format, ...) {
    va_list words;
    va_start(words, format);
    fputs("solve: ", stderr);
    vfprintf(stderr, format, words);
    fputc('\n', stderr);
    va_end(words);
    exit(status);
}

/* Ends at a refusal; its place is in `place`. 19 is the solver's fault; any other number here speaks of the sheet. */
static void must_be_done(uint32_t number) {
    if (number == FORDRAMBLER_REFUSED_CLAUSE) stop(SOLVER_FAILED, "refused %" PRIu32 " %zu: the solver's model is false", number, place);
    if (number != FORDRAMBLER_DONE) stop(REFUSED, "refused %" PRIu32 " %zu (docs/SHEETS.md says what this means)", number, place);
}

static void *room(size_t count, size_t size) {
    void *memory = calloc(count, size);
    if (memory == NULL) stop(UNUSABLE, "no memory");
    return memory;
}

/* Reads the lines. One byte more than the longest table has is enough: a text that is longer is refused, whatever follows. */
static void read_table(const char *path) {
    static uint8_t text[FORDRAMBLER_MOST_ROWS * FORDRAMBLER_LINE_BYTES + 1];
    FILE *file = fopen(path, "rb");
    if (file == NULL) stop(UNUSABLE, "%s can't be opened", path);
    size_t text_len = fread(text, 1, sizeof text, file);
    if (ferror(file)) stop(UNUSABLE, "%s can't be read", path);
    fclose(file);
    must_be_done(fordrambler_read_lines(text, text_len, table, sizeof table, &table_len, &place));
    rows = table_len / FORDRAMBLER_ROW_BYTES;
}

static int kind_of(size_t row) { return table[row * FORDRAMBLER_ROW_BYTES]; }

static int is_unknown(size_t row) {
    return kind_of(row) >= FORDRAMBLER_KIND_BOOLEAN_UNKNOWN && kind_of(row) <= FORDRAMBLER_KIND_INTEGER_UNKNOWN;
}

/* Checks and measures the table, and writes its clauses. */
static void write_table(void) {
    must_be_done(fordrambler_check(table, table_len, records, rows, &place));
    must_be_done(fordrambler_measure(table, table_len, &variables, &clauses, &slots_len, &place));
    slots = room(slots_len, sizeof *slots);
    model = room(variables, sizeof *model);
    must_be_done(fordrambler_write(table, table_len, records, rows, map, rows * FORDRAMBLER_MAP_PLACES, slots, slots_len, &place));
    for (size_t row = 0; row < rows; row++)
        if (is_unknown(row)) unknowns++;
}

static void make_folder(void) {
    const char *parent = getenv("TMPDIR");
    snprintf(folder, sizeof folder, "%s/fordrambler.XXXXXX", parent != NULL && parent[0] != 0 ? parent : "/tmp");
    if (mkdtemp(folder) == NULL) {
        folder[0] = 0;
        stop(UNUSABLE, "no temporary folder can be made");
    }
    snprintf(clauses_path, sizeof clauses_path, "%s/clauses.cnf", folder);
    snprintf(answer_path, sizeof answer_path, "%s/answer", folder);
}

/* Prints the slots as DIMACS CNF. The 0 that ends a clause ends its line. */
static void print_clauses(void) {
    FILE *file = fopen(clauses_path, "w");
    if (file == NULL) stop(UNUSABLE, "%s can't be written", clauses_path);
    fprintf(file, "p cnf %" PRIu32 " %" PRIu32 "\n", variables, clauses);
    for (size_t i = 0; i < slots_len; i++) fprintf(file, "%" PRId32 "%c", slots[i], slots[i] == 0 ? '\n' : ' ');
    int failed = ferror(file);
    if (fclose(file) != 0 || failed) stop(UNUSABLE, "%s can't be written", clauses_path);
}

/* Runs the solver, its answer in a file, and gives its exit status. */
static int run_solver(const char *solver) {
    int ended;
    pid_t child = fork();
    if (child == -1) stop(SOLVER_FAILED, "%s can't be run", solver);
    if (child == 0) {
        if (freopen(answer_path, "w", stdout) != NULL) execlp(solver, solver, clauses_path, (char *)NULL);
        _exit(127);
    }
    if (waitpid(child, &ended, 0) == -1) stop(SOLVER_FAILED, "%s can't be waited for", solver);
    if (!WIFEXITED(ended)) stop(SOLVER_FAILED, "%s was ended by signal %d", solver, WTERMSIG(ended));
    if (WEXITSTATUS(ended) == 127) stop(SOLVER_FAILED, "%s can't be run", solver);
    return WEXITSTATUS(ended);
}

/* Takes the literals of a 'v' line into the model. A variable that no line names stays false: whatever is taken here, decoding tries it. */
static void take_literals(char *words) {
    for (char *word = strtok(words, " \t\r\n"); word != NULL; word = strtok(NULL, " \t\r\n")) {
        char *end;
        long literal = strtol(word, &end, 10);
        uint64_t variable = literal < 0 ? 0 - (uint64_t)literal : (uint64_t)literal;
        if (*end != 0 || variable > variables) stop(SOLVER_FAILED, "the solver's answer has '%.40s' for a literal", word);
        if (variable != 0) model[variable - 1] = literal > 0;
    }
}

/* Reads the answer. 1: it claims a model, which is then in `model`; 0: it claims that there is none. */
static int read_answer(void) {
    int claims_model = 0, claims_none = 0, gives_values = 0;
    char *line = NULL;
    size_t capacity = 0;
    FILE *file = fopen(answer_path, "r");
    if (file == NULL) stop(SOLVER_FAILED, "the solver left no answer");
    while (getline(&line, &capacity, file) != -1) {
        line[strcspn(line, "\r\n")] = 0;
        if (strcmp(line, "s SATISFIABLE") == 0) claims_model = 1;
        else if (strcmp(line, "s UNSATISFIABLE") == 0) claims_none = 1;
        else if (line[0] == 'v') take_literals(line + 1), gives_values = 1;
        else if (line[0] != 'c' && line[0] != 0) stop(SOLVER_FAILED, "the solver's answer has the line '%.60s'", line);
    }
    if (ferror(file)) stop(UNUSABLE, "%s can't be read", answer_path);
    fclose(file);
    free(line);
    if (!claims_model && !claims_none) stop(SOLVER_FAILED, "the solver's answer is neither SATISFIABLE nor UNSATISFIABLE");
    if (claims_none && (claims_model || gives_values)) stop(SOLVER_FAILED, "the solver's answer contradicts itself");
    return claims_model;
}

/* Has the solver find a model. Its exit status must agree with its answer: 10 and 20 by custom, or 0 of a solver that tells nothing by it. */
static void solve(const char *solver) {
    make_folder();
    print_clauses();
    int status = run_solver(solver);
    if (status != 0 && status != 10 && status != 20) stop(SOLVER_FAILED, "%s failed with status %d", solver, status);
    int claims_model = read_answer();
    remove_files();
    if (status != 0 && status != (claims_model ? 10 : 20)) stop(SOLVER_FAILED, "%s ended with status %d and answered otherwise", solver, status);
    if (!claims_model) stop(NONE_CLAIMED, "none claimed: %s says that the clauses have no model", solver);
}

/* The settings of the model, which must make every clause true, and the exact value of every row. */
static void find_values(void) {
    must_be_done(fordrambler_decode(table, table_len, records, rows, map, rows * FORDRAMBLER_MAP_PLACES, slots, slots_len, model, variables,
                                    values, unknowns, &place));
    must_be_done(fordrambler_evaluate(table, table_len, values, unknowns, results, rows, &place));
}

static void print_values(void) {
    for (size_t row = 0; row < rows; row++) {
        printf("%s %zu: ", is_unknown(row) ? "setting" : "row", row);
        if (records[row].sort == FORDRAMBLER_SORT_BOOLEAN) printf("%s\n", results[row] ? "true" : "false");
        else printf("%" PRId64 "/%" PRIu32 "\n", results[row], records[row].denominator);
    }
    if (fflush(stdout) != 0 || ferror(stdout)) stop(UNWRITTEN, "the settings can't be written");
}

int main(int count, char **words) {
    if (count < 2 || count > 3) stop(UNUSABLE, "usage: solve LINES [SOLVER]");
    atexit(remove_files);
    read_table(words[1]);
    write_table();
    solve(count == 3 ? words[2] : "cadical");
    find_values();
    print_values();
    return SETTINGS;
}
