/* Calls every exported function with plausible, spoilt and arbitrary values, and demands of each call what is promised of all: it reads and
 * writes only its lists, returns, and a refusal has a number of the table and changes nothing. docs/SOAK.md says how to run it.
 */
#define _GNU_SOURCE
#include <signal.h>
#include <stdio.h>
#include <stdlib.h>
#include <string.h>
#include <sys/time.h>
#include <sys/wait.h>
#include <time.h>
#include <unistd.h>

#include "fuzz.h"

static const char usage[] =
    "usage: fuzz [--seconds T | --cases N] [--seed S] [--mode end|start|heap] [--only FUNCTION] [--demand] [--watchdog T]\n"
    "       fuzz --seed S --case N [--mode M] [--only FUNCTION]   one case again, shown\n"
    "       fuzz --self-test | --wrong NAME [..]                  the deliberately wrong functions\n";

static const char *const mode_names[] = {"end", "start", "heap"};

static struct {
    double seconds;
    uint64_t cases, seed, one;
    bool once, demand, self_test;
    enum mode mode;
    const char *only, *wrong;
    unsigned watchdog;
} options = {10, UINT64_MAX, 0, 0, false, false, false, END, 0, 0, 20};

/* What the handlers report: set before each call. */
static const struct function *volatile now;
static volatile uint64_t now_case, now_call;

enum { MOST_FUNCTIONS = 256 };

static struct tally {
    uint64_t calls, accepted, none, refused[28];
} tallies[MOST_FUNCTIONS];

static void report(const char *what)
{
    char line[512];
    int length = snprintf(
        line, sizeof line, "%s: %s\nrepeat with: fuzz --seed %llu --case %llu --mode %s%s%s%s%s\n", now ? now->name : "fuzz", what,
        (unsigned long long)options.seed, (unsigned long long)now_case, mode_names[options.mode], options.only ? " --only " : "",
        options.only ? options.only : "", options.wrong ? " --wrong " : "", options.wrong ? options.wrong : "");
    if (write(1, line, (size_t)length) < 0)
        _exit(2);
}

static void on_fault(int signal)
{
    (void)signal;
    report("fault: a read or write outside its lists, or the stack's end");
    _exit(1);
}

/* Every quarter of a second: is it still the same call? */
static void on_tick(int signal)
{
    static uint64_t last;
    static unsigned ticks;
    (void)signal;
    ticks = now && now_call == last ? ticks + 1 : 0;
    last = now_call;
    if (ticks > 4 * options.watchdog) {
        report("no answer");
        _exit(1);
    }
}

static void begin_handlers(void)
{
    static const int faults[] = {SIGSEGV, SIGBUS, SIGILL, SIGFPE, SIGABRT, SIGTRAP};
    stack_t own = {.ss_sp = malloc(1 << 16), .ss_size = 1 << 16};
    struct sigaction action = {.sa_handler = on_fault, .sa_flags = SA_ONSTACK};
    sigaltstack(&own, 0);
    for (size_t k = 0; k < sizeof faults / sizeof *faults; k++)
        sigaction(faults[k], &action, 0);
    struct sigaction tick = {.sa_handler = on_tick, .sa_flags = SA_ONSTACK | SA_RESTART};
    sigaction(SIGALRM, &tick, 0);
    struct itimerval quarter = {{0, 250000}, {0, 250000}};
    setitimer(ITIMER_REAL, &quarter, 0);
}

static void show_values(const struct function *f, const struct value *values)
{
    for (size_t i = 0; i < f->count; i++) {
        const struct parameter *p = f->parameters + i;
        if (p->form == NUMBER) {
            printf("  %s = %llu\n", p->name, (unsigned long long)values[i].number);
            continue;
        }
        printf("  %s: %zu of %zu bits%s:", p->name, values[i].count, 8 * p->width, values[i].null && !values[i].count ? ", null" : "");
        for (size_t k = 0; k < values[i].count && k < 200 && !values[i].huge; k++) {
            uint64_t element = 0;
            memcpy(&element, values[i].bytes + k * p->width, p->width);
            printf(p->form == LENT ? " %llx" : " %llu", (unsigned long long)element);
        }
        printf("\n");
    }
}

static void show_outcome(struct outcome o)
{
    printf("number %u, present %d, expected %llu, actual %llu\n", (unsigned)o.number, o.present, (unsigned long long)o.expected,
           (unsigned long long)o.actual);
}

static void count_outcome(struct tally *tally, struct outcome o)
{
    tally->calls++;
    if (o.number)
        tally->refused[o.number]++;
    else if (o.present)
        tally->accepted++;
    else
        tally->none++;
}

/* Where a lent list's needed part is known to end; after an accepted call it is as it was from there on. */
struct end {
    size_t list, from;
};

static const struct end unknown = {0, SIZE_MAX};

/* One call; whether it was accepted. Ends the program where a call did what none may. */
static bool run(const struct function *f, const struct value *values, struct tally *tally, struct end needed)
{
    struct argument arguments[MOST_PARAMETERS];
    place(f, values, arguments);
    if (options.once) {
        printf("%s\n", f->name);
        show_values(f, values);
        fflush(stdout);
    }
    now_call++;
    struct outcome o = f->call(arguments);
    now_call++;
    if (options.once)
        show_outcome(o);
    const char *found = misuse(f, values, arguments, o);
    if (!found && needed.from != SIZE_MAX && !same_from(f, values, arguments, needed.list, needed.from))
        found = "wrote past the needed part of a list";
    if (found) {
        fflush(stdout);
        report(found);
        exit(1);
    }
    release(f, arguments);
    count_outcome(tally, o);
    return !o.number;
}

/* The shortest length of one lent list that is accepted, by halves: there the list ends, or begins, at the guard. Then its full length
 * again: what is past the shortest must stay as it was.
 */
static void shorten(const struct function *f, struct value *values, struct tally *tally)
{
    size_t i = below(f->count), least = 0, full = values[i].count, most = full;
    if (f->parameters[i].form != LENT)
        return;
    while (least < most) {
        size_t middle = least + (most - least) / 2;
        values[i].count = middle;
        if (run(f, values, tally, unknown))
            most = middle;
        else
            least = middle + 1;
    }
    values[i].count = full;
    if (least < full)
        run(f, values, tally, (struct end){i, least});
}

static void run_case(const struct function *all, size_t count, uint64_t number)
{
    struct value values[MOST_PARAMETERS];
    size_t which = number % count;
    memset(values, 0, sizeof values);
    now_case = number;
    now = all + which;
    begin_random(options.seed, number);
    begin_lists();
    plausible(all + which, values, options.mode == HEAP);
    uint64_t kind = below(100);
    if (kind >= 96)
        arbitrary(all + which, values);
    for (uint64_t faults = kind < 45 ? 0 : kind < 80 ? 1 : 2 + below(3); faults; faults--)
        spoil(all + which, values, options.mode == HEAP);
    bool accepted = run(all + which, values, tallies + which, unknown);
    if (accepted && all[which].count && chance(40))
        shorten(all + which, values, tallies + which);
    now = 0;
}

static double seconds_now(void)
{
    struct timespec t;
    clock_gettime(CLOCK_MONOTONIC, &t);
    return (double)t.tv_sec + 1e-9 * (double)t.tv_nsec;
}

/* Answers a plain number, or none in place of a refusal. */
static bool never_refuses(const struct function *f)
{
    return f->plain || !strcmp(f->name, "hybit_word_select");
}

/* Calls, acceptances and refusals of each function; how many functions were not both accepted and refused. */
static size_t show_table(const struct function *all, size_t count)
{
    size_t shallow = 0;
    printf("%-42s %10s %10s %8s  refused (number:calls)\n", "function", "calls", "accepted", "none");
    for (size_t k = 0; k < count; k++) {
        const struct tally *t = tallies + k;
        uint64_t refused = 0;
        printf("%-42s %10llu %10llu %8llu ", all[k].name, (unsigned long long)t->calls, (unsigned long long)t->accepted,
               (unsigned long long)t->none);
        for (unsigned number = 1; number < 28; number++) {
            refused += t->refused[number];
            if (t->refused[number])
                printf(" %u:%llu", number, (unsigned long long)t->refused[number]);
        }
        bool enough = t->accepted && (refused || never_refuses(all + k));
        shallow += !enough;
        printf(enough ? "\n" : "  NOT BOTH ACCEPTED AND REFUSED\n");
    }
    return shallow;
}

static int run_all(const struct function *all, size_t count)
{
    begin_guard(options.mode);
    begin_handlers();
    if (options.once) {
        run_case(all, count, options.one);
        return 0;
    }
    double begin = seconds_now();
    uint64_t cases = 0, calls = 0;
    while (cases < options.cases && (cases % 64 || seconds_now() - begin < options.seconds))
        run_case(all, count, cases++);
    double took = seconds_now() - begin;
    size_t shallow = show_table(all, count);
    for (size_t k = 0; k < count; k++)
        calls += tallies[k].calls;
    printf("seed %llu, mode %s: %llu cases, %llu calls in %.1f s (%.0f calls a second), nothing found\n", (unsigned long long)options.seed,
           mode_names[options.mode], (unsigned long long)cases, (unsigned long long)calls, took, (double)calls / took);
    return options.demand && shallow ? 1 : 0;
}

static const struct wrong *wrong_named(const char *name)
{
    for (size_t k = 0; k < wrong_count; k++)
        if (!strcmp(wrongs[k].function.name, name))
            return wrongs + k;
    return 0;
}

/* Runs this program on one wrong function; whether it ended with status 1 and the expected report. */
static bool reported(const char *self, const struct wrong *w)
{
    char command[512], said[4096];
    snprintf(command, sizeof command, "'%s' --wrong %s --mode %s --cases 200 --seed 1 --watchdog 1", self, w->function.name,
             mode_names[w->mode]);
    FILE *child = popen(command, "r");
    size_t length = child ? fread(said, 1, sizeof said - 1, child) : 0;
    said[length] = 0;
    int status = child ? pclose(child) : -1;
    return WIFEXITED(status) && WEXITSTATUS(status) == 1 && strstr(said, w->report);
}

static int self_test(const char *self)
{
    size_t missed = 0;
    for (size_t k = 0; k < wrong_count; k++)
        if (!reported(self, wrongs + k)) {
            printf("%s was not reported\n", wrongs[k].function.name);
            missed++;
        }
    printf("self-test: %zu of %zu wrong functions reported\n", wrong_count - missed, wrong_count);
    return missed ? 1 : 0;
}

static enum mode mode_named(const char *name)
{
    for (int k = 0; k < 3; k++)
        if (!strcmp(mode_names[k], name))
            return (enum mode)k;
    fputs(usage, stderr);
    exit(2);
}

/* An option with a value; false if there is no such option. */
static bool set_option(const char *name, const char *value)
{
    if (!strcmp(name, "--seconds"))
        options.seconds = atof(value);
    else if (!strcmp(name, "--cases"))
        options.cases = strtoull(value, 0, 10), options.seconds = 1e9;
    else if (!strcmp(name, "--case"))
        options.one = strtoull(value, 0, 10), options.once = true;
    else if (!strcmp(name, "--seed"))
        options.seed = strtoull(value, 0, 10);
    else if (!strcmp(name, "--mode"))
        options.mode = mode_named(value);
    else if (!strcmp(name, "--only"))
        options.only = value;
    else if (!strcmp(name, "--wrong"))
        options.wrong = value;
    else if (!strcmp(name, "--watchdog"))
        options.watchdog = (unsigned)atoi(value);
    else
        return false;
    return true;
}

static bool read_options(int count, char **words)
{
    options.seed = (uint64_t)time(0);
    for (int k = 1; k < count; k++) {
        if (!strcmp(words[k], "--demand"))
            options.demand = true;
        else if (!strcmp(words[k], "--self-test"))
            options.self_test = true;
        else if (k + 1 < count && set_option(words[k], words[k + 1]))
            k++;
        else
            return false;
    }
    return true;
}

/* The tables of this program hold every function and its parameters. */
static bool fits(void)
{
    bool all = function_count <= MOST_FUNCTIONS;
    for (size_t k = 0; k < function_count; k++)
        all &= functions[k].count <= MOST_PARAMETERS;
    return all;
}

int main(int count, char **words)
{
    if (!read_options(count, words) || !fits()) {
        fputs(usage, stderr);
        return 2;
    }
    if (options.self_test)
        return self_test(words[0]);
    if (options.wrong) {
        const struct wrong *w = wrong_named(options.wrong);
        return w ? run_all(&w->function, 1) : 2;
    }
    for (size_t k = 0; options.only && k < function_count; k++)
        if (!strcmp(functions[k].name, options.only))
            return run_all(functions + k, 1);
    if (options.only) {
        fprintf(stderr, "no exported function %s\n", options.only);
        return 2;
    }
    return run_all(functions, function_count);
}
