/*
 * See solvers.h. The programs take turns, start by start, and change who goes first, as the two sides of a call do. What they write goes
 * to /dev/null, and each is asked to write little: the time is for the work and not for the talk about it.
 */
#define _POSIX_C_SOURCE 200809L

#include "solvers.h"

#include <fcntl.h>
#include <spawn.h>
#include <stdio.h>
#include <stdlib.h>
#include <sys/wait.h>
#include <unistd.h>

#include "dimacs.h"

enum { PROGRAMS = 1 + SOLVERS };

extern char **environ;

const char *const solver_names[SOLVERS] = {"minisat", "cadical", "picosat"};

/* What keeps a program quiet, NULL where it is so by itself. */
static const char *const quiet_options[PROGRAMS] = {NULL, "-verb=0", "-q", NULL};

/* By program and turn; a turn is one start of each. */
static double seconds[PROGRAMS][MOST_TURNS];

static pid_t start(const char *path, const char *file, const char *option)
{
    char *arguments[] = {(char *)path, (char *)file, (char *)option, NULL};
    posix_spawn_file_actions_t actions;
    pid_t id = 0;
    posix_spawn_file_actions_init(&actions);
    posix_spawn_file_actions_addopen(&actions, STDOUT_FILENO, "/dev/null", O_WRONLY, 0);
    posix_spawn_file_actions_adddup2(&actions, STDOUT_FILENO, STDERR_FILENO);
    int error = posix_spawn(&id, path, &actions, NULL, arguments, environ);
    posix_spawn_file_actions_destroy(&actions);
    return error ? -1 : id;
}

/* Seconds from the start of a program to its end. */
static double time_program(const char *path, const char *file, const char *option, int expected)
{
    int status = 0;
    double before = now();
    pid_t id = start(path, file, option);
    bool ended = id > 0 && waitpid(id, &status, 0) == id;
    double taken = now() - before;
    if (ended && WIFEXITED(status) && WEXITSTATUS(status) == expected)
        return taken;
    fprintf(stderr, "DIFFERENT: %s on %s does not exit with %d\n", path, file, expected);
    exit(1);
}

static bool installed(const Programs *programs, int program)
{
    return programs->paths[program][0] != 0;
}

/* Each program once, another one first each time. */
static void take_turn(const Programs *programs, const char *file, int expected, int turn)
{
    for (int i = 0; i < PROGRAMS; i++) {
        int p = (turn + i) % PROGRAMS;
        if (installed(programs, p))
            seconds[p][turn] = time_program(programs->paths[p], file, quiet_options[p], expected);
    }
}

static void take_turns(const Programs *programs, const char *file, int expected, int turns)
{
    for (int turn = 0; turn < turns; turn++)
        take_turn(programs, file, expected, turn);
}

void time_programs(const Programs *programs, const char *file, bool satisfiable, int starts, Times times[SOLVERS])
{
    take_turns(programs, file, satisfiable ? SATISFIABLE : UNSATISFIABLE, starts);
    double engine = median(seconds[0], starts);
    for (int s = 0; s < SOLVERS; s++)
        times[s] = installed(programs, 1 + s) ? (Times){engine, median(seconds[1 + s], starts)} : (Times){0, 0};
}
