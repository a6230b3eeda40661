/* How long two commands take from start to end, by turns: the best and the median of each, and their ratio.
   The exit status is 1 where the last turn of one ended with another status than 0.
   usage: spawn TIMES COMMAND.. -- COMMAND.. */
#define _GNU_SOURCE
#include <spawn.h>
#include <stdio.h>
#include <stdlib.h>
#include <string.h>
#include <sys/wait.h>
#include <time.h>

extern char **environ;

static double now(void)
{
	struct timespec t;

	clock_gettime(CLOCK_MONOTONIC, &t);
	return t.tv_sec * 1e6 + t.tv_nsec / 1e3;
}

/* Microseconds from the start of a command to its end, and its status. */
static double run(char **command, int *status)
{
	double start = now();
	pid_t pid;

	if (posix_spawnp(&pid, command[0], NULL, NULL, command, environ) != 0 || waitpid(pid, status, 0) != pid)
		exit((perror(command[0]), 1));
	return now() - start;
}

static int by_size(const void *a, const void *b)
{
	double x = *(const double *)a, y = *(const double *)b;

	return x < y ? -1 : x > y;
}

int main(int argc, char **argv)
{
	char **commands[2] = { argv + 2, NULL };
	double *taken[2];
	int times, statuses[2];

	for (int i = 2; i + 1 < argc; i++)
		if (strcmp(argv[i], "--") == 0) {
			argv[i] = NULL;
			commands[1] = argv + i + 1;
		}
	if (!commands[1] || (times = atoi(argv[1])) < 1)
		return fprintf(stderr, "usage: spawn TIMES COMMAND.. -- COMMAND..\n"), 2;
	for (int c = 0; c < 2; c++)
		taken[c] = malloc(times * sizeof(double));
	for (int i = 0; i < times; i++)
		for (int c = 0; c < 2; c++)
			taken[c][i] = run(commands[c], &statuses[c]);
	for (int c = 0; c < 2; c++) {
		qsort(taken[c], times, sizeof(double), by_size);
		printf("%-40s status %d, best %.0f us, median %.0f us\n", commands[c][0], WEXITSTATUS(statuses[c]), taken[c][0], taken[c][times / 2]);
	}
	printf("ratio %.2f by the best, %.2f by the medians\n", taken[0][0] / taken[1][0], taken[0][times / 2] / taken[1][times / 2]);
	return statuses[0] != 0 || statuses[1] != 0;
}
