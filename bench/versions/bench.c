/* Versions parsed and compared: a plain C reading of Debian Policy 5.6.12 beside the library's calls. */
#define _GNU_SOURCE
#include <stdint.h>
#include <stdio.h>
#include <stdlib.h>
#include <string.h>
#include <time.h>

int64_t rattle_parse_order(const uint8_t *text, size_t len, uint32_t times);
int64_t rattle_compare_texts(const uint8_t *text, size_t len, uint32_t times);
int64_t rattle_order(const uint8_t *text, size_t len, uint32_t times);
void rattle_verdicts(const uint8_t *text, size_t len, int8_t *verdicts, size_t count);

struct version {
	long epoch;
	const char *upstream, *upstream_end;
	const char *revision, *revision_end;
};

struct text {
	const char *start;
	size_t len;
};

static int is_digit(int c) { return c >= '0' && c <= '9'; }
static int is_letter(int c) { return (c >= 'a' && c <= 'z') || (c >= 'A' && c <= 'Z'); }

/* Whether a text is a version, and its parts. */
static int parse(struct version *v, const char *text, size_t len)
{
	const char *end = text + len, *rest = text, *p;

	if (len == 0 || len > 256)
		return 0;
	v->epoch = 0;
	p = memchr(text, ':', len);
	if (p) {
		if (p == text)
			return 0;
		for (const char *d = text; d < p; d++) {
			if (!is_digit(*d))
				return 0;
			v->epoch = v->epoch * 10 + (*d - '0');
			if (v->epoch > INT32_MAX)
				return 0;
		}
		rest = p + 1;
	}
	v->upstream = rest;
	p = memrchr(rest, '-', end - rest);
	v->upstream_end = p ? p : end;
	v->revision = p ? p + 1 : "0";
	v->revision_end = p ? end : v->revision + 1;
	if (v->upstream == v->upstream_end || v->revision == v->revision_end)
		return 0;
	for (p = v->upstream; p < v->upstream_end; p++)
		if (!is_digit(*p) && !is_letter(*p) && *p != '.' && *p != '+' && *p != '-' && *p != '~' && *p != ':')
			return 0;
	for (p = v->revision; p < v->revision_end; p++)
		if (!is_digit(*p) && !is_letter(*p) && *p != '.' && *p != '+' && *p != '~')
			return 0;
	return 1;
}

/* How a character sorts among non-digits; a digit and the end of a part sort as 0. */
static int weight(const char *p, const char *end)
{
	if (p == end || is_digit(*p))
		return 0;
	if (is_letter(*p))
		return *p;
	if (*p == '~')
		return -1;
	return *p + 256;
}

/* Non-digits and numbers by turns. */
static int order_parts(const char *a, const char *a_end, const char *b, const char *b_end)
{
	while (a < a_end || b < b_end) {
		int first_difference = 0;

		while ((a < a_end && !is_digit(*a)) || (b < b_end && !is_digit(*b))) {
			int x = weight(a, a_end), y = weight(b, b_end);

			if (x != y)
				return x < y ? -1 : 1;
			a++;
			b++;
		}
		while (a < a_end && *a == '0')
			a++;
		while (b < b_end && *b == '0')
			b++;
		while (a < a_end && is_digit(*a) && b < b_end && is_digit(*b)) {
			if (!first_difference)
				first_difference = *a - *b;
			a++;
			b++;
		}
		if (a < a_end && is_digit(*a))
			return 1;
		if (b < b_end && is_digit(*b))
			return -1;
		if (first_difference)
			return first_difference < 0 ? -1 : 1;
	}
	return 0;
}

static int order(const struct version *a, const struct version *b)
{
	int upstream;

	if (a->epoch != b->epoch)
		return a->epoch < b->epoch ? -1 : 1;
	upstream = order_parts(a->upstream, a->upstream_end, b->upstream, b->upstream_end);
	if (upstream)
		return upstream;
	return order_parts(a->revision, a->revision_end, b->revision, b->revision_end);
}

static int compare(const struct text *a, const struct text *b)
{
	struct version v, w;

	if (!parse(&v, a->start, a->len) || !parse(&w, b->start, b->len))
		return 2;
	return order(&v, &w);
}

/* The same with both texts copied, as one who keeps versions does. */
static int compare_copies(const struct text *a, const struct text *b)
{
	struct version v, w;
	char *x = malloc(a->len + 1), *y = malloc(b->len + 1);
	int result = 2;

	memcpy(x, a->start, a->len);
	memcpy(y, b->start, b->len);
	if (parse(&v, x, a->len) && parse(&w, y, b->len))
		result = order(&v, &w);
	free(x);
	free(y);
	return result;
}

static struct text *lines;
static struct version *parsed;
static size_t pairs;
static const uint8_t *whole;
static size_t whole_len;

__attribute__((noinline)) static int64_t c_compare(uint32_t times)
{
	int64_t sum = 0;

	for (uint32_t t = 0; t < times; t++)
		for (size_t i = 0; i < pairs; i++)
			sum += compare(&lines[2 * i], &lines[2 * i + 1]);
	return sum;
}

__attribute__((noinline)) static int64_t c_compare_copies(uint32_t times)
{
	int64_t sum = 0;

	for (uint32_t t = 0; t < times; t++)
		for (size_t i = 0; i < pairs; i++)
			sum += compare_copies(&lines[2 * i], &lines[2 * i + 1]);
	return sum;
}

__attribute__((noinline)) static int64_t c_order(uint32_t times)
{
	int64_t sum = 0;

	for (uint32_t t = 0; t < times; t++)
		for (size_t i = 0; i < pairs; i++)
			sum += order(&parsed[2 * i], &parsed[2 * i + 1]);
	return sum;
}

static int64_t library_compare(uint32_t times) { return rattle_compare_texts(whole, whole_len, times); }
static int64_t library_parse(uint32_t times) { return rattle_parse_order(whole, whole_len, times); }
static int64_t library_order(uint32_t times) { return rattle_order(whole, whole_len, times); }

struct run {
	const char *name;
	int64_t (*call)(uint32_t times);
	int against; /* the run that it is measured against */
	double best;
	double *ratios;
	int64_t sum;
};

static double now(void)
{
	struct timespec t;

	clock_gettime(CLOCK_PROCESS_CPUTIME_ID, &t);
	return t.tv_sec * 1e9 + t.tv_nsec;
}

/* Nanoseconds a pair, without what a call takes that does no round. */
static double measure(struct run *run, uint32_t times)
{
	double start = now(), none, some;

	run->call(0);
	none = now() - start;
	start = now();
	run->sum = run->call(times);
	some = now() - start;
	return (some - none) / times / pairs;
}

static int by_size(const void *a, const void *b)
{
	double x = *(const double *)a, y = *(const double *)b;

	return x < y ? -1 : x > y;
}

static char *read_file(const char *name, size_t *len)
{
	FILE *file = fopen(name, "rb");
	char *text;

	if (!file || fseek(file, 0, SEEK_END) != 0)
		exit((perror(name), 1));
	*len = ftell(file);
	rewind(file);
	text = malloc(*len + 1);
	if (fread(text, 1, *len, file) != *len)
		exit((perror(name), 1));
	fclose(file);
	return text;
}

static void read_lines(char *text, size_t len)
{
	size_t count = 0, i = 0;

	for (size_t k = 0; k < len; k++)
		count += text[k] == '\n';
	lines = malloc((count + 1) * sizeof *lines);
	parsed = malloc((count + 1) * sizeof *parsed);
	for (char *p = text, *end = text + len; p < end && i < count; i++) {
		char *stop = memchr(p, '\n', end - p);

		lines[i] = (struct text){ p, stop - p };
		if (!parse(&parsed[i], p, stop - p)) {
			fprintf(stderr, "line %zu is no version\n", i + 1);
			exit(1);
		}
		p = stop + 1;
	}
	pairs = count / 2;
}

static void check_verdicts(void)
{
	int8_t *verdicts = malloc(pairs);
	size_t other = 0;

	memset(verdicts, 9, pairs);
	rattle_verdicts(whole, whole_len, verdicts, pairs);
	for (size_t i = 0; i < pairs; i++)
		other += verdicts[i] != compare(&lines[2 * i], &lines[2 * i + 1]);
	printf("%zu pairs, mean text %.1f bytes, %zu verdicts differ\n", pairs, (double)whole_len / (2 * pairs) - 1, other);
	if (other)
		exit(1);
}

int main(int argc, char **argv)
{
	struct run runs[] = {
		{ "C, parse and compare", c_compare, 0, 1e9, 0, 0 },
		{ "C, copy, parse and compare", c_compare_copies, 0, 1e9, 0, 0 },
		{ "compare_texts", library_compare, 0, 1e9, 0, 0 },
		{ "Version::parse, order", library_parse, 0, 1e9, 0, 0 },
		{ "C, compare alone", c_order, 4, 1e9, 0, 0 },
		{ "Version::order alone", library_order, 4, 1e9, 0, 0 },
	};
	const size_t count = sizeof runs / sizeof runs[0];
	int rounds, times;
	char *text;

	if (argc != 4) {
		fprintf(stderr, "usage: bench FILE ROUNDS TIMES\n");
		return 2;
	}
	rounds = atoi(argv[2]);
	times = atoi(argv[3]);
	text = read_file(argv[1], &whole_len);
	whole = (const uint8_t *)text;
	read_lines(text, whole_len);
	check_verdicts();
	for (size_t r = 0; r < count; r++)
		runs[r].ratios = malloc(rounds * sizeof(double));
	for (int round = 0; round < rounds; round++) {
		double taken[sizeof runs / sizeof runs[0]];

		for (size_t r = 0; r < count; r++) {
			taken[r] = measure(&runs[r], times);
			if (taken[r] < runs[r].best)
				runs[r].best = taken[r];
			runs[r].ratios[round] = taken[r] / taken[runs[r].against];
		}
	}
	printf("%-28s %10s %8s\n", "", "best ns", "ratio");
	for (size_t r = 0; r < count; r++) {
		if (runs[r].sum != runs[runs[r].against].sum)
			printf("the sums of %s differ\n", runs[r].name);
		qsort(runs[r].ratios, rounds, sizeof(double), by_size);
		printf("%-28s %10.1f %8.2f\n", runs[r].name, runs[r].best, runs[r].ratios[rounds / 2]);
	}
	return 0;
}
