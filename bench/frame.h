/* The frame of a benchmark. A topic is one C file: its first line names the crate whose archive it links, each ROW is a function of ours
   beside one in plain C, and MAIN lists the rows. bench/run counts the instructions of each side of each row.

   ROW(name, result, parameters, arguments, ours, plain) makes one loop for three callees, picked by `side`: a function that does nothing, ours,
   and the plain one. So what the loop and its inputs cost is the same for all three, and the difference is what a call costs. */
#include <stdint.h>
#include <stdio.h>
#include <stdlib.h>
#include <string.h>

enum side { NOTHING, OURS, PLAIN };

/* The inputs: the same row of numbers in every run. */
static uint64_t state = 88172645463325252u;

static uint64_t any(void)
{
	state ^= state << 13;
	state ^= state >> 7;
	state ^= state << 17;
	return state;
}

static int64_t between(int64_t low, int64_t high) { return low + (int64_t)(any() % (uint64_t)(high - low + 1)); }

#define ROW(name, result, parameters, arguments, ours, plain)                                         \
	static result nothing_##name parameters { return 0; }                                         \
	static uint64_t row_##name(enum side side, long calls)                                        \
	{                                                                                             \
		result(*volatile callee) parameters = side == NOTHING ? nothing_##name : side == OURS ? ours : plain; \
		uint64_t sum = 0;                                                                     \
		for (long i = 0; i < calls; i++)                                                      \
			sum = sum * 31 + (uint64_t)callee arguments;                                  \
		return sum;                                                                           \
	}

struct row {
	const char *name;
	uint64_t (*run)(enum side, long);
};

#define MAIN(...)                                                                                     \
	static const struct row rows[] = {__VA_ARGS__};                                               \
	int main(int argc, char **argv) { return frame(rows, sizeof rows / sizeof rows[0], argc, argv); }

/* With no argument the rows' names are printed; with a row, a side and a number of calls, the sum over what the calls returned. */
static int frame(const struct row *rows, size_t count, int argc, char **argv)
{
	for (size_t i = 0; i < count; i++) {
		if (argc < 4)
			puts(rows[i].name);
		else if (strcmp(rows[i].name, argv[1]) == 0)
			printf("%llu\n", (unsigned long long)rows[i].run(atoi(argv[2]), atol(argv[3])));
	}
	return 0;
}
