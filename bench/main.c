/* Times the proved search against plain C, and against libosmocore's decoder where it is installed. */
#include "plain.h"
#include <stdbool.h>
#include <stdio.h>
#include <stdlib.h>
#include <time.h>
#ifdef WITH_OSMO
#include "osmo.h"
#endif

#define FRAMES 64
#define PLACES 480
#define ROUNDS 60
#define TURNS 25

uint64_t bench_marks(bool longer, const uint8_t *readings, size_t n, uint8_t *word, size_t bytes);
uint64_t bench_muted(bool longer, const uint16_t *stretches, size_t k, const uint8_t *readings, size_t n, uint8_t *word, size_t bytes);
uint64_t bench_levels(bool longer, const int16_t *readings, size_t n, uint8_t *word, size_t bytes);

static const uint16_t stretches[16] = { 30, 2, 60, 1, 90, 2, 119, 1, 130, 2, 200, 2, 300, 1, 420, 2 };

struct set {
	bool longer;
	int dibits;
	uint16_t places[LONGEST];
	uint8_t marks[FRAMES][PLACES];
	uint8_t covered[FRAMES][PLACES];	/* the same with the stretches unreadable */
	int16_t levels[FRAMES][PLACES];
	int8_t soft[FRAMES][2 * LONGEST];
	uint8_t words[FRAMES][WORD_BYTES];
};

static uint64_t seed = 1;

static unsigned below(unsigned n)
{
	seed = seed * 6364136223846793005u + 1442695040888963407u;
	return (unsigned)(seed >> 33) % n;
}

static void lay(struct set *s)
{
	int rows = s->dibits / 20;

	for (int i = 0; i < s->dibits; i++) {
		int j = 20 * (i % rows) + i / rows;

		s->places[i] = s->longer ? 120 + 72 * (j / 36) + j % 36 : 20 + j;
	}
}

static void code(struct set *s, int frame)
{
	static const int16_t nominal[4] = { 1000, 3000, -1000, -3000 };
	unsigned state = 0;

	for (int i = 0; i < PLACES; i++) {
		s->marks[frame][i] = below(4);
		s->levels[frame][i] = below(8001) - 4000;
	}
	memset(s->words[frame], 0, WORD_BYTES);
	for (int i = 0; i < s->dibits; i++) {
		unsigned u = i < s->dibits - 4 ? below(2) : 0;
		unsigned first = (u ^ state >> 2 ^ state >> 3) & 1;
		unsigned second = (u ^ state ^ state >> 1 ^ state >> 3) & 1;
		unsigned d = first << 1 | second;

		if (i < s->dibits - 4)
			s->words[frame][i / 8] |= u << (7 - i % 8);
		s->marks[frame][s->places[i]] = d;
		s->levels[frame][s->places[i]] = nominal[d] + (int)below(1201) - 600;
		state = (state << 1 | u) & 15;
	}
}

/* Four flipped and four unreadable bits, in different parts of the block. */
static void damage(struct set *s, int frame)
{
	int part = s->dibits / 8;

	for (int k = 0; k < 8; k++) {
		int place = s->places[k * part + below(part)];

		s->marks[frame][place] ^= k % 2 ? 1 + below(2) : 4 * (1 + below(2));
	}
	memcpy(s->covered[frame], s->marks[frame], PLACES);
	for (int k = 0; k < 16; k += 2)
		for (int i = 0; i < stretches[k + 1]; i++)
			s->covered[frame][stretches[k] + i] |= 12;
}

static void fill(struct set *s, bool longer)
{
	s->longer = longer;
	s->dibits = longer ? 180 : 100;
	lay(s);
	for (int f = 0; f < FRAMES; f++) {
		code(s, f);
		damage(s, f);
	}
}

enum kind { PLAIN, COVERED, MARKS, MUTED, LEVELS, OSMO, OSMO_ALONE, KINDS };

#ifdef WITH_OSMO
/* From readings to the bytes of the word, as the others do; alone, only its own call. */
static void run_osmo(struct set *s, bool alone, int f, uint8_t *word)
{
	uint8_t inputs[LONGEST];

	if (!alone)
		osmo_soften(s->marks[f], s->places, s->dibits, s->soft[f]);
	osmo_decode(s->soft[f], s->dibits, inputs);
	if (alone)
		return;
	memset(word, 0, WORD_BYTES);
	for (int i = 0; i < s->dibits - 4; i++)
		word[i / 8] |= inputs[i] << (7 - i % 8);
}
#else
static void run_osmo(struct set *s, bool alone, int f, uint8_t *word)
{
	(void)s, (void)alone, (void)f, (void)word;
}
#endif

static unsigned long run(struct set *s, enum kind kind, int f, uint8_t *word)
{
	switch (kind) {
	case PLAIN:
		return plain_decode(s->marks[f], s->places, s->dibits, word);
	case COVERED:
		return plain_decode(s->covered[f], s->places, s->dibits, word);
	case MARKS:
		return bench_marks(s->longer, s->marks[f], PLACES, word, WORD_BYTES);
	case MUTED:
		return bench_muted(s->longer, stretches, 16, s->marks[f], PLACES, word, WORD_BYTES);
	case LEVELS:
		return bench_levels(s->longer, s->levels[f], PLACES, word, WORD_BYTES);
	default:
		run_osmo(s, kind == OSMO_ALONE, f, word);
		return 0;
	}
}

static double now(void)
{
	struct timespec t;

	clock_gettime(CLOCK_MONOTONIC, &t);
	return t.tv_sec * 1e9 + t.tv_nsec;
}

/* Nanoseconds of one decoding: the best of many rounds, the kinds in turn. */
static void clock_all(struct set *s, double best[KINDS])
{
	uint8_t word[WORD_BYTES];

	for (int k = 0; k < KINDS; k++)
		best[k] = 1e18;
	for (int r = 0; r < ROUNDS; r++)
		for (int k = 0; k < KINDS; k++) {
			double start = now();

			for (int t = 0; t < TURNS; t++)
				for (int f = 0; f < FRAMES; f++)
					run(s, k, f, word);
			double each = (now() - start) / (TURNS * FRAMES);
			if (each < best[k])
				best[k] = each;
		}
}

static void same(const char *what, const uint8_t *a, const uint8_t *b, unsigned long x, unsigned long y)
{
	if (memcmp(a, b, WORD_BYTES) || x != y) {
		printf("bench: %s differs\n", what);
		exit(1);
	}
}

static void compare(struct set *s)
{
	uint8_t a[WORD_BYTES], b[WORD_BYTES];

	for (int f = 0; f < FRAMES; f++) {
		unsigned long x = run(s, PLAIN, f, a), y = run(s, MARKS, f, b);

		same("by marks", a, b, x, y);
#ifdef WITH_OSMO
		run(s, OSMO, f, b);
		same("libosmocore", a, b, 0, 0);
#endif
		same("word sent", a, s->words[f], 0, 0);
		x = run(s, COVERED, f, a);
		y = run(s, MUTED, f, b);
		same("muted", a, b, x, y);
		run(s, LEVELS, f, b);
		same("by levels", s->words[f], b, 0, 0);
	}
}

static void report(const struct set *s, const double ns[KINDS])
{
	double plain = ns[PLAIN];

	printf("block of %d: plain C %.0f ns\n", s->dibits, plain);
	printf("  marks  %5.0f ns  %.2f of plain C\n", ns[MARKS], ns[MARKS] / plain);
	printf("  muted  %5.0f ns  %.2f of plain C\n", ns[MUTED], ns[MUTED] / ns[COVERED]);
	printf("  levels %5.0f ns  %.2f of plain C by marks\n", ns[LEVELS], ns[LEVELS] / plain);
#ifdef WITH_OSMO
	printf("  libosmocore from readings to word %.0f ns: marks %.2f, muted %.2f of it\n", ns[OSMO], ns[MARKS] / ns[OSMO], ns[MUTED] / ns[OSMO]);
	printf("  libosmocore, its call alone       %.0f ns: marks %.2f, muted %.2f of it\n", ns[OSMO_ALONE], ns[MARKS] / ns[OSMO_ALONE], ns[MUTED] / ns[OSMO_ALONE]);
#endif
}

int main(void)
{
	static struct set set;
	double ns[KINDS];

	plain_begin();
#ifdef WITH_OSMO
	osmo_begin();
#endif
	for (int k = 0; k < 2; k++) {
		fill(&set, k);
		compare(&set);
		clock_all(&set, ns);
		report(&set, ns);
	}
	return 0;
}
