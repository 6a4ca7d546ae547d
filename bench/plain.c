/* A plain decoder: sixteen states, 16-bit totals, one 16-bit number of decisions a step.
   A state is the last four inputs, the newest lowest. */
#include "plain.h"

#define STATES 16
#define FAR 0x4000

/* The dibit for input u in state s. */
static unsigned output(unsigned s, unsigned u)
{
	unsigned first = u ^ s >> 2 ^ s >> 3;
	unsigned second = u ^ s ^ s >> 1 ^ s >> 3;

	return (first & 1) << 1 | (second & 1);
}

static uint8_t outputs[STATES][2];

void plain_begin(void)
{
	for (unsigned s = 0; s < STATES; s++)
		for (unsigned u = 0; u < 2; u++)
			outputs[s][u] = output(s, u);
}

/* How many readable bits of a reading differ from each dibit. */
static void weigh(uint8_t reading, uint16_t cost[4])
{
	unsigned first = !(reading & 4), second = !(reading & 8);

	for (unsigned d = 0; d < 4; d++) {
		unsigned differ = (reading ^ d) & 3;
		cost[d] = (differ >> 1 & first) + (differ & second);
	}
}

static uint16_t step(const uint16_t cost[4], const uint16_t *old, uint16_t *new)
{
	uint16_t decisions = 0;

	for (unsigned s = 0; s < STATES; s++) {
		unsigned p = s >> 1, q = p + 8, u = s & 1;
		uint16_t zero = old[p] + cost[outputs[p][u]];
		uint16_t one = old[q] + cost[outputs[q][u]];
		unsigned wins = one < zero;

		new[s] = wins ? one : zero;
		decisions |= wins << s;
	}
	return decisions;
}

static void trace(const uint16_t *decisions, int dibits, uint8_t *word)
{
	unsigned s = 0;

	for (int t = dibits - 1; t >= 0; t--) {
		if (t < dibits - 4)
			word[t / 8] |= (s & 1) << (7 - t % 8);
		s = s >> 1 | (decisions[t] >> s & 1) << 3;
	}
}

unsigned plain_decode(const uint8_t *readings, const uint16_t *places, int dibits, uint8_t *word)
{
	uint16_t banks[2][STATES], decisions[LONGEST], cost[4];

	for (int s = 0; s < STATES; s++)
		banks[0][s] = s ? FAR : 0;
	for (int t = 0; t < dibits; t++) {
		weigh(readings[places[t]], cost);
		decisions[t] = step(cost, banks[t % 2], banks[(t + 1) % 2]);
	}
	memset(word, 0, WORD_BYTES);
	trace(decisions, dibits, word);
	return banks[dibits % 2][0];
}
