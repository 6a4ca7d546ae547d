/* The same code for libosmocore's decoder. */
#include "osmo.h"
#include <osmocom/core/conv.h>

static uint8_t outputs[16][2], states[16][2];

static struct osmo_conv_code code = {
	.N = 2,
	.K = 5,
	.term = CONV_TERM_FLUSH,
	.next_output = outputs,
	.next_state = states,
};

void osmo_begin(void)
{
	for (unsigned s = 0; s < 16; s++)
		for (unsigned u = 0; u < 2; u++) {
			unsigned first = (u ^ s >> 2 ^ s >> 3) & 1;
			unsigned second = (u ^ s ^ s >> 1 ^ s >> 3) & 1;

			outputs[s][u] = first << 1 | second;
			states[s][u] = (s << 1 | u) & 15;
		}
}

static int8_t soft(unsigned bit, unsigned lost)
{
	return lost ? 0 : bit ? -127 : 127;
}

void osmo_soften(const uint8_t *readings, const uint16_t *places, int dibits, int8_t *bits)
{
	for (int t = 0; t < dibits; t++) {
		uint8_t r = readings[places[t]];

		bits[2 * t] = soft(r & 2, r & 4);
		bits[2 * t + 1] = soft(r & 1, r & 8);
	}
}

void osmo_decode(const int8_t *bits, int dibits, uint8_t *inputs)
{
	code.len = dibits - 4;
	osmo_conv_decode(&code, bits, inputs);
}
