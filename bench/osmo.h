#include <stdint.h>

void osmo_begin(void);

/* The readings of a block as libosmocore's soft bits. */
void osmo_soften(const uint8_t *readings, const uint16_t *places, int dibits, int8_t *bits);

/* Decodes soft bits into free inputs, one to a byte. */
void osmo_decode(const int8_t *bits, int dibits, uint8_t *inputs);
