#include <stdint.h>
#include <string.h>

#define LONGEST 180
#define WORD_BYTES 22

void plain_begin(void);

/* Decodes the readings at the places of a block into the bytes of its word, and answers the word's total. */
unsigned plain_decode(const uint8_t *readings, const uint16_t *places, int dibits, uint8_t *word);
