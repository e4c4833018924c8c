/* The calls in plain C that are measured beside the product's own: opening, closing, the search, reading a typed sheet and writing one. */
#ifndef PLAIN_H
#define PLAIN_H

#include "talungbisay.h"

/* Do what talung_open does, and answer the same: by the product's method, and by sweeps over all triples. */
uint64_t list_open(const uint16_t *words, size_t n, uint8_t *table, size_t m);
uint64_t plain_open(const uint16_t *words, size_t n, uint8_t *table, size_t m);

/* Do what talung_close does, and answer the same. */
uint64_t list_close(const uint16_t *words, size_t n, uint8_t *table, size_t m);
uint64_t plain_close(const uint16_t *words, size_t n, uint8_t *table, size_t m);

/* Do what talung_search does, and answer the same. */
uint64_t list_search(const uint16_t *words, size_t n, uint8_t *table, size_t m, uint32_t budget);
uint64_t plain_search(const uint16_t *words, size_t n, uint8_t *table, size_t m, uint32_t budget);

/* Does what talung_from_text does, and answers the same. */
uint64_t plain_from_text(const char *text, size_t bytes, uint16_t *words, size_t room);

/* Does what talung_to_text does, and answers the same. */
uint64_t plain_to_text(const uint16_t *words, size_t n, char *text, size_t room);

/* How many triples of boards were looked at, in a program whose plain versions are compiled to count them. */
extern uint64_t triples;

#endif
