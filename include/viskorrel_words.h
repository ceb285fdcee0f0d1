/*
 * Viskorrel: refusals in words, for people. In the shared object, libviskorrel.so, not in the proved archive.
 */
#ifndef VISKORREL_WORDS_H
#define VISKORREL_WORDS_H

#include <stddef.h>
#include <stdint.h>

#ifdef __cplusplus
extern "C" {
#endif

/* The condition under which a refusal is given, as viskorrel.h has it. Never null. */
const char *viskorrel_words(uint32_t number);

/* What to do about a blob that was refused with that number, or what it is; null where there is nothing to say. The blob may be null. */
const char *viskorrel_advice(uint32_t number, const uint8_t *blob, size_t length);

#ifdef __cplusplus
}
#endif

#endif
