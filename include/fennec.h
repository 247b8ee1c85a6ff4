/* The check of a FenneC script, for firmware. */
#ifndef FENNEC_H
#define FENNEC_H

#include <stddef.h>
#include <stdint.h>

/*
 * Whether a script would be loaded: 0, or the number of its refusal times 65,536 and the place in the source, a byte counted
 * from 0 and at most 16,384. Any bytes may be handed over; a null pointer goes with length 0, which is the empty script. The
 * call keeps nothing, allocates nothing, and takes some 120 KB of stack.
 */
uint32_t fennec_check(const uint8_t *source, size_t length);

#endif
