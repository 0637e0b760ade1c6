/* Bytes and room lent as a host may lend them: the bytes can be read and not written, and before and behind
 * all that can be lent lies memory that can't be touched. Who does ends the program. */
#ifndef LENT_H
#define LENT_H

#include <stddef.h>
#include <stdint.h>

/* The most is more than 32 bits tell; what is never written or read takes no memory. */
#define MOST_LENT (((uint64_t)1 << 32) + (1 << 16))
#define LEAST_LENT ((uint64_t)1 << 21)

/* How much can be lent, so many bytes and so much room, which are taken at the first call: the most, or where
 * there are not three times so many addresses the least, or nothing. */
uint64_t can_lend(void);

/* Puts the bytes at a place of it, and gives that place as it is lent. */
const uint8_t *lent_at(uint64_t place, const uint8_t *bytes, size_t length);

/* The same where the bytes end with the memory. */
const uint8_t *lent_at_end(const uint8_t *bytes, size_t length);

/* A place of the room, which can be read and written; it holds what was last put there. */
uint8_t *room_at(uint64_t place);

/* From here on, who touches what isn't lent is said to be this call before the program ends; null ends
 * that. */
void lent_to(const char *call);

#endif
