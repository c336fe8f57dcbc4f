/*
 * The medium: which motes hear one another, which copies are under way, and the
 * log of what was sent.
 */
#ifndef MEDIUM_H_
#define MEDIUM_H_

#include <stdint.h>

#include "text.h"

struct copy {
  uint64_t arrival;
  uint64_t number;
  int from;
  uint16_t value;
};

/* No copy is under way. */
#define MEDIUM_NEVER UINT64_MAX

void medium_init(void);

/* Sends a packet at this moment: each mote that hears the sender gets a copy of its own. */
void medium_send(int from, uint64_t number, uint16_t value);

/* The moment at which the next copy reaches a mote. */
uint64_t medium_next_arrival(int to);

/* Takes that copy. Copies of one moment come in the order of sender and number. */
struct copy medium_take(int to);

const struct text *medium_log(void);

/* The number of copies that would arrive after the end. */
uint64_t medium_left(void);

#endif /* MEDIUM_H_ */
