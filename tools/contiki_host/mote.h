/*
 * The motes, one of which takes its turn.
 */
#ifndef MOTE_H_
#define MOTE_H_

#include <stdint.h>

#include "host.h"
#include "text.h"

/* A mote that doesn't wake by itself. */
#define MOTE_NEVER UINT64_MAX

void motes_init(void);

/* Takes a turn of a mote at this moment. Returns the moment at which it wakes by itself. */
uint64_t mote_turn(int mote);

const struct text *mote_trace_of(int mote);

/*
 * Of the mote whose turn it is.
 */
int mote_number(void);
const struct host_program *mote_program(void);
int mote_queue_length(void);
struct text *mote_trace(void);

#endif /* MOTE_H_ */
