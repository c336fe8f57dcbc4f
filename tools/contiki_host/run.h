/*
 * The run of the net, from moment 0 to its end.
 */
#ifndef RUN_H_
#define RUN_H_

#include <stdint.h>

void run_net(void);

/* Makes a mote take a turn at a moment that is to come. */
void run_turn_at(int mote, uint64_t moment);

#endif /* RUN_H_ */
