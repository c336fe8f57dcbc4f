/*
 * Event timers. When one is due, the process that set it gets an event.
 */
#ifndef ETIMER_H_
#define ETIMER_H_

#include "process.h"
#include "timer.h"

struct etimer {
  struct timer timer;
  struct etimer *next;
  struct process *p;      /* the owner, which gets the event */
};

extern struct process etimer_process;

void etimer_set(struct etimer *et, clock_time_t interval);
void etimer_reset(struct etimer *et);
void etimer_restart(struct etimer *et);
void etimer_stop(struct etimer *et);
int etimer_expired(struct etimer *et);
clock_time_t etimer_expiration_time(const struct etimer *et);

/*
 * What the mote calls.
 */
int etimer_pending(void);
clock_time_t etimer_next_expiration_time(void);
void etimer_request_poll(void);

#endif /* ETIMER_H_ */
