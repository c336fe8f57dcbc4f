/*
 * Callback timers. When one is due, a function is called as the process that
 * set it.
 */
#ifndef CTIMER_H_
#define CTIMER_H_

#include "etimer.h"

struct ctimer {
  struct ctimer *next;
  struct etimer etimer;
  struct process *p;
  void (*f)(void *);
  void *ptr;
};

extern struct process ctimer_process;

void ctimer_set(struct ctimer *c, clock_time_t interval, void (*f)(void *), void *ptr);
void ctimer_reset(struct ctimer *c);
void ctimer_restart(struct ctimer *c);
void ctimer_stop(struct ctimer *c);
int ctimer_expired(struct ctimer *c);

#endif /* CTIMER_H_ */
