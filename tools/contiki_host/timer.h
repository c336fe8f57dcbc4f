/*
 * Timers: a start and an interval.
 */
#ifndef TIMER_H_
#define TIMER_H_

#include "clock.h"

struct timer {
  clock_time_t start;
  clock_time_t interval;
};

void timer_set(struct timer *t, clock_time_t interval);
void timer_reset(struct timer *t);
void timer_restart(struct timer *t);
int timer_expired(const struct timer *t);
clock_time_t timer_expiration_time(const struct timer *t);

#endif /* TIMER_H_ */
