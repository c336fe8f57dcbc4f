#include "timer.h"

void
timer_set(struct timer *t, clock_time_t interval)
{
  t->interval = interval;
  t->start = clock_time();
}

/* Continues from the last expiration, so that a period stays steady. */
void
timer_reset(struct timer *t)
{
  t->start += t->interval;
}

/* Continues from now. */
void
timer_restart(struct timer *t)
{
  t->start = clock_time();
}

int
timer_expired(const struct timer *t)
{
  return timer_expiration_time(t) <= clock_time();
}

clock_time_t
timer_expiration_time(const struct timer *t)
{
  return t->start + t->interval;
}
