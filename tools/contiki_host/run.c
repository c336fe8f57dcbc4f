#include "run.h"

#include <stdlib.h>

#include "clock.h"
#include "host.h"
#include "medium.h"
#include "mote.h"
#include "text.h"

static clock_time_t now;

/* The moment of each mote's next turn, and the motes whose turn is next. */
static uint64_t *turns;
static int *due;
static int due_count;

/*---------------------------------------------------------------------------*/
clock_time_t
clock_time(void)
{
  return now;
}

void
run_turn_at(int mote, uint64_t moment)
{
  if(moment < turns[mote]) {
    turns[mote] = moment;
  }
}

/* Finds the moment of the next turn, and all motes that take one then. */
static uint64_t
find_due(void)
{
  uint64_t next = UINT64_MAX;
  int i;

  due_count = 0;
  for(i = 0; i < host_net.mote_count; i++) {
    if(turns[i] < next) {
      next = turns[i];
      due_count = 0;
    }
    if(turns[i] == next) {
      due[due_count++] = i;
    }
  }
  return next;
}

static void
take_turn(int mote)
{
  turns[mote] = UINT64_MAX;
  run_turn_at(mote, mote_turn(mote));
  run_turn_at(mote, medium_next_arrival(mote));
}

/*
 * At each moment all motes that have something to do take their turns. What a
 * mote sends arrives later than this moment, so their order doesn't matter.
 */
void
run_net(void)
{
  int i;

  turns = take_memory(NULL, (size_t)host_net.mote_count * sizeof(uint64_t));
  due = take_memory(NULL, (size_t)host_net.mote_count * sizeof(int));
  for(i = 0; i < host_net.mote_count; i++) {
    turns[i] = 0;
  }
  for(now = find_due(); now <= host_net.end; now = find_due()) {
    for(i = 0; i < due_count; i++) {
      take_turn(due[i]);
    }
  }
  free(due);
  free(turns);
}
