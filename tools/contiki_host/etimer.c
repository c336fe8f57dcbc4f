#include "etimer.h"

#include "host.h"

static struct etimer *timer_list;

const struct host_memory etimer_memory[] = {
  HOST_MEMORY(timer_list), HOST_MEMORY(etimer_process), HOST_MEMORY_END
};

SYSTEM_PROCESS(etimer_process, "etimer");

/*---------------------------------------------------------------------------*/
/* The link to a timer on the list, or the one at its end if it isn't there. */
static struct etimer **
find_link(const struct etimer *et)
{
  struct etimer **link;

  for(link = &timer_list; *link != NULL && *link != et; link = &(*link)->next);
  return link;
}

/* A timer without an owner has expired. */
static void
remove_timer(struct etimer *et)
{
  struct etimer **link = find_link(et);

  if(*link != NULL) {
    *link = et->next;
    et->next = NULL;
  }
  et->p = PROCESS_NONE;
}

/* The current process becomes the owner. A timer on the list keeps its place; another goes to the front. */
static void
add_timer(struct etimer *et)
{
  if(*find_link(et) == NULL) {
    et->next = timer_list;
    timer_list = et;
  }
  et->p = PROCESS_CURRENT();
  etimer_request_poll();
}
/*---------------------------------------------------------------------------*/
/*
 * Posts the event of each timer that is due. After an event is accepted, the
 * walk begins again at the front. A timer that meets a full queue stays on the
 * list, and is offered again at the next poll.
 */
static void
post_due_timers(void)
{
  struct etimer *et = timer_list;

  while(et != NULL) {
    if(!timer_expired(&et->timer)) {
      et = et->next;
    } else if(process_post(et->p, PROCESS_EVENT_TIMER, et) == PROCESS_ERR_OK) {
      remove_timer(et);
      et = timer_list;
    } else {
      etimer_request_poll();
      et = et->next;
    }
  }
}

/* Removes the timers of an exiting process from the list. They keep their owner. */
static void
purge_timers(const struct process *p)
{
  struct etimer **link = &timer_list;

  while(*link != NULL) {
    if((*link)->p == p) {
      *link = (*link)->next;
    } else {
      link = &(*link)->next;
    }
  }
}

PROCESS_THREAD(etimer_process, ev, data)
{
  (void)process_pt;
  if(ev == PROCESS_EVENT_POLL) {
    post_due_timers();
  } else if(ev == PROCESS_EVENT_EXITED) {
    purge_timers(data);
  }
  return PT_YIELDED;
}
/*---------------------------------------------------------------------------*/
void
etimer_set(struct etimer *et, clock_time_t interval)
{
  timer_set(&et->timer, interval);
  add_timer(et);
}

void
etimer_reset(struct etimer *et)
{
  timer_reset(&et->timer);
  add_timer(et);
}

void
etimer_restart(struct etimer *et)
{
  timer_restart(&et->timer);
  add_timer(et);
}

void
etimer_stop(struct etimer *et)
{
  remove_timer(et);
}

int
etimer_expired(struct etimer *et)
{
  return et->p == PROCESS_NONE;
}

clock_time_t
etimer_expiration_time(const struct etimer *et)
{
  return timer_expiration_time(&et->timer);
}
/*---------------------------------------------------------------------------*/
int
etimer_pending(void)
{
  return timer_list != NULL;
}

clock_time_t
etimer_next_expiration_time(void)
{
  const struct etimer *et;
  clock_time_t next = etimer_expiration_time(timer_list);

  for(et = timer_list->next; et != NULL; et = et->next) {
    if(etimer_expiration_time(et) < next) {
      next = etimer_expiration_time(et);
    }
  }
  return next;
}

void
etimer_request_poll(void)
{
  process_poll(&etimer_process);
}
