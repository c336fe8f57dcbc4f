#include "ctimer.h"

#include "host.h"

static struct ctimer *ctimer_list;      /* those whose callback is to be run when their event arrives */

const struct host_memory ctimer_memory[] = {
  HOST_MEMORY(ctimer_list), HOST_MEMORY(ctimer_process), HOST_MEMORY_END
};

SYSTEM_PROCESS(ctimer_process, "ctimer");

/*---------------------------------------------------------------------------*/
static void
add_callback(struct ctimer *c)
{
  struct ctimer *other;

  for(other = ctimer_list; other != NULL; other = other->next) {
    if(other == c) {
      return;
    }
  }
  c->next = ctimer_list;
  ctimer_list = c;
}

static void
remove_callback(struct ctimer *c)
{
  struct ctimer **link;

  for(link = &ctimer_list; *link != NULL; link = &(*link)->next) {
    if(*link == c) {
      *link = c->next;
      c->next = NULL;
      return;
    }
  }
}
/*---------------------------------------------------------------------------*/
/* A timer that was stopped after its event was posted isn't found any more. */
static void
run_callback(const struct etimer *et)
{
  struct ctimer *c;

  for(c = ctimer_list; c != NULL && &c->etimer != et; c = c->next);
  if(c != NULL) {
    remove_callback(c);
    PROCESS_CONTEXT_BEGIN(c->p);
    if(c->f != NULL) {
      c->f(c->ptr);
    }
    PROCESS_CONTEXT_END(c->p);
  }
}

PROCESS_THREAD(ctimer_process, ev, data)
{
  (void)process_pt;
  if(ev == PROCESS_EVENT_TIMER) {
    run_callback(data);
  }
  return PT_YIELDED;
}
/*---------------------------------------------------------------------------*/
void
ctimer_set(struct ctimer *c, clock_time_t interval, void (*f)(void *), void *ptr)
{
  c->p = PROCESS_CURRENT();
  c->f = f;
  c->ptr = ptr;
  PROCESS_CONTEXT_BEGIN(&ctimer_process);
  etimer_set(&c->etimer, interval);
  PROCESS_CONTEXT_END(&ctimer_process);
  add_callback(c);
}

void
ctimer_reset(struct ctimer *c)
{
  PROCESS_CONTEXT_BEGIN(&ctimer_process);
  etimer_reset(&c->etimer);
  PROCESS_CONTEXT_END(&ctimer_process);
  add_callback(c);
}

void
ctimer_restart(struct ctimer *c)
{
  PROCESS_CONTEXT_BEGIN(&ctimer_process);
  etimer_restart(&c->etimer);
  PROCESS_CONTEXT_END(&ctimer_process);
  add_callback(c);
}

void
ctimer_stop(struct ctimer *c)
{
  etimer_stop(&c->etimer);
  remove_callback(c);
}

int
ctimer_expired(struct ctimer *c)
{
  return etimer_expired(&c->etimer);
}
