/*
 * The kernel: the process list, polls, and the queue of posted events.
 */
#include "process.h"

#include "host.h"
#include "mote.h"
#include "text.h"
#include "trace.h"
#include "work.h"

/* 64 processes of the program, and the three of the system. */
#define PROCESS_MAX 67

struct event {
  struct process *receiver;
  process_data_t data;
  process_event_t ev;
};

struct process *process_current;

static struct process *process_list;      /* the newest first */
static uint64_t incarnations;             /* the number of starts */
static unsigned char poll_requested;
static process_event_t last_event;

static struct event *events;              /* as many places as the queue has */
static process_num_events_t first_event;
static process_num_events_t event_count;
static uint64_t accepted;                 /* the number of accepted events */

const struct host_memory process_memory[] = {
  HOST_MEMORY(process_current), HOST_MEMORY(process_list), HOST_MEMORY(incarnations),
  HOST_MEMORY(poll_requested), HOST_MEMORY(last_event), HOST_MEMORY(events),
  HOST_MEMORY(first_event), HOST_MEMORY(event_count), HOST_MEMORY(accepted), HOST_MEMORY_END
};

/*---------------------------------------------------------------------------*/
/*
 * A walk visits the processes that are on the list when it begins, in that
 * order. It keeps the incarnation of each: a process that has left before its
 * turn isn't reached, even if it was started again since.
 */
struct walk {
  struct process *process[PROCESS_MAX];
  uint64_t incarnation[PROCESS_MAX];
  int count;
};

static void
walk_begin(struct walk *walk)
{
  struct process *p;

  walk->count = 0;
  for(p = process_list; p != NULL; p = p->next) {
    walk->process[walk->count] = p;
    walk->incarnation[walk->count] = p->incarnation;
    walk->count++;
  }
}

static int
walk_reaches(const struct walk *walk, int i)
{
  return walk->process[i]->incarnation == walk->incarnation[i];
}
/*---------------------------------------------------------------------------*/
static int
is_on_list(const struct process *p)
{
  return p->incarnation != 0;
}

static int
is_busy(const struct process *p)
{
  return p->state == PROCESS_STATE_CALLED || p->exiting;
}

static void
leave_list(struct process *p)
{
  struct process **link;

  for(link = &process_list; *link != p; link = &(*link)->next);
  *link = p->next;
  p->next = NULL;
  p->incarnation = 0;
}
/*---------------------------------------------------------------------------*/
static void exit_process(struct process *p, struct process *by);

static void
call_process(struct process *p, process_event_t ev, process_data_t data)
{
  char result;

  if(p->state != PROCESS_STATE_RUNNING) {
    return;
  }
  WORK();
  PROCESS_CONTEXT_BEGIN(p);
  p->state = PROCESS_STATE_CALLED;
  result = p->thread(&p->pt, ev, data);
  if(result == PT_EXITED || result == PT_ENDED || ev == PROCESS_EVENT_EXIT) {
    exit_process(p, p);
  } else {
    p->state = PROCESS_STATE_RUNNING;
  }
  PROCESS_CONTEXT_END(p);
}

/*
 * The other processes are called with EXITED first. Then p is run once more,
 * unless it exits by itself, and leaves the list.
 */
static void
exit_process(struct process *p, struct process *by)
{
  struct walk walk;
  int i;

  p->state = PROCESS_STATE_NONE;
  p->exiting = 1;
  walk_begin(&walk);
  for(i = 0; i < walk.count; i++) {
    if(walk.process[i] != p && walk_reaches(&walk, i)) {
      call_process(walk.process[i], PROCESS_EVENT_EXITED, p);
    }
  }
  if(p != by) {
    WORK();
    PROCESS_CONTEXT_BEGIN(p);
    p->thread(&p->pt, PROCESS_EVENT_EXIT, NULL);
    PROCESS_CONTEXT_END(p);
  }
  leave_list(p);
  p->exiting = 0;
  trace_leave(p);
}
/*---------------------------------------------------------------------------*/
void
process_init(void)
{
  last_event = PROCESS_EVENT_MAX + 1;       /* PROCESS_EVENT_MAX itself is the radio's */
  events = take_memory(NULL, (size_t)mote_queue_length() * sizeof(struct event));
}

process_event_t
process_alloc_event(void)
{
  return last_event++;
}

void
process_start(struct process *p, process_data_t data)
{
  if(is_busy(p)) {
    trace_busy(p);
    return;
  }
  if(is_on_list(p)) {
    return;
  }
  p->next = process_list;
  process_list = p;
  p->incarnation = ++incarnations;
  p->state = PROCESS_STATE_RUNNING;
  PT_INIT(&p->pt);
  trace_start(p);
  process_post_synch(p, PROCESS_EVENT_INIT, data);
}

void
process_exit(struct process *p)
{
  if(is_busy(p)) {
    trace_busy(p);
  } else if(is_on_list(p)) {
    exit_process(p, PROCESS_CURRENT());
  }
}

int
process_is_running(struct process *p)
{
  return p->state != PROCESS_STATE_NONE;
}

void
process_poll(struct process *p)
{
  if(process_is_running(p)) {
    p->needspoll = 1;
    poll_requested = 1;
  }
}

void
process_post_synch(struct process *p, process_event_t ev, process_data_t data)
{
  call_process(p, ev, data);
}

int
process_post(struct process *p, process_event_t ev, process_data_t data)
{
  struct event *event;

  if(event_count == mote_queue_length()) {
    trace_full(p, ev, data);
    return PROCESS_ERR_FULL;
  }
  trace_post(accepted, p, ev, data);
  event = &events[(first_event + event_count) % mote_queue_length()];
  event->receiver = p;
  event->ev = ev;
  event->data = data;
  event_count++;
  accepted++;
  return PROCESS_ERR_OK;
}
/*---------------------------------------------------------------------------*/
static void
do_poll(void)
{
  struct walk walk;
  struct process *p;
  int i;

  poll_requested = 0;
  walk_begin(&walk);
  for(i = 0; i < walk.count; i++) {
    p = walk.process[i];
    if(walk_reaches(&walk, i) && p->needspoll) {
      p->needspoll = 0;
      call_process(p, PROCESS_EVENT_POLL, NULL);
    }
  }
}

static void
deliver(const struct event *event, uint64_t serial, struct process *p, int is_there)
{
  if(is_there) {
    trace_take(serial, p);
    call_process(p, event->ev, event->data);
  } else {
    trace_drop(serial, p);
  }
}

static void
do_event(void)
{
  struct event event;
  struct walk walk;
  uint64_t serial;
  int i;

  if(event_count == 0) {
    return;
  }
  /* The place in the queue is free before anybody is called. */
  event = events[first_event];
  serial = accepted - event_count;
  first_event = (first_event + 1) % mote_queue_length();
  event_count--;

  if(event.receiver != PROCESS_BROADCAST) {
    deliver(&event, serial, event.receiver, is_on_list(event.receiver));
    return;
  }
  walk_begin(&walk);
  for(i = 0; i < walk.count; i++) {
    if(poll_requested) {
      do_poll();
    }
    deliver(&event, serial, walk.process[i], walk_reaches(&walk, i));
  }
}

/* The work that is left: the events in the queue, and one more if a poll is requested. */
int
process_nevents(void)
{
  return event_count + poll_requested;
}

/* One run of the kernel. */
int
process_run(void)
{
  work_left = WORK_BUDGET;
  if(poll_requested) {
    do_poll();
  }
  do_event();
  return process_nevents();
}
