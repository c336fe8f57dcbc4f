/*
 * Processes and events.
 */
#ifndef PROCESS_H_
#define PROCESS_H_

#include <stddef.h>
#include <stdint.h>

#include "pt.h"

typedef unsigned char process_event_t;
typedef void *process_data_t;
typedef unsigned char process_num_events_t;

#define PROCESS_ERR_OK   0
#define PROCESS_ERR_FULL 1

#define PROCESS_NONE      NULL
#define PROCESS_BROADCAST NULL

#define PROCESS_EVENT_NONE            128
#define PROCESS_EVENT_INIT            129
#define PROCESS_EVENT_POLL            130
#define PROCESS_EVENT_EXIT            131
#define PROCESS_EVENT_SERVICE_REMOVED 132
#define PROCESS_EVENT_CONTINUE        133
#define PROCESS_EVENT_MSG             134
#define PROCESS_EVENT_EXITED          135
#define PROCESS_EVENT_TIMER           136
#define PROCESS_EVENT_COM             137
#define PROCESS_EVENT_MAX             138

#define PROCESS_STATE_NONE    0
#define PROCESS_STATE_RUNNING 1
#define PROCESS_STATE_CALLED  2

struct process {
  struct process *next;
  const char *name;
  PT_THREAD((*thread)(struct pt *, process_event_t, process_data_t));
  struct pt pt;
  unsigned char state;
  unsigned char needspoll;
  unsigned char exiting;      /* from the beginning of its exit until it leaves the list */
  uint64_t incarnation;       /* which start of a process this is, on its mote; 0 off the list */
};

/*
 * What a body uses.
 */
#define PROCESS_BEGIN() \
  (void)ev;             \
  (void)data;           \
  PT_BEGIN(process_pt)
#define PROCESS_END()                   PT_END(process_pt)
#define PROCESS_YIELD()                 PT_YIELD(process_pt)
#define PROCESS_YIELD_UNTIL(c)          PT_YIELD_UNTIL(process_pt, c)
#define PROCESS_WAIT_EVENT()            PROCESS_YIELD()
#define PROCESS_WAIT_EVENT_UNTIL(c)     PROCESS_YIELD_UNTIL(c)
#define PROCESS_WAIT_UNTIL(c)           PT_WAIT_UNTIL(process_pt, c)
#define PROCESS_WAIT_WHILE(c)           PT_WAIT_WHILE(process_pt, c)
#define PROCESS_EXIT()                  PT_EXIT(process_pt)
#define PROCESS_PT_SPAWN(pt, thread)    PT_SPAWN(process_pt, pt, thread)
#define PROCESS_PAUSE()                                            \
  do {                                                             \
    process_post(PROCESS_CURRENT(), PROCESS_EVENT_CONTINUE, NULL); \
    PROCESS_WAIT_EVENT_UNTIL(ev == PROCESS_EVENT_CONTINUE);        \
  } while(0)
#define PROCESS_POLLHANDLER(handler) if(ev == PROCESS_EVENT_POLL) { handler; }
#define PROCESS_EXITHANDLER(handler) if(ev == PROCESS_EVENT_EXIT) { handler; }

/*
 * What declares a process. On the host it is static, since programs of several
 * motes share one executable.
 */
#ifdef MOTESIM_FOR_CONTIKI
#define PROCESS_SCOPE
#define PROCESS_NAME(name) extern struct process name
#else
#define PROCESS_SCOPE static
#define PROCESS_NAME(name) static struct process name
#endif

#define PROCESS_THREAD(name, ev, data)                   \
  static PT_THREAD(process_thread_##name(                \
    struct pt *process_pt, process_event_t ev, process_data_t data))
#define PROCESS(name, strname)    \
  PROCESS_THREAD(name, ev, data); \
  PROCESS_SCOPE struct process name = PROCESS_INIT(name, strname)

/* A process of the system. The whole host knows it. */
#define SYSTEM_PROCESS(name, strname) \
  PROCESS_THREAD(name, ev, data);     \
  struct process name = PROCESS_INIT(name, strname)

#define PROCESS_INIT(name, strname) \
  { NULL, strname, process_thread_##name, { 0 }, PROCESS_STATE_NONE, 0, 0, 0 }

extern struct process *process_current;
#define PROCESS_CURRENT() process_current

/* Code between these two is run as the process p. */
#define PROCESS_CONTEXT_BEGIN(p) { \
  struct process *interrupted_process = PROCESS_CURRENT(); \
  process_current = (p);
#define PROCESS_CONTEXT_END(p) \
  process_current = interrupted_process; }

/*
 * What a program calls.
 */
process_event_t process_alloc_event(void);
void process_start(struct process *p, process_data_t data);
void process_exit(struct process *p);
int process_post(struct process *p, process_event_t ev, process_data_t data);
void process_post_synch(struct process *p, process_event_t ev, process_data_t data);
void process_poll(struct process *p);
int process_is_running(struct process *p);

/*
 * What the mote calls.
 */
void process_init(void);
int process_run(void);
int process_nevents(void);

#endif /* PROCESS_H_ */
