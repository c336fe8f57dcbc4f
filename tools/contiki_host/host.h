/*
 * The tables that describe the programs and the net to the host. tools/export
 * writes them: PROGRAM_host.c includes PROGRAM.c and has the tables of that
 * program; net.c has those of the net.
 */
#ifndef HOST_H_
#define HOST_H_

#include <stddef.h>
#include <stdint.h>

#include "etimer.h"
#include "process.h"

/*
 * An object that a program, or a file of the kernel, keeps from call to call.
 * Each mote has its own copy, which is in place during the mote's turns.
 */
struct host_memory {
  void *address;
  size_t size;
};

#define HOST_MEMORY(object) { &(object), sizeof(object) }
#define HOST_MEMORY_END     { NULL, 0 }

/* An event that a program declares, and its name. One that is never used has no variable. */
struct host_event {
  const process_event_t *event;
  const char *name;
};

/* A timer, at the place of its number. One that is never used isn't there. */
struct host_timer {
  const struct etimer *etimer;
  int is_end;
};

#define HOST_ETIMER(t)  { &(t), 0 }
#define HOST_CTIMER(c)  { &(c).etimer, 0 }
#define HOST_NO_TIMER   { NULL, 0 }
#define HOST_TIMERS_END { NULL, 1 }

struct host_program {
  const char *name;
  const struct host_memory *memory;
  struct process *const *processes;     /* each table of processes ends with NULL */
  struct process *const *autostart;
  struct process *receiver;             /* NULL if the program has none */
  const struct host_event *events;
  const struct host_timer *timers;
};

struct host_mote {
  int x;
  int y;
  const struct host_program *program;
  int queue;                            /* the length of the event queue */
};

/* From one mote to another, each packet is lost whose number plus one is divisible by `every`. */
struct host_loss {
  int from;
  int to;
  uint32_t every;
};

struct host_net {
  uint64_t end;
  int64_t range;
  int64_t base;
  int64_t per;
  int collide;
  const struct host_mote *motes;
  int mote_count;
  const struct host_loss *losses;
  int loss_count;
};

extern const struct host_net host_net;

#endif /* HOST_H_ */
