#include "mote.h"

#include <setjmp.h>
#include <string.h>

#include "autostart.h"
#include "clock.h"
#include "ctimer.h"
#include "etimer.h"
#include "medium.h"
#include "radio.h"
#include "trace.h"
#include "work.h"

#define RUNS_OF_A_TURN 64

struct mote {
  const struct host_program *program;
  int number;
  int queue_length;
  int has_booted;
  int has_halted;
  char *memory;         /* the mote's copy of the memory of the kernel and its program */
  struct text trace;
};

static struct mote *motes;
static struct mote *current;

int work_left;
static jmp_buf end_of_turn;

/*---------------------------------------------------------------------------*/
int
mote_number(void)
{
  return current->number;
}

const struct host_program *
mote_program(void)
{
  return current->program;
}

int
mote_queue_length(void)
{
  return current->queue_length;
}

struct text *
mote_trace(void)
{
  return &current->trace;
}

const struct text *
mote_trace_of(int mote)
{
  return &motes[mote].trace;
}
/*---------------------------------------------------------------------------*/
/*
 * The memory of a mote. Programs and kernel keep their state in static
 * variables, which exist once for all motes. So each mote has a copy of them,
 * which is brought into place before its turn, as in Cooja.
 */
extern const struct host_memory process_memory[], etimer_memory[], ctimer_memory[], radio_memory[];

/* Each object begins at an address that is right for all types. */
static size_t
room_for(size_t size)
{
  return (size + 7) / 8 * 8;
}

static size_t
size_of(const struct host_memory *memory)
{
  size_t size = 0;

  for(; memory->address != NULL; memory++) {
    size += room_for(memory->size);
  }
  return size;
}

static char *
copy_out(const struct host_memory *memory, char *to)
{
  for(; memory->address != NULL; memory++) {
    memcpy(to, memory->address, memory->size);
    to += room_for(memory->size);
  }
  return to;
}

static const char *
copy_in(const struct host_memory *memory, const char *from)
{
  for(; memory->address != NULL; memory++) {
    memcpy(memory->address, from, memory->size);
    from += room_for(memory->size);
  }
  return from;
}

static void
save_memory(struct mote *mote)
{
  char *to = mote->memory;

  to = copy_out(process_memory, to);
  to = copy_out(etimer_memory, to);
  to = copy_out(ctimer_memory, to);
  to = copy_out(radio_memory, to);
  copy_out(mote->program->memory, to);
}

static void
restore_memory(const struct mote *mote)
{
  const char *from = mote->memory;

  from = copy_in(process_memory, from);
  from = copy_in(etimer_memory, from);
  from = copy_in(ctimer_memory, from);
  from = copy_in(radio_memory, from);
  copy_in(mote->program->memory, from);
}

static void
choose(struct mote *mote)
{
  if(current != mote) {
    if(current != NULL) {
      save_memory(current);
    }
    restore_memory(mote);
    current = mote;
  }
}
/*---------------------------------------------------------------------------*/
void
motes_init(void)
{
  size_t size = (size_t)host_net.mote_count * sizeof(struct mote);
  size_t kernel = size_of(process_memory) + size_of(etimer_memory) + size_of(ctimer_memory) + size_of(radio_memory);
  struct mote *mote;
  int i;

  motes = take_memory(NULL, size);
  memset(motes, 0, size);
  for(i = 0; i < host_net.mote_count; i++) {
    mote = &motes[i];
    mote->number = i;
    mote->program = host_net.motes[i].program;
    mote->queue_length = host_net.motes[i].queue;
    mote->memory = take_memory(NULL, kernel + size_of(mote->program->memory));
    save_memory(mote);
  }
}
/*---------------------------------------------------------------------------*/
void
work_halt(void)
{
  trace_halt();
  current->has_halted = 1;
  longjmp(end_of_turn, 1);
}

static void
boot(void)
{
  work_left = WORK_BUDGET;
  process_init();
  process_start(&etimer_process, NULL);
  process_start(&ctimer_process, NULL);
  process_start(&radio_process, NULL);
  autostart_start(current->program->autostart);
}

static int
more_arrive(void)
{
  return medium_next_arrival(current->number) == clock_time();
}

static void
receive_packets(void)
{
  struct copy copy;
  int collision = 0;

  while(more_arrive()) {
    copy = medium_take(current->number);
    collision = collision || (host_net.collide && more_arrive());
    if(collision) {
      trace_collide(copy.from, copy.number);
    } else {
      radio_receive(copy.from, copy.number, copy.value);
    }
  }
}

static void
run_kernel(void)
{
  int runs = 0;

  while(process_run() > 0 && ++runs < RUNS_OF_A_TURN);
}

static void
take_turn(void)
{
  if(!current->has_booted) {
    current->has_booted = 1;
    boot();
  }
  receive_packets();
  if(etimer_pending() && etimer_next_expiration_time() <= clock_time()) {
    etimer_request_poll();
  }
  run_kernel();
}

static uint64_t
wakes_at(void)
{
  uint64_t next = clock_time() + 1;

  if(process_nevents() > 0) {
    return next;
  }
  if(!etimer_pending()) {
    return MOTE_NEVER;
  }
  return etimer_next_expiration_time() > next ? etimer_next_expiration_time() : next;
}

uint64_t
mote_turn(int mote)
{
  choose(&motes[mote]);
  if(!current->has_halted && setjmp(end_of_turn) == 0) {
    take_turn();
  }
  if(current->has_halted) {
    while(more_arrive()) {
      medium_take(current->number);
    }
    return MOTE_NEVER;
  }
  return wakes_at();
}
