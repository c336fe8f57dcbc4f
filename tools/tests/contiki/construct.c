#include "contiki.h"
#include "motesim_radio.h"

static process_event_t full;

static struct pt_sem items;

PROCESS(a_process, "a");
PROCESS(b_process, "b");
AUTOSTART_PROCESSES(&b_process, &a_process);

/* Process a */
static uint16_t n = 40000U;         /* how many */
static struct etimer t;
static struct ctimer c;
static struct pt rest_pt;

static void c_callback(void *ptr);
/*---------------------------------------------------------------------------*/
/* The word of an event; that of a timer or of an exited process is its number. */
static uint16_t
word_of(process_event_t ev, process_data_t data)
{
  if(ev == PROCESS_EVENT_TIMER) {
    if(data == &t) {
      return 0;
    }
  }
  if(ev == PROCESS_EVENT_EXITED) {
    if(data == &a_process) {
      return 0;
    }
    if(data == &b_process) {
      return 1;
    }
  }
  return motesim_word(ev, data);
}

static uint8_t init_done;
/*---------------------------------------------------------------------------*/
/* Done once, by the process that starts first. */
static void
init_program(void)
{
  if(!init_done) {
    init_done = 1;
    full = process_alloc_event();
    PT_SEM_INIT(&items, 2);
    motesim_radio_open(&b_process);
  }
}
/*---------------------------------------------------------------------------*/
static
PT_THREAD(rest(struct pt *pt, process_event_t ev))
{
  PT_BEGIN(pt);

  PT_YIELD_UNTIL(pt, ev == full);
  process_post(PROCESS_CURRENT(), PROCESS_EVENT_CONTINUE, NULL);
  PT_YIELD_UNTIL(pt, ev == PROCESS_EVENT_CONTINUE);

  PT_END(pt);
}
/*---------------------------------------------------------------------------*/
static void
c_callback(void *ptr)
{
  (void)ptr;
  MOTESIM_PRINT(1);
}
/*---------------------------------------------------------------------------*/
static void
a_poll(void)
{
  PT_SEM_SIGNAL(NULL, &items);
}
/*---------------------------------------------------------------------------*/
static void
a_exit(process_data_t data)
{
  MOTESIM_PRINT((uint16_t)(uintptr_t)data);
}
/*---------------------------------------------------------------------------*/
PROCESS_THREAD(a_process, ev, data)
{
  PROCESS_POLLHANDLER(a_poll());
  PROCESS_EXITHANDLER(a_exit(data));
  PROCESS_BEGIN();

  etimer_set(&t, n / 2);
  ctimer_set(&c, 5, c_callback, NULL);
  /* wait for it */
  PROCESS_YIELD_UNTIL(ev == PROCESS_EVENT_TIMER && data == &t);
  PT_SPAWN(process_pt, &rest_pt, rest(&rest_pt, ev));
  if((ev == MOTESIM_PACKET && motesim_word(ev, data) > n)
     || !process_is_running(&b_process)) {
    n = n + word_of(ev, data);
  } else {
    n = process_post(&b_process, full,
                     (process_data_t)(uintptr_t)(uint16_t)((unsigned)n * n));
  }
  PT_SEM_WAIT(process_pt, &items);

  PROCESS_END();
}
/*---------------------------------------------------------------------------*/
PROCESS_THREAD(b_process, ev, data)
{
  PROCESS_BEGIN();

  init_program();

  while(1) {
    PT_WAIT_WHILE(process_pt, ev == PROCESS_EVENT_EXITED && data == &a_process);
    process_post(PROCESS_BROADCAST, PROCESS_EVENT_MSG, NULL);
    PT_RESTART(process_pt);
  }

  PROCESS_END();
}
/*---------------------------------------------------------------------------*/
