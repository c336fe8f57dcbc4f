#include "trace.h"

#include "clock.h"
#include "host.h"
#include "mote.h"
#include "motesim_radio.h"
#include "text.h"

/*---------------------------------------------------------------------------*/
/* Begins a line of the current mote: the moment, and what happened. */
static struct text *
begin(const char *what)
{
  struct text *trace = mote_trace();

  text_number(trace, clock_time());
  text_character(trace, ' ');
  text_string(trace, what);
  return trace;
}

static void
word(struct text *trace, const char *string)
{
  text_character(trace, ' ');
  text_string(trace, string);
}

static void
number(struct text *trace, uint64_t value)
{
  text_character(trace, ' ');
  text_number(trace, value);
}

static void
end(struct text *trace)
{
  text_character(trace, '\n');
}
/*---------------------------------------------------------------------------*/
static const char *
event_name(process_event_t ev)
{
  const struct host_event *event;

  switch(ev) {
  case PROCESS_EVENT_EXIT:
    return "exit";
  case PROCESS_EVENT_CONTINUE:
    return "continue";
  case PROCESS_EVENT_MSG:
    return "msg";
  case PROCESS_EVENT_COM:
    return "com";
  case PROCESS_EVENT_TIMER:
    return "timer";
  case MOTESIM_PACKET:
    return "packet";
  default:
    for(event = mote_program()->events; event->name != NULL; event++) {
      if(event->event != NULL && *event->event == ev) {
        return event->name;
      }
    }
    return "?";
  }
}

static uint64_t
timer_number(const struct etimer *et)
{
  const struct host_timer *timers = mote_program()->timers;
  uint64_t i;

  for(i = 0; !timers[i].is_end && timers[i].etimer != et; i++);
  return i;
}

static uint64_t
event_word(process_event_t ev, process_data_t data)
{
  return ev == PROCESS_EVENT_TIMER ? timer_number(data) : motesim_word(ev, data);
}

static const char *
target_name(const struct process *p)
{
  return p == PROCESS_BROADCAST ? "all" : p->name;
}
/*---------------------------------------------------------------------------*/
static void
line_of_process(const char *what, const struct process *p)
{
  struct text *trace = begin(what);

  word(trace, p->name);
  end(trace);
}

void
trace_start(const struct process *p)
{
  line_of_process("start", p);
}

void
trace_leave(const struct process *p)
{
  line_of_process("leave", p);
}

void
trace_busy(const struct process *p)
{
  line_of_process("busy", p);
}

void
trace_halt(void)
{
  end(begin("halt"));
}
/*---------------------------------------------------------------------------*/
static void
end_of_post(struct text *trace, const struct process *p, process_event_t ev, process_data_t data)
{
  word(trace, target_name(p));
  word(trace, event_name(ev));
  number(trace, event_word(ev, data));
  end(trace);
}

void
trace_post(uint64_t serial, const struct process *p, process_event_t ev, process_data_t data)
{
  struct text *trace = begin("post");

  number(trace, serial);
  end_of_post(trace, p, ev, data);
}

void
trace_full(const struct process *p, process_event_t ev, process_data_t data)
{
  end_of_post(begin("full"), p, ev, data);
}

static void
line_of_delivery(const char *what, uint64_t serial, const struct process *p)
{
  struct text *trace = begin(what);

  number(trace, serial);
  word(trace, p->name);
  end(trace);
}

void
trace_take(uint64_t serial, const struct process *p)
{
  line_of_delivery("take", serial, p);
}

void
trace_drop(uint64_t serial, const struct process *p)
{
  line_of_delivery("drop", serial, p);
}

void
trace_print(const struct process *p, uint32_t value)
{
  struct text *trace = begin("print");

  word(trace, p->name);
  number(trace, value);
  end(trace);
}
/*---------------------------------------------------------------------------*/
void
trace_send(uint64_t packet, uint16_t value)
{
  struct text *trace = begin("send");

  number(trace, packet);
  number(trace, value);
  end(trace);
}

void
trace_recv(int from, uint64_t packet, uint16_t value)
{
  struct text *trace = begin("recv");

  number(trace, (uint64_t)from);
  number(trace, packet);
  number(trace, value);
  end(trace);
}

static void
line_of_packet(const char *what, int from, uint64_t packet)
{
  struct text *trace = begin(what);

  number(trace, (uint64_t)from);
  number(trace, packet);
  end(trace);
}

void
trace_lost(int from, uint64_t packet)
{
  line_of_packet("lost", from, packet);
}

void
trace_collide(int from, uint64_t packet)
{
  line_of_packet("collide", from, packet);
}

void
trace_deaf(int from, uint64_t packet)
{
  line_of_packet("deaf", from, packet);
}
