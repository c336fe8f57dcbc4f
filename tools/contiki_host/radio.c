#include "radio.h"

#include "host.h"
#include "medium.h"
#include "mote.h"
#include "motesim_radio.h"
#include "trace.h"

#define RING_LENGTH 8

struct packet {
  uint64_t number;
  int from;
  uint16_t value;
};

static struct packet ring[RING_LENGTH];
static unsigned char ring_count;
static uint64_t sent;

const struct host_memory radio_memory[] = {
  HOST_MEMORY(ring), HOST_MEMORY(ring_count), HOST_MEMORY(sent), HOST_MEMORY(radio_process), HOST_MEMORY_END
};

SYSTEM_PROCESS(radio_process, "radio");

/*---------------------------------------------------------------------------*/
/* The data of a packet's event: the value in the low 16 bits, the sender above them. */
static process_data_t
data_of(const struct packet *packet)
{
  return (process_data_t)((uintptr_t)packet->from << 16 | packet->value);
}

uint16_t
motesim_word(process_event_t ev, process_data_t data)
{
  (void)ev;
  return (uint16_t)(uintptr_t)data;
}

uint16_t
motesim_from(process_event_t ev, process_data_t data)
{
  return ev == MOTESIM_PACKET ? (uint16_t)((uintptr_t)data >> 16) : 0;
}

uint16_t
motesim_self(void)
{
  return (uint16_t)mote_number();
}

/* The host takes the receiver from the table of the program. */
void
motesim_radio_open(struct process *receiver)
{
  (void)receiver;
}

void
motesim_send(uint16_t value)
{
  trace_send(sent, value);
  medium_send(mote_number(), sent, value);
  sent++;
}
/*---------------------------------------------------------------------------*/
void
radio_receive(int from, uint64_t number, uint16_t value)
{
  struct packet *packet;

  if(ring_count == RING_LENGTH) {
    trace_lost(from, number);
    return;
  }
  trace_recv(from, number, value);
  packet = &ring[ring_count++];
  packet->from = from;
  packet->number = number;
  packet->value = value;
  process_poll(&radio_process);
}

static void
empty_ring(void)
{
  struct process *receiver = mote_program()->receiver;
  int i;

  for(i = 0; i < ring_count; i++) {
    if(receiver == NULL) {
      trace_deaf(ring[i].from, ring[i].number);
    } else {
      process_post(receiver, MOTESIM_PACKET, data_of(&ring[i]));
    }
  }
  ring_count = 0;
}

PROCESS_THREAD(radio_process, ev, data)
{
  (void)process_pt;
  (void)data;
  if(ev == PROCESS_EVENT_POLL) {
    empty_ring();
  }
  return PT_YIELDED;
}
