/*
 * The radio of motesim's programs over Rime's broadcast, for Contiki 2.x.
 *
 * A packet has two bytes, the low one first. The programs count motes from 0;
 * Contiki's nodes mostly begin with 1, so node 1 is mote 0 unless
 * MOTESIM_FIRST_NODE says otherwise.
 */
#include "motesim_radio.h"

#include "net/rime.h"

#ifndef MOTESIM_CHANNEL
#define MOTESIM_CHANNEL 129
#endif

#ifndef MOTESIM_FIRST_NODE
#define MOTESIM_FIRST_NODE 1
#endif

#ifndef PROCESS_CONF_NUMEVENTS
#define PROCESS_CONF_NUMEVENTS 32
#endif

/*
 * The event of a packet points to its value and its sender. There is a place
 * for each event that can wait, one for the event that is being handled, and
 * one for the packet that is received meanwhile.
 */
struct packet {
  uint16_t value;
  uint16_t from;
};

#define PACKETS (PROCESS_CONF_NUMEVENTS + 2)

static struct packet packets[PACKETS];
static uint8_t next_packet;

static struct process *packet_receiver;
static struct broadcast_conn connection;

process_event_t motesim_packet_event;

/*---------------------------------------------------------------------------*/
static uint16_t
mote_of(const rimeaddr_t *address)
{
  return (uint16_t)(address->u8[0] + 256u * address->u8[1] - MOTESIM_FIRST_NODE);
}

static void
received(struct broadcast_conn *c, const rimeaddr_t *from)
{
  const uint8_t *bytes = packetbuf_dataptr();
  struct packet *packet = &packets[next_packet];

  (void)c;
  if(packet_receiver == NULL || packetbuf_datalen() != 2) {
    return;
  }
  packet->value = (uint16_t)(bytes[0] + 256u * bytes[1]);
  packet->from = mote_of(from);
  if(process_post(packet_receiver, MOTESIM_PACKET, packet) == PROCESS_ERR_OK) {
    next_packet = (next_packet + 1) % PACKETS;
  }
}

static const struct broadcast_callbacks callbacks = { received, NULL };

/* A program may post the event itself. Then its data is a number, not one of the packets. */
static const struct packet *
packet_of(process_event_t ev, process_data_t data)
{
  uint8_t i;

  if(ev == MOTESIM_PACKET) {
    for(i = 0; i < PACKETS; i++) {
      if(data == &packets[i]) {
        return &packets[i];
      }
    }
  }
  return NULL;
}
/*---------------------------------------------------------------------------*/
void
motesim_radio_open(struct process *receiver)
{
  packet_receiver = receiver;
  motesim_packet_event = process_alloc_event();
  broadcast_open(&connection, MOTESIM_CHANNEL, &callbacks);
}

void
motesim_send(uint16_t value)
{
  uint8_t bytes[2];

  bytes[0] = value & 0xff;
  bytes[1] = value >> 8;
  packetbuf_copyfrom(bytes, sizeof(bytes));
  broadcast_send(&connection);
}

uint16_t
motesim_self(void)
{
  return mote_of(&rimeaddr_node_addr);
}

uint16_t
motesim_from(process_event_t ev, process_data_t data)
{
  const struct packet *packet = packet_of(ev, data);

  return packet == NULL ? 0 : packet->from;
}

uint16_t
motesim_word(process_event_t ev, process_data_t data)
{
  const struct packet *packet = packet_of(ev, data);

  return packet == NULL ? (uint16_t)(uintptr_t)data : packet->value;
}
