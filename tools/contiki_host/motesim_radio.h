/*
 * Functions for programs that tools/export made from a motesim scenario: the
 * radio of motesim, a line of output, and the division of the notation.
 *
 * A packet carries one value of 16 bits to every mote in range. On Contiki it
 * goes by Rime's broadcast (motesim_radio.c); on the host, by the simulated
 * medium of the scenario.
 */
#ifndef MOTESIM_RADIO_H_
#define MOTESIM_RADIO_H_

#include "contiki.h"

#include <stdint.h>

/* Sends a packet. */
void motesim_send(uint16_t value);

/* The number of this mote. Motes are counted from 0. */
uint16_t motesim_self(void);

/*
 * Names the process that gets each packet, as an event MOTESIM_PACKET. Called
 * once, when the mote boots.
 */
void motesim_radio_open(struct process *receiver);

/* The mote that sent the packet; 0 if the event is not a packet from the radio. */
uint16_t motesim_from(process_event_t ev, process_data_t data);

/*
 * The number that an event carries; of a packet, its value. Not for
 * PROCESS_EVENT_TIMER and PROCESS_EVENT_EXITED, whose data are pointers.
 */
uint16_t motesim_word(process_event_t ev, process_data_t data);

#ifdef MOTESIM_HOST

#include "trace.h"
#include "work.h"

#define MOTESIM_PACKET PROCESS_EVENT_MAX
#define MOTESIM_PRINT(value) trace_print(PROCESS_CURRENT(), (uint16_t)(value))

#else /* MOTESIM_HOST */

#include <stdio.h>

/* The host counts the statements that a program runs. Contiki doesn't. */
#ifndef WORK
#define WORK()
#endif

extern process_event_t motesim_packet_event;
#define MOTESIM_PACKET motesim_packet_event

#ifdef PROCESS_NAME_STRING
#define MOTESIM_NAME PROCESS_NAME_STRING(PROCESS_CURRENT())
#else
#define MOTESIM_NAME PROCESS_CURRENT()->name
#endif
#define MOTESIM_PRINT(value) printf("%s %u\n", MOTESIM_NAME, (unsigned)(value))

#endif /* MOTESIM_HOST */

/* Division by 0 gives 0. */
static inline uint16_t
motesim_divide(uint16_t a, uint16_t b)
{
  return b == 0 ? 0 : a / b;
}

static inline uint16_t
motesim_modulo(uint16_t a, uint16_t b)
{
  return b == 0 ? 0 : a % b;
}

#endif /* MOTESIM_RADIO_H_ */
