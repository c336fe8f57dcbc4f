/*
 * The radio of a mote: the ring in which packets wait, and the process that
 * posts them to the program. The functions for programs are in
 * motesim_radio.h.
 */
#ifndef RADIO_H_
#define RADIO_H_

#include <stdint.h>

#include "process.h"

extern struct process radio_process;

/* A packet that arrives. One that doesn't fit into the ring is lost. */
void radio_receive(int from, uint64_t number, uint16_t value);

#endif /* RADIO_H_ */
