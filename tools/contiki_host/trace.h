/*
 * The trace of a mote. The kernel calls these functions as it works; each
 * writes a line, which begins with the moment.
 */
#ifndef TRACE_H_
#define TRACE_H_

#include <stdint.h>

#include "process.h"

void trace_start(const struct process *p);
void trace_leave(const struct process *p);
void trace_busy(const struct process *p);
void trace_halt(void);

void trace_post(uint64_t serial, const struct process *p, process_event_t ev, process_data_t data);
void trace_full(const struct process *p, process_event_t ev, process_data_t data);
void trace_take(uint64_t serial, const struct process *p);
void trace_drop(uint64_t serial, const struct process *p);

void trace_print(const struct process *p, uint32_t value);

void trace_send(uint64_t number, uint16_t value);
void trace_recv(int from, uint64_t number, uint16_t value);
void trace_lost(int from, uint64_t number);
void trace_collide(int from, uint64_t number);
void trace_deaf(int from, uint64_t number);

#endif /* TRACE_H_ */
