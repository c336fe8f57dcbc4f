/*
 * The processes that start when the mote boots.
 */
#ifndef AUTOSTART_H_
#define AUTOSTART_H_

#include "process.h"

#define AUTOSTART_PROCESSES(...) \
  PROCESS_SCOPE struct process *const autostart_processes[] = { __VA_ARGS__, NULL }

void autostart_start(struct process *const processes[]);

#endif /* AUTOSTART_H_ */
