#include "autostart.h"

void
autostart_start(struct process *const processes[])
{
  int i;

  for(i = 0; processes[i] != NULL; i++) {
    process_start(processes[i], NULL);
  }
}
