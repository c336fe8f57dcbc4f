/*
 * Counting semaphores for protothreads. The count has 16 bits and wraps.
 */
#ifndef PT_SEM_H_
#define PT_SEM_H_

#include <stdint.h>

#include "pt.h"

struct pt_sem {
  uint16_t count;
};

#define PT_SEM_INIT(s, c)  ((s)->count = (c))
#define PT_SEM_COUNT(s)    ((s)->count)
#define PT_SEM_SIGNAL(pt, s) (++(s)->count)

#define PT_SEM_WAIT(pt, s)                \
  do {                                    \
    PT_WAIT_UNTIL((pt), (s)->count > 0);  \
    --(s)->count;                         \
  } while(0)

#endif /* PT_SEM_H_ */
