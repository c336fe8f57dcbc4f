/*
 * Protothreads: threads without a stack, which only keep the place where they
 * wait.
 *
 * There is one difference from Contiki: a protothread that is called again
 * where it waits spends a unit of work, for the waiting statement or for the
 * PT_SPAWN whose thread waits. PT_BEGIN spends it, so a program has WORK() only
 * before its own statements.
 */
#ifndef PT_H_
#define PT_H_

#include "lc.h"
#include "work.h"

struct pt {
  lc_t lc;
};

#define PT_WAITING 0
#define PT_YIELDED 1
#define PT_EXITED  2
#define PT_ENDED   3

#define PT_THREAD(name_args) char name_args

#define PT_INIT(pt) LC_INIT((pt)->lc)

#define PT_BEGIN(pt)          \
  {                           \
    char PT_YIELD_FLAG = 1;   \
    (void)PT_YIELD_FLAG;      \
    if((pt)->lc != 0) {       \
      WORK();                 \
    }                         \
    LC_RESUME((pt)->lc)

#define PT_END(pt)            \
    LC_END((pt)->lc)          \
    PT_INIT(pt);              \
    return PT_ENDED;          \
  }

#define PT_WAIT_UNTIL(pt, condition) \
  do {                               \
    LC_SET((pt)->lc)                 \
    if(!(condition)) {               \
      return PT_WAITING;             \
    }                                \
  } while(0)

#define PT_WAIT_WHILE(pt, condition) PT_WAIT_UNTIL((pt), !(condition))

#define PT_YIELD(pt)                 \
  do {                               \
    PT_YIELD_FLAG = 0;               \
    LC_SET((pt)->lc)                 \
    if(PT_YIELD_FLAG == 0) {         \
      return PT_YIELDED;             \
    }                                \
  } while(0)

#define PT_YIELD_UNTIL(pt, condition)          \
  do {                                         \
    PT_YIELD_FLAG = 0;                         \
    LC_SET((pt)->lc)                           \
    if(PT_YIELD_FLAG == 0 || !(condition)) {   \
      return PT_YIELDED;                       \
    }                                          \
  } while(0)

#define PT_RESTART(pt)   \
  do {                   \
    PT_INIT(pt);         \
    return PT_WAITING;   \
  } while(0)

#define PT_EXIT(pt)      \
  do {                   \
    PT_INIT(pt);         \
    return PT_EXITED;    \
  } while(0)

/* True as long as the protothread has neither exited nor ended. */
#define PT_SCHEDULE(call) ((call) < PT_EXITED)

#define PT_WAIT_THREAD(pt, thread) PT_WAIT_WHILE((pt), PT_SCHEDULE(thread))

#define PT_SPAWN(pt, child, thread)  \
  do {                               \
    PT_INIT(child);                  \
    PT_WAIT_THREAD((pt), (thread));  \
  } while(0)

#endif /* PT_H_ */
