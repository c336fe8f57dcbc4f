/*
 * Units of work. So that no program runs for ever, boot and each run of the
 * kernel may spend 10,000 units. A mote that needs one more halts.
 *
 * A program has WORK() before each of its statements, and at the end of the
 * block of a while, where the test is about to be made again.
 */
#ifndef WORK_H_
#define WORK_H_

#define WORK_BUDGET 10000

extern int work_left;

/* Writes the line `halt` and leaves the turn of the mote for good. */
void work_halt(void);

#define WORK()          \
  do {                  \
    if(work_left == 0) {\
      work_halt();      \
    }                   \
    work_left--;        \
  } while(0)

#endif /* WORK_H_ */
