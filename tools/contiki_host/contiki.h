/*
 * The header that a program for Contiki includes. What it declares is what
 * Contiki 2.x declares; the files behind it are the host's own.
 */
#ifndef CONTIKI_H_
#define CONTIKI_H_

#include <stddef.h>
#include <stdint.h>
#include <stdio.h>

/* Files for Contiki can be compiled against these headers, too. Then this is not defined. */
#ifndef MOTESIM_FOR_CONTIKI
#define MOTESIM_HOST 1
#endif

#include "clock.h"
#include "pt.h"
#include "pt-sem.h"
#include "process.h"
#include "autostart.h"
#include "timer.h"
#include "etimer.h"
#include "ctimer.h"

#endif /* CONTIKI_H_ */
