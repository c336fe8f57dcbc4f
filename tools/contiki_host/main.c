/*
 * Runs the net of net.c, and writes the report.
 */
#include <inttypes.h>
#include <stdio.h>

#include "host.h"
#include "medium.h"
#include "mote.h"
#include "run.h"
#include "text.h"

static void
write_text(const struct text *text)
{
  if(text->length > 0) {
    fwrite(text->bytes, 1, text->length, stdout);
  }
}

static int
write_report(void)
{
  int i;

  for(i = 0; i < host_net.mote_count; i++) {
    printf("mote %d %s\n", i, host_net.motes[i].program->name);
    write_text(mote_trace_of(i));
  }
  printf("medium\n");
  write_text(medium_log());
  printf("left %" PRIu64 "\n", medium_left());
  return fflush(stdout) == 0 && !ferror(stdout);
}

int
main(void)
{
  medium_init();
  motes_init();
  run_net();
  if(!write_report()) {
    fputs("host: write fault\n", stderr);
    return 1;
  }
  return 0;
}
