#include "text.h"

#include <stdio.h>
#include <stdlib.h>

/* Of a number of 64 bits. */
#define MOST_DIGITS 20

void *
take_memory(void *old, size_t size)
{
  void *memory = realloc(old, size > 0 ? size : 1);

  if(memory == NULL) {
    fputs("host: out of memory\n", stderr);
    exit(1);
  }
  return memory;
}

void
text_grow(struct text *text, size_t more)
{
  text->room = 2 * text->room + more + 64;
  text->bytes = take_memory(text->bytes, text->room);
}

void
text_number(struct text *text, uint64_t number)
{
  char *bytes;
  uint64_t power = 10;
  size_t length = 1, i;

  while(length < MOST_DIGITS && number >= power) {
    power *= 10;
    length++;
  }
  bytes = text_more(text, length);
  for(i = length; i > 0; i--) {
    bytes[i - 1] = (char)('0' + number % 10);
    number /= 10;
  }
  text->length += length;
}
