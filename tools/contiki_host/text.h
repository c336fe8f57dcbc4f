/*
 * A text that grows at its end: a trace, or the log of the medium.
 */
#ifndef TEXT_H_
#define TEXT_H_

#include <stddef.h>
#include <stdint.h>
#include <string.h>

struct text {
  char *bytes;
  size_t length;
  size_t room;
};

/* Takes memory, or ends the program with a line on standard error. */
void *take_memory(void *old, size_t size);

/* Makes room for more bytes. */
void text_grow(struct text *text, size_t more);

/* The place for more bytes at the end of a text. */
static inline char *
text_more(struct text *text, size_t more)
{
  if(text->room - text->length < more) {
    text_grow(text, more);
  }
  return text->bytes + text->length;
}

static inline void
text_character(struct text *text, char c)
{
  *text_more(text, 1) = c;
  text->length++;
}

static inline void
text_string(struct text *text, const char *string)
{
  size_t length = strlen(string);

  memcpy(text_more(text, length), string, length);
  text->length += length;
}

void text_number(struct text *text, uint64_t number);

#endif /* TEXT_H_ */
