#include "medium.h"

#include <string.h>

#include "clock.h"
#include "host.h"
#include "run.h"

/* A mote that hears another. */
struct hearer {
  int mote;
  uint32_t lost_every;      /* 0: no packet is lost */
  uint64_t delay;
};

/*
 * The hearers of a mote, by their numbers, and the copies that are on their
 * way to it: a heap, at whose top is the copy that comes next.
 */
struct station {
  struct hearer *hearers;
  int hearer_count;
  struct copy *copies;
  size_t copy_count;
  size_t copy_room;
};

static struct station *stations;
static struct text log_text;
static uint64_t left;

/*---------------------------------------------------------------------------*/
static void
find_hearers(int from)
{
  const struct host_mote *sender = &host_net.motes[from];
  struct station *station = &stations[from];
  struct hearer *hearer;
  int64_t dx, dy, square;
  int to;

  station->hearers = take_memory(NULL, (size_t)host_net.mote_count * sizeof(struct hearer));
  for(to = 0; to < host_net.mote_count; to++) {
    dx = host_net.motes[to].x - sender->x;
    dy = host_net.motes[to].y - sender->y;
    square = dx * dx + dy * dy;
    if(to != from && square <= host_net.range * host_net.range) {
      hearer = &station->hearers[station->hearer_count++];
      hearer->mote = to;
      hearer->lost_every = 0;
      hearer->delay = (uint64_t)(host_net.base + square / host_net.per);
    }
  }
  station->hearers = take_memory(station->hearers, (size_t)station->hearer_count * sizeof(struct hearer));
}

static void
note_loss(const struct host_loss *loss)
{
  struct station *station = &stations[loss->from];
  int i;

  for(i = 0; i < station->hearer_count; i++) {
    if(station->hearers[i].mote == loss->to) {
      station->hearers[i].lost_every = loss->every;
    }
  }
}

void
medium_init(void)
{
  size_t size = (size_t)host_net.mote_count * sizeof(struct station);
  int i;

  stations = take_memory(NULL, size);
  memset(stations, 0, size);
  for(i = 0; i < host_net.mote_count; i++) {
    find_hearers(i);
  }
  for(i = 0; i < host_net.loss_count; i++) {
    note_loss(&host_net.losses[i]);
  }
}
/*---------------------------------------------------------------------------*/
static int
comes_before(const struct copy *a, const struct copy *b)
{
  if(a->arrival != b->arrival) {
    return a->arrival < b->arrival;
  }
  if(a->from != b->from) {
    return a->from < b->from;
  }
  return a->number < b->number;
}

static void
put_copy(struct station *station, struct copy copy)
{
  size_t i, parent;

  if(station->copy_count == station->copy_room) {
    station->copy_room = 2 * station->copy_room + 8;
    station->copies = take_memory(station->copies, station->copy_room * sizeof(struct copy));
  }
  for(i = station->copy_count++; i > 0; i = parent) {
    parent = (i - 1) / 2;
    if(!comes_before(&copy, &station->copies[parent])) {
      break;
    }
    station->copies[i] = station->copies[parent];
  }
  station->copies[i] = copy;
}

struct copy
medium_take(int to)
{
  struct station *station = &stations[to];
  struct copy *copies = station->copies;
  struct copy taken = copies[0];
  struct copy last = copies[--station->copy_count];
  size_t i = 0, child;

  while((child = 2 * i + 1) < station->copy_count) {
    if(child + 1 < station->copy_count && comes_before(&copies[child + 1], &copies[child])) {
      child++;
    }
    if(!comes_before(&copies[child], &last)) {
      break;
    }
    copies[i] = copies[child];
    i = child;
  }
  copies[i] = last;
  return taken;
}

uint64_t
medium_next_arrival(int to)
{
  return stations[to].copy_count > 0 ? stations[to].copies[0].arrival : MEDIUM_NEVER;
}
/*---------------------------------------------------------------------------*/
static void
log_copy(int to)
{
  text_character(&log_text, ' ');
  text_number(&log_text, (uint64_t)to);
  text_character(&log_text, '@');
}

static void
send_copy(const struct hearer *hearer, struct copy copy)
{
  log_copy(hearer->mote);
  if(hearer->lost_every != 0 && (copy.number + 1) % hearer->lost_every == 0) {
    text_string(&log_text, "lost");
    return;
  }
  copy.arrival = clock_time() + hearer->delay;
  text_number(&log_text, copy.arrival);
  if(copy.arrival > host_net.end) {
    left++;
  } else {
    put_copy(&stations[hearer->mote], copy);
    run_turn_at(hearer->mote, copy.arrival);
  }
}

void
medium_send(int from, uint64_t number, uint16_t value)
{
  const struct station *station = &stations[from];
  struct copy copy;
  int i;

  copy.arrival = 0;
  copy.from = from;
  copy.number = number;
  copy.value = value;
  text_number(&log_text, clock_time());
  text_character(&log_text, ' ');
  text_number(&log_text, (uint64_t)from);
  text_character(&log_text, ' ');
  text_number(&log_text, number);
  text_character(&log_text, ' ');
  text_number(&log_text, value);
  for(i = 0; i < station->hearer_count; i++) {
    send_copy(&station->hearers[i], copy);
  }
  text_character(&log_text, '\n');
}

const struct text *
medium_log(void)
{
  return &log_text;
}

uint64_t
medium_left(void)
{
  return left;
}
