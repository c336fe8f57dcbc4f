/* What the radio over Rime uses of Contiki 2.x, declared from its manual, so that the file can be compiled here. */
#ifndef RIME_H_
#define RIME_H_

#include <stdint.h>

typedef union {
  uint8_t u8[2];
} rimeaddr_t;

extern rimeaddr_t rimeaddr_node_addr;

struct broadcast_conn {
  void *c;
};

struct broadcast_callbacks {
  void (*recv)(struct broadcast_conn *c, const rimeaddr_t *sender);
  void (*sent)(struct broadcast_conn *c, int status, int num_tx);
};

void broadcast_open(struct broadcast_conn *c, uint16_t channel, const struct broadcast_callbacks *callbacks);
int broadcast_send(struct broadcast_conn *c);

int packetbuf_copyfrom(const void *from, uint16_t length);
void *packetbuf_dataptr(void);
uint16_t packetbuf_datalen(void);

#endif /* RIME_H_ */
