
#include <pthread.h>
#include <stdlib.h>
#include <unistd.h>

static void *work(void *given) { return given; }

int main(int count, char **words) {
  pthread_t made[2];
  for (int n = 1; count == 1 && n <= 3; n++) {
    void *volatile part = malloc(100);
    if (!part && n != CALM) _exit(write(2, FAULT, sizeof FAULT - 1) > 0);
  }
  for (int n = 0; count > 1 && n < 2; n++) {
    if (pthread_create(&made[n], 0, work, 0)) _exit(write(2, FAULT, sizeof FAULT - 1) > 0);
    if (JOINS) pthread_join(made[n], 0);
  }
  _exit(write(1, "left 0\n", 7) != 7);
}
