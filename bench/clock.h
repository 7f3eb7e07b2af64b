/* What a look at the clock takes, so that it can be taken off. Include it after common.h or peer.h. */
#ifndef CLOCK_H
#define CLOCK_H

/* ns that a look at the clock takes itself, the least of some rounds of a thousand. */
static double clock_cost;

static inline void measure_clock(void) {
  clock_cost = 1e18;
  for (int r = 0; r < 100; r++) {
    double begin = (double)now();
    for (int i = 1; i < 1000; i++) now();
    double cost = ((double)now() - begin) / 1000;
    if (cost < clock_cost) clock_cost = cost;
  }
}

#endif
