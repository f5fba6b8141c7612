/* The time of a round. */
#ifndef CLOCK_H
#define CLOCK_H

/* Nanoseconds since some fixed time. */
double clock_now(void);

#endif
