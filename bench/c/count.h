/* What is run between the two calls is counted and dumped under the label. */
#ifndef COUNT_H
#define COUNT_H

/* Whether callgrind runs this program and its header was there to build with. */
int counting(void);
void count_from_here(void);
void count_to_here(const char *label);

#endif
