/* How the costs of closings and searches grow with the number of boards. */
#ifndef GROWTH_H
#define GROWTH_H

/* Prints for each size of sites how long the versions take for a closing and for a try of a search. */
void measure_growth(void);

/* Prints for each size how many triples of boards plain C looks at, by each method. Only a program whose plain versions are compiled to count tells them. */
void count_growth(void);

#endif
