/* How fast the product runs patterns, beside the reference. */
#ifndef SPEED_H
#define SPEED_H

/* Prints the speeds of the pattern files (.pat) in a directory, a row for each, and what a call of pf_run costs that runs
 * nothing. It compares too, and answers 1 after a difference; it asserts nothing about time. */
int speed(const char *directory);
#endif
