/* A system that an earlier version stored, taken over. */
#ifndef EARLIER_H
#define EARLIER_H

/* The file has a system twice, as an earlier version stored it: before some rounds and after them. The first is upgraded
 * and makes the rounds; then it must be the second, upgraded. Answers 1 after a difference, and prints it. */
int earlier(const char *path);
#endif
