/* Stored scripts of calls, with what each call must answer and leave. */
#ifndef SCRIPTS_H
#define SCRIPTS_H

/* Makes every call of a file of scripts (crates/scripts/make_data.py has its layout), through the entry points and then on the
 * reference, and compares each answer, each buffer whole and each state. Answers 0 if all are as the scripts have them. */
int scripts(const char *path);
#endif
