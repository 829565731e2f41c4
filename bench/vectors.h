/* Reads the pattern files of a file of vectors, writes each accepted one again and makes its bench run, and compares. */
#ifndef VECTORS_H
#define VECTORS_H

/* Reads every file by pf_read, pf_code and pf_input, writes it again by pf_write, and makes its bench run, call by call and by
 * pf_listing. Answers 0 if the reader answers what is stored, the same file comes out, and every text is the stored one. */
int vectors(const char *path);
#endif
