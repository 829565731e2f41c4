/* Random pattern files of both forms: most are sound, others have a value past an edge, the other form's length, records exchanged,
 * bytes changed or cut. */
#ifndef FILES_H
#define FILES_H
#include <stddef.h>
#include <stdint.h>

enum { FILE_ROOM = 160000 };    /* longer than any file that is made */

/* A file of a pattern that fits into so many bytes of memory if nothing is wrong with it. Answers the file's length. */
size_t file_random(uint8_t file[FILE_ROOM], size_t memory);
#endif
