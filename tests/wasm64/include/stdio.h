/* What the tests of c/ print with, as WebAssembly. Each header of this folder has what they use of C, and no more. */
#ifndef STDIO_H
#define STDIO_H
#include <stddef.h>
typedef struct file FILE;
#define stderr ((FILE *)2)
FILE *fopen(const char *path, const char *mode);
char *fgets(char *line, int room, FILE *f);
int fclose(FILE *f);
int printf(const char *format, ...) __attribute__((format(printf, 1, 2)));
int fprintf(FILE *f, const char *format, ...) __attribute__((format(printf, 2, 3)));
int snprintf(char *out, size_t room, const char *format, ...) __attribute__((format(printf, 3, 4)));
#endif
