// What the programs of host/ need of <stdio.h>.
#include <stddef.h>
typedef struct dextolumen_file FILE;
extern FILE *stdin, *stdout, *stderr;
#define EOF (-1)
int getchar(void);
size_t fread(void *, size_t, size_t, FILE *);
int ferror(FILE *);
int fflush(FILE *);
int printf(const char *, ...);
int fprintf(FILE *, const char *, ...);
