/* What C's <stdio.h> has that this project uses, for a compiler that comes without C's headers. */
#include <stdarg.h>
typedef struct _IO_FILE FILE;
extern FILE *stdin, *stdout, *stderr;
int printf(const char *format, ...);
int fprintf(FILE *to, const char *format, ...);
int vfprintf(FILE *to, const char *format, va_list values);
int snprintf(char *to, __SIZE_TYPE__ room, const char *format, ...);
int fputs(const char *text, FILE *to);
int fputc(int character, FILE *to);
int rename(const char *from, const char *to);
FILE *fdopen(int file, const char *mode);
FILE *fopen(const char *path, const char *mode);
__SIZE_TYPE__ fread(void *to, __SIZE_TYPE__ size, __SIZE_TYPE__ count, FILE *from);
__SIZE_TYPE__ fwrite(const void *from, __SIZE_TYPE__ size, __SIZE_TYPE__ count, FILE *to);
int ferror(FILE *file);
int fflush(FILE *file);
int fclose(FILE *file);
