/* As much of the C library's header as hosts built by the gate need: the kit's compiler brings none. */
#include <stdarg.h>
#include <stddef.h>
typedef struct _IO_FILE FILE;
extern FILE *stdin, *stdout, *stderr;
int printf(const char *format, ...);
int fprintf(FILE *file, const char *format, ...);
int vfprintf(FILE *file, const char *format, va_list values);
FILE *fopen(const char *name, const char *mode);
size_t fread(void *room, size_t size, size_t count, FILE *file);
size_t fwrite(const void *bytes, size_t size, size_t count, FILE *file);
int fclose(FILE *file);
int fflush(FILE *file);
int ferror(FILE *file);
