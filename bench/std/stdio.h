#ifndef STD_STDIO_H
#define STD_STDIO_H
typedef struct FILE FILE;
int printf(const char *format, ...);
int fflush(FILE *stream);
#endif
