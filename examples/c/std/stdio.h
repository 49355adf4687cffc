#ifndef STD_STDIO_H
#define STD_STDIO_H
int printf(const char *format, ...);
#endif
