/* What the library is measured against: two C implementations, one of them twice, and for texts a plain one. Their rules are those of
   plumagemud.h. */
#ifndef BENCH_H
#define BENCH_H

#include "plumagemud.h"

#define IMPLEMENTATION(name) \
    xcp_read name##_usb_read(xcp_usb_setting s, const uint8_t *transfer, size_t n, xcp_counter c, \
                             uint32_t *rows, size_t numbers); \
    xcp_written name##_usb_write(xcp_usb_setting s, const uint8_t *packets, size_t n, const uint32_t *lengths, size_t count, \
                                 uint32_t first, uint8_t fill, uint32_t fill_up, uint8_t *out, size_t room); \
    xcp_read name##_flexray_read(xcp_flexray_setting s, const uint8_t *frame, size_t n, xcp_counter c, \
                                 uint32_t *rows, size_t numbers); \
    xcp_written name##_flexray_write(xcp_flexray_setting s, const uint8_t *packets, size_t n, const uint32_t *lengths, \
                                     size_t count, uint32_t first, uint8_t fill, uint8_t *out, size_t room); \
    xcp_read name##_udp_read(xcp_udp_setting s, const uint8_t *datagram, size_t n, xcp_counter c, \
                             uint32_t *rows, size_t numbers); \
    xcp_written name##_udp_write(xcp_udp_setting s, const uint8_t *packets, size_t n, const uint32_t *lengths, size_t count, \
                                 uint32_t first, uint8_t *out, size_t room);

IMPLEMENTATION(idiomatic)
IMPLEMENTATION(tuned)
IMPLEMENTATION(copy)

/* The longest text, which is the length of those that are measured. */
enum { TEXT = 16384 };
typedef enum { KEYWORDS, COMMENTS, NESTED, TEXTS } text_kind;

/* Writes a text of TEXT bytes. */
void make_text(text_kind kind, uint8_t *to);

/* The number of words before the text's end, or before a comment or a string that is not closed. */
size_t plain_words(const uint8_t *text, size_t n);
xcp_settings plain_usb_settings(const uint8_t *text, size_t n, uint32_t longest);

/* Counting instructions. count_begin gives 0 where they cannot be counted; count_stop gives those since count_start. */
int count_begin(void);
void count_start(void);
unsigned long count_stop(void);

#endif
