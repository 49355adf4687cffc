/*
 * The rules of include/plumagemud.h, tuned by hand. Each header, packing and alignment has loops of its own, in which all that they
 * decide is a constant. A second pass tests no rule again. The rest is about what a processor waits for:
 * - The place of a message hangs on the LEN before it. Nothing else stands in that chain, and a data packet's end cuts it: the next
 *   place is the carried end, whatever LEN was read last.
 * - A branch that hangs on a length is often guessed wrong. So a tail is filled by one wide store; and as long as more packets
 *   follow, a short packet is copied by a block that is longer than it, and what is too much is written over.
 * - With a LEN byte the next headers are near, so the lines ahead are fetched before it is known which of them are needed.
 */
#include <string.h>

#include "bench.h"

#define INLINE static inline __attribute__((always_inline))
#define LIKELY(x) __builtin_expect(!!(x), 1)
#define UNLIKELY(x) __builtin_expect(!!(x), 0)

/* Hides where a number comes from: else the compiler adds in another order, or widens it again, and the chain gets longer. */
#define HIDE(x) __asm__("" : "+r"(x))

enum { SINGLE, MULTIPLE, STREAMING };
enum { LONGEST_TRANSFER = 262144, MOST_LENGTHS = 4096, LONGEST_FRAME = 254, LONGEST_DATAGRAM = 1472 };
enum { SMALL = 16, BLOCK = 64, AHEAD = 512 }; /* bytes of two blocks, and how far ahead lines are fetched */

typedef unsigned long long word;

INLINE uint32_t word_at(const uint8_t *from)
{
    return from[0] | (uint32_t)from[1] << 8;
}

INLINE uint32_t kind(uint32_t direction, uint32_t first)
{
    uint32_t slave = 256 - first;
    slave = slave < 5 ? slave : 5;
    uint32_t master = first >= 0xC0 ? 6 : 7;
    return direction ? master : slave;
}

/* n is a constant: loads, then stores. */
INLINE void copy_block(uint8_t *to, const uint8_t *from, size_t n)
{
    uint8_t block[BLOCK];
    memcpy(block, from, n);
    memcpy(to, block, n);
}

/* Copies n bytes, at least 1, and no more. */
INLINE void copy(uint8_t *to, const uint8_t *from, size_t n)
{
    if (n > 32) {
        memcpy(to, from, n);
    } else if (n >= 16) {
        uint8_t a[16], b[16];
        memcpy(a, from, 16);
        memcpy(b, from + n - 16, 16);
        memcpy(to, a, 16);
        memcpy(to + n - 16, b, 16);
    } else if (n >= 8) {
        word a, b;
        memcpy(&a, from, 8);
        memcpy(&b, from + n - 8, 8);
        memcpy(to, &a, 8);
        memcpy(to + n - 8, &b, 8);
    } else if (n >= 4) {
        uint32_t a, b;
        memcpy(&a, from, 4);
        memcpy(&b, from + n - 4, 4);
        memcpy(to, &a, 4);
        memcpy(to + n - 4, &b, 4);
    } else {
        uint8_t a = from[0], b = from[n / 2], c = from[n - 1];
        to[0] = a;
        to[n / 2] = b;
        to[n - 1] = c;
    }
}

INLINE xcp_read not_read(uint32_t number, size_t place, xcp_counter c)
{
    xcp_read r = {number, (uint32_t)place, c};
    return r;
}

INLINE xcp_written not_written(uint32_t number, size_t place, uint32_t first)
{
    xcp_written r = {number, (uint32_t)place, first};
    return r;
}

/* USB. */

INLINE uint32_t header_size(uint32_t header)
{
    return header == 0 ? 1 : header < 4 ? 2 : 4;
}

INLINE int has_ctr(uint32_t header)
{
    return header == 1 || header == 4;
}

INLINE uint32_t ctr_mask(uint32_t header)
{
    return header == 4 ? 0xFFFF : 0xFF;
}

/* All but the alignment, which the choice of a loop tests. */
INLINE int usb_sound(const xcp_usb_setting *s)
{
    uint32_t most = s->header < 3 ? 255 : 65535;
    return (s->header < 6) & (s->packing < 3) & (s->align < 9) & (s->direction < 2) & (s->data_packet % 8 == 0)
        & (s->data_packet - 8 <= 1016) & (s->longest - 8 <= most - 8);
}

INLINE size_t len_at(const uint8_t *at, uint32_t header)
{
    size_t len = header < 3 ? at[0] : word_at(at);
    HIDE(len);
    return len;
}

INLINE uint32_t ctr_at(const uint8_t *at, uint32_t header)
{
    return header == 1 ? at[1] : word_at(at + 2);
}

/* The place behind a message at q. */
INLINE size_t behind(size_t q, size_t len, uint32_t header, size_t align)
{
    size_t base = q + (header_size(header) + align - 1);
    HIDE(base);
    return (base + len) & ~(align - 1);
}

/* A data packet's end is a multiple of every alignment. So where the header is not longer than the alignment, it fits wherever it
   starts: streaming has no rest but where LEN is 0, and no end has to be carried. */
INLINE int always_fits(uint32_t header, size_t align)
{
    return header_size(header) <= align;
}

/* The end of the data packet in which q stands, at a LEN of 0. */
INLINE size_t end_around(size_t q, uint32_t m)
{
    return ((uint32_t)q / m + 1) * (size_t)m;
}

/* The same where a stream jumps over data packets, by 2^32 / m rounded up: exact for every place of a transfer. */
INLINE size_t end_by(word inverse, size_t q, uint32_t m)
{
    return ((q * inverse >> 32) + 1) * m;
}

/* Fetches the lines in which the next headers may stand. */
INLINE void fetch_ahead(const uint8_t *at, size_t len, uint32_t header)
{
    if (header < 3 && len > BLOCK)
        for (size_t k = 0; k < 256; k += 64)
            __builtin_prefetch(at + AHEAD + k);
}

/* number 0: value messages; else refused at value. */
typedef struct { uint32_t number; size_t value; } judged;

INLINE judged judged_as(uint32_t number, size_t value)
{
    judged j = {number, value};
    return j;
}

INLINE judged judge_single(const uint8_t *t, size_t n, size_t m, size_t longest, uint32_t header, size_t align)
{
    const size_t size = header_size(header), most = longest < m - size ? longest : m - size;
    size_t q = 0, count = 0;
    if (n >= m)
        for (const size_t last = n - m; q <= last; q += m, count++) {
            size_t len = header < 3 ? t[q] : word_at(t + q);
            if (UNLIKELY(len - 1 >= most))
                return judged_as(len == 0 ? 6 : len > longest ? 3 : 5, q);
        }
    if (q < n) {
        size_t len = n - q < size ? 0 : len_at(t + q, header);
        if (len == 0)
            return judged_as(6, q);
        if (len > longest)
            return judged_as(3, q);
        if (behind(q, len, header, align) > n)
            return judged_as(5, q);
        count++;
    }
    return judged_as(0, count);
}

/* Streaming where a header always fits. */
INLINE judged judge_fitting(const uint8_t *t, size_t n, uint32_t m, size_t longest, uint32_t header, size_t align)
{
    size_t q = 0, count = 0;
    while (q + header_size(header) <= n) {
        size_t len = len_at(t + q, header);
        if (UNLIKELY(len == 0)) {
            q = end_around(q, m);
            continue;
        }
        size_t next = behind(q, len, header, align);
        if (UNLIKELY(len > longest))
            return judged_as(3, q);
        if (UNLIKELY(next > n))
            return judged_as(5, q);
        count++;
        fetch_ahead(t + next, len, header);
        q = next;
    }
    return judged_as(0, count);
}

/* Multiple, and streaming where a header may not fit: one data packet behind another. */
INLINE judged judge_packed(const uint8_t *t, size_t n, uint32_t m, size_t longest, uint32_t header, uint32_t packing, size_t align)
{
    const word inverse = packing == STREAMING ? UINT32_MAX / m + 1 : 0;
    size_t q = 0, end = m, count = 0;
    for (;;) {
        size_t stop = end < n ? end : n;
        while (q + header_size(header) <= stop) {
            size_t len = len_at(t + q, header);
            if (len == 0)
                break;
            size_t next = behind(q, len, header, align);
            if (UNLIKELY(len > longest))
                return judged_as(3, q);
            if (UNLIKELY(next > (packing == STREAMING ? n : stop)))
                return judged_as(5, q);
            count++;
            q = next;
        }
        if (packing == MULTIPLE || q < end)
            q = end;
        if (q >= n)
            return judged_as(0, count);
        end += m;
        if (packing == STREAMING && UNLIKELY(end <= q))
            end = end_by(inverse, q, m);
    }
}

/* A row, and the counter that is expected behind it, not yet cut to its bytes. */
INLINE uint32_t put_row(uint32_t *row, const uint8_t *t, size_t q, size_t len, uint32_t expected, uint32_t direction,
                        uint32_t header)
{
    const size_t size = header_size(header);
    uint32_t ctr = 0, gap = 0;
    if (has_ctr(header)) {
        ctr = ctr_at(t + q, header);
        gap = (ctr - expected) & ctr_mask(header);
    }
    row[0] = (uint32_t)(q + size);
    row[1] = (uint32_t)len;
    row[2] = ctr;
    row[3] = gap;
    row[4] = kind(direction, t[q + size]);
    return ctr + 1;
}

INLINE uint32_t fill_single(uint32_t *row, const uint32_t *last, const uint8_t *t, size_t m, uint32_t expected, uint32_t direction,
                            uint32_t header)
{
    for (size_t q = 0; row != last; q += m, row += 5)
        expected = put_row(row, t, q, len_at(t + q, header), expected, direction, header);
    return expected;
}

INLINE uint32_t fill_fitting(uint32_t *row, const uint32_t *last, const uint8_t *t, uint32_t m, uint32_t expected,
                             uint32_t direction, uint32_t header, size_t align)
{
    for (size_t q = 0;;) {
        size_t len = len_at(t + q, header);
        if (UNLIKELY(len == 0)) {
            q = end_around(q, m);
            continue;
        }
        expected = put_row(row, t, q, len, expected, direction, header);
        row += 5;
        if (row == last)
            return expected;
        q = behind(q, len, header, align);
        fetch_ahead(t + q, len, header);
    }
}

INLINE uint32_t fill_packed(uint32_t *row, const uint32_t *last, const uint8_t *t, uint32_t m, uint32_t expected,
                            uint32_t direction, uint32_t header, uint32_t packing, size_t align)
{
    const word inverse = packing == STREAMING ? UINT32_MAX / m + 1 : 0;
    size_t q = 0, end = m;
    for (;;) {
        while (q + header_size(header) <= end) {
            size_t len = len_at(t + q, header);
            if (len == 0)
                break;
            expected = put_row(row, t, q, len, expected, direction, header);
            row += 5;
            if (row == last)
                return expected;
            q = behind(q, len, header, align);
        }
        if (packing == MULTIPLE || q < end)
            q = end;
        end += m;
        if (packing == STREAMING && UNLIKELY(end <= q))
            end = end_by(inverse, q, m);
    }
}

/* The counter of the first message. Before it stand only data packets with a LEN of 0. */
INLINE uint32_t first_ctr(const uint8_t *t, size_t m, uint32_t header)
{
    while (len_at(t, header) == 0)
        t += m;
    return ctr_at(t, header);
}

INLINE xcp_read usb_read(const xcp_usb_setting *s, const uint8_t *t, size_t n, xcp_counter c, uint32_t *rows, size_t numbers,
                         uint32_t header, uint32_t packing, size_t align)
{
    const uint32_t m = s->data_packet, longest = s->longest, direction = s->direction;
    const int fitting = packing == STREAMING && always_fits(header, align);
    if (has_ctr(header) && c.known && c.expected > ctr_mask(header))
        return not_read(1, 0, c);
    if (n > LONGEST_TRANSFER)
        return not_read(2, 0, c);
    judged j = packing == SINGLE ? judge_single(t, n, m, longest, header, align)
        : fitting ? judge_fitting(t, n, m, longest, header, align) : judge_packed(t, n, m, longest, header, packing, align);
    if (UNLIKELY(j.number != 0))
        return not_read(j.number, j.value, c);
    if (numbers / 5 < j.value)
        return not_read(4, 0, c);
    if (j.value == 0)
        return not_read(0, 0, c);

    uint32_t expected = !has_ctr(header) ? 0 : c.known ? c.expected : first_ctr(t, m, header);
    const uint32_t *last = rows + 5 * j.value;
    expected = packing == SINGLE ? fill_single(rows, last, t, m, expected, direction, header)
        : fitting ? fill_fitting(rows, last, t, m, expected, direction, header, align)
        : fill_packed(rows, last, t, m, expected, direction, header, packing, align);
    if (has_ctr(header)) {
        c.known = 1;
        c.expected = expected & ctr_mask(header);
    }
    return not_read(0, j.value, c);
}

/* What a list comes to: its bytes, those of the messages with the rests between them, and the first length that does not fit. */
typedef struct { size_t sum, total, misfit; } sized;

static __attribute__((noinline, cold)) sized size_misfit(const uint32_t *lengths, size_t count, size_t longest)
{
    sized z = {0, 0, count};
    for (size_t i = count; i != 0; i--) {
        z.sum += lengths[i - 1];
        if ((size_t)lengths[i - 1] - 1 >= longest)
            z.misfit = i - 1;
    }
    return z;
}

/* Single, and streaming where a header always fits: no place hangs on another, so several lengths are taken at once. */
INLINE sized size_apart(const uint32_t *lengths, size_t count, uint32_t m, uint32_t longest, uint32_t header, uint32_t packing,
                        uint32_t align)
{
    const uint32_t up = header_size(header) + align - 1;
    uint32_t sum = 0, total = 0, bad = 0;
    for (size_t i = 0; i < count; i++) {
        bad |= lengths[i] - 1 >= longest;
        sum += lengths[i];
        total += (lengths[i] + up) & ~(align - 1);
    }
    if (UNLIKELY(bad))
        return size_misfit(lengths, count, longest);
    if (packing == SINGLE && count != 0)
        total = (uint32_t)(count - 1) * m + ((lengths[count - 1] + up) & ~(align - 1));
    sized z = {sum, total, count};
    return z;
}

/* The end of the data packet in which a header at q fits; q goes there where it does not fit before. */
INLINE size_t end_for(size_t *q, size_t end, uint32_t m, uint32_t header)
{
    while (UNLIKELY(*q + header_size(header) > end)) {
        if (*q < end)
            *q = end;
        end += m;
        if (UNLIKELY(end <= *q))
            end = (*q / m + 1) * m;
    }
    return end;
}

INLINE sized size_packed(const uint32_t *lengths, size_t count, uint32_t m, size_t longest, uint32_t header, uint32_t packing,
                         size_t align)
{
    size_t sum = 0, q = 0, end = m;
    for (size_t i = 0; i < count; i++) {
        size_t len = lengths[i], whole = behind(0, len, header, align);
        if (UNLIKELY(len - 1 >= longest))
            return size_misfit(lengths, count, longest);
        sum += len;
        if (packing == STREAMING) {
            end = end_for(&q, end, m, header);
        } else if (end - q < whole) {
            q = end;
            end += m;
        }
        q += whole;
    }
    sized z = {sum, q, count};
    return z;
}

INLINE void put_header(uint8_t *to, size_t len, uint32_t ctr, uint8_t fill, uint32_t header)
{
    to[0] = (uint8_t)len;
    if (header == 1)
        to[1] = (uint8_t)ctr;
    if (header == 2)
        to[1] = fill;
    if (header >= 3)
        to[1] = (uint8_t)(len >> 8);
    if (header == 4) {
        to[2] = (uint8_t)ctr;
        to[3] = (uint8_t)(ctr >> 8);
    }
    if (header == 5) {
        to[2] = fill;
        to[3] = fill;
    }
}

/* A rest of n bytes. `more`: at least BLOCK bytes follow, which are written later. */
INLINE void put_rest(uint8_t *to, size_t n, const uint8_t *fills, int more, uint32_t header, uint32_t packing)
{
    if (more && n <= 2 * SMALL)
        for (size_t k = 0; k < 2 * SMALL; k += SMALL)
            memcpy(to + k, fills, SMALL);
    else
        memset(to, fills[0], n);
    if (packing != SINGLE && n >= header_size(header)) {
        to[0] = 0;
        if (header >= 3)
            to[1] = 0;
    }
}

/* Where a message stands: its place, and the end of its data packet. */
typedef struct { uint8_t *to, *end; } place;

/* The place of the next message, behind a rest if there is one. */
INLINE place put_before(place p, size_t whole, uint32_t m, const uint8_t *fills, int more, uint32_t header, uint32_t packing,
                        size_t align)
{
    if (packing == MULTIPLE && (size_t)(p.end - p.to) < whole) {
        put_rest(p.to, (size_t)(p.end - p.to), fills, more, header, packing);
        p.to = p.end;
        p.end += m;
    }
    if (packing == STREAMING && !always_fits(header, align))
        while (UNLIKELY(p.to + header_size(header) > p.end)) {
            if (p.to < p.end) {
                put_rest(p.to, (size_t)(p.end - p.to), fills, more, header, packing);
                p.to = p.end;
            }
            p.end += m;
            if (UNLIKELY(p.end <= p.to))
                p.end += ((uint32_t)(p.to - p.end) / m + 1) * m;
        }
    return p;
}

/* As long as more than BLOCK bytes of packets are left, a block from there stays inside, read and written; and behind every message
   but the last there are as many bytes as the alignment has. */
INLINE uint32_t put_messages(const uint8_t *packets, size_t left, const uint32_t *lengths, size_t count, uint32_t ctr, uint8_t fill,
                             uint8_t *out, uint32_t m, uint32_t header, uint32_t packing, size_t align)
{
    const size_t size = header_size(header);
    uint8_t fills[SMALL];
    memset(fills, fill, SMALL);
    place p = {out, out + m};
    size_t i = 0;
    for (; left > BLOCK; i++, ctr++) {
        size_t len = lengths[i], whole = behind(0, len, header, align);
        if (len > BLOCK && len == left)
            break;
        p = put_before(p, whole, m, fills, 1, header, packing, align);
        put_header(p.to, len, ctr, fill, header);
        if (len <= SMALL)
            copy_block(p.to + size, packets, SMALL);
        else if (len <= BLOCK)
            copy_block(p.to + size, packets, BLOCK);
        else
            memcpy(p.to + size, packets, len);
        if (packing == SINGLE)
            memset(p.to + size + len, fill, m - size - len);
        else if (align > 1)
            memcpy(p.to + size + len, fills, align);
        packets += len;
        left -= len;
        p.to += packing == SINGLE ? m : whole;
    }
    for (; i < count; i++, ctr++) {
        size_t len = lengths[i], whole = behind(0, len, header, align);
        p = put_before(p, whole, m, fills, 0, header, packing, align);
        size_t stop = packing == SINGLE && i + 1 < count ? m : whole;
        if (packing != SINGLE && align > 1)
            memcpy(p.to + whole - align, fills, align);
        put_header(p.to, len, ctr, fill, header);
        copy(p.to + size, packets, len);
        if (packing == SINGLE)
            memset(p.to + size + len, fill, stop - size - len);
        packets += len;
        p.to += stop;
    }
    return ctr;
}

INLINE xcp_written usb_write(const xcp_usb_setting *s, const uint8_t *packets, size_t n, const uint32_t *lengths, size_t count,
                             uint32_t first, uint8_t fill, uint32_t fill_up, uint8_t *out, size_t room,
                             uint32_t header, uint32_t packing, size_t align)
{
    const uint32_t size = header_size(header), m = s->data_packet;
    if (has_ctr(header) && first > ctr_mask(header))
        return not_written(1, 0, first);
    if (count > MOST_LENGTHS)
        return not_written(2, 0, first);

    /* the longest packet that a message may have: m is a multiple of every align, so the tail never decides */
    uint32_t longest = s->longest;
    if (packing != STREAMING && longest > m - size)
        longest = m - size;
    sized z = packing == SINGLE || (packing == STREAMING && always_fits(header, align))
        ? size_apart(lengths, count, m, longest, header, packing, (uint32_t)align)
        : size_packed(lengths, count, m, longest, header, packing, align);
    if (UNLIKELY(z.sum != n))
        return not_written(2, 0, first);
    if (UNLIKELY(z.misfit < count))
        return not_written(3, z.misfit, first);
    size_t total = z.total;
    if (fill_up && total % m != 0)
        total += m - total % m;
    if (total > room || total > LONGEST_TRANSFER)
        return not_written(4, 0, first);
    if (count == 0)
        return not_written(0, 0, first);

    uint32_t ctr = put_messages(packets, n, lengths, count, first, fill, out, m, header, packing, align);
    if (total > z.total)
        put_rest(out + z.total, total - z.total, &fill, 0, header, packing);
    return not_written(0, total, has_ctr(header) ? ctr & ctr_mask(header) : first);
}

#define EACH_ALIGN(F, h, p) F(h, p, 1) F(h, p, 2) F(h, p, 4) F(h, p, 8)
#define EACH_PACKING(F, h) EACH_ALIGN(F, h, 0) EACH_ALIGN(F, h, 1) EACH_ALIGN(F, h, 2)
#define EACH_USB(F) \
    EACH_PACKING(F, 0) EACH_PACKING(F, 1) EACH_PACKING(F, 2) EACH_PACKING(F, 3) EACH_PACKING(F, 4) EACH_PACKING(F, 5)
#define USB_NUMBER(h, p, a) (((h) * 3 + (p)) * 9 + (a))

#define USB_LOOPS(h, p, a) \
    static __attribute__((noinline)) xcp_read usb_read_##h##p##a(const xcp_usb_setting *s, const uint8_t *t, size_t n, \
                                                                 xcp_counter c, uint32_t *rows, size_t numbers) \
    { \
        return usb_read(s, t, n, c, rows, numbers, h, p, a); \
    } \
    static __attribute__((noinline)) xcp_written usb_write_##h##p##a( \
        const xcp_usb_setting *s, const uint8_t *packets, size_t n, const uint32_t *lengths, size_t count, uint32_t first, \
        uint8_t fill, uint32_t fill_up, uint8_t *out, size_t room) \
    { \
        return usb_write(s, packets, n, lengths, count, first, fill, fill_up, out, room, h, p, a); \
    }
EACH_USB(USB_LOOPS)

xcp_read tuned_usb_read(xcp_usb_setting s, const uint8_t *t, size_t n, xcp_counter c, uint32_t *rows, size_t numbers)
{
    if (!usb_sound(&s))
        return not_read(1, 0, c);
    switch (USB_NUMBER(s.header, s.packing, s.align)) {
#define CASE(h, p, a) case USB_NUMBER(h, p, a): return usb_read_##h##p##a(&s, t, n, c, rows, numbers);
    EACH_USB(CASE)
#undef CASE
    default: return not_read(1, 0, c);
    }
}

xcp_written tuned_usb_write(xcp_usb_setting s, const uint8_t *packets, size_t n, const uint32_t *lengths, size_t count,
                            uint32_t first, uint8_t fill, uint32_t fill_up, uint8_t *out, size_t room)
{
    if (!usb_sound(&s))
        return not_written(1, 0, first);
    switch (USB_NUMBER(s.header, s.packing, s.align)) {
#define CASE(h, p, a) \
    case USB_NUMBER(h, p, a): return usb_write_##h##p##a(&s, packets, n, lengths, count, first, fill, fill_up, out, room);
    EACH_USB(CASE)
#undef CASE
    default: return not_written(1, 0, first);
    }
}

/* FlexRay. */

/* header, align, bytes of the header, has CTR, has LEN */
#define EACH_FLEXRAY(F) \
    F(0, 1, 1, 0, 0) F(1, 2, 2, 0, 0) F(2, 4, 4, 0, 0) F(3, 1, 2, 1, 0) F(3, 2, 2, 1, 0) F(4, 4, 4, 1, 0) \
    F(5, 1, 2, 0, 1) F(5, 2, 2, 0, 1) F(6, 4, 4, 0, 1) F(7, 1, 3, 1, 1) F(8, 2, 4, 1, 1) F(8, 4, 4, 1, 1)
#define FLEXRAY_NUMBER(h, a) ((h) * 8 + (a))

/* All but header and align, which the choice of a loop tests. */
INLINE int flexray_sound(const xcp_flexray_setting *s)
{
    return (s->node < 256) & (s->direction < 2) & (s->ceiling % 2 == 0) & (s->ceiling - 8 <= 246) & (s->header < 9)
        & (s->align < 8);
}

/* The place of the packet behind one of `len` bytes at `at`. */
INLINE size_t next_at(size_t at, size_t len, size_t align)
{
    size_t base = at + align;
    HIDE(base);
    return (base + len) & ~(align - 1);
}

INLINE void put_packet_row(uint32_t *row, const uint8_t *f, size_t at, size_t len, uint32_t direction)
{
    row[0] = (uint32_t)at;
    row[1] = (uint32_t)len;
    row[2] = 0;
    row[3] = 0;
    row[4] = kind(direction, f[at]);
}

/* The packets of a frame, judged, and their rows unless `row` is NULL. */
INLINE judged judge_frame(const uint8_t *f, size_t n, uint32_t *row, uint32_t direction, size_t align, size_t size)
{
    size_t count = 0;
    for (size_t at = size, len; at <= n; at = next_at(at, len, align)) {
        len = len_at(f + at - 1, 0);
        if (len == 0)
            break;
        if (UNLIKELY(at + len > n))
            return judged_as(5, count == 0 ? 0 : at - 1);
        if (row) {
            put_packet_row(row, f, at, len, direction);
            row += 5;
        }
        count++;
    }
    return judged_as(count == 0 ? 6 : 0, count);
}

INLINE void fill_frame(uint32_t *row, size_t count, const uint8_t *f, uint32_t direction, size_t align, size_t size)
{
    for (size_t at = size;; row += 5) {
        size_t len = len_at(f + at - 1, 0);
        put_packet_row(row, f, at, len, direction);
        if (--count == 0)
            return;
        at = next_at(at, len, align);
    }
}

/* Judges and gives rows. A frame that starts with a long packet has few, and is gone over twice. Else the rows are made aside, and
   copied once all is judged. */
INLINE judged read_packets(const uint8_t *f, size_t n, uint32_t *rows, size_t numbers, uint32_t direction, size_t align,
                           size_t size)
{
    if (f[size - 1] >= BLOCK) {
        judged j = judge_frame(f, n, NULL, direction, align, size);
        if (UNLIKELY(j.number != 0))
            return j;
        if (numbers < 5 * j.value)
            return judged_as(4, 0);
        fill_frame(rows, j.value, f, direction, align, size);
        return j;
    }
    uint32_t aside[5 * (LONGEST_FRAME / 2)];
    judged j = judge_frame(f, n, aside, direction, align, size);
    if (UNLIKELY(j.number != 0))
        return j;
    if (numbers < 5 * j.value)
        return judged_as(4, 0);
    memcpy(rows, aside, 5 * j.value * sizeof *rows);
    return j;
}

INLINE xcp_read flexray_read(const xcp_flexray_setting *s, const uint8_t *f, size_t n, xcp_counter c, uint32_t *rows,
                             size_t numbers, size_t align, size_t size, int ctr, int len)
{
    if (ctr && c.known && c.expected > 255)
        return not_read(1, 0, c);
    if (n % 2 != 0 || n > s->ceiling)
        return not_read(8, 0, c);
    if (n <= size)
        return not_read(6, 0, c);
    if (f[0] != s->node)
        return not_read(7, 0, c);

    judged j = judged_as(numbers < 5 ? 4 : 0, numbers < 5 ? 0 : 1);
    if (len)
        j = read_packets(f, n, rows, numbers, s->direction, align, size);
    if (UNLIKELY(j.number != 0))
        return not_read(j.number, j.value, c);
    if (!len)
        put_packet_row(rows, f, size, n - size, s->direction);
    if (ctr) {
        rows[2] = f[1];
        rows[3] = c.known ? (f[1] - c.expected) & 0xFF : 0;
        c.known = 1;
        c.expected = (f[1] + 1u) & 0xFF;
    }
    return not_read(0, j.value, c);
}

/* However long the list and its lengths are. In a frame, total is the end of the last packet. */
static __attribute__((noinline, cold)) sized size_misfit_in_frame(const uint32_t *lengths, size_t count, size_t ceiling,
                                                                  size_t align, size_t size)
{
    sized z = {0, 0, count};
    for (size_t i = 0, at = size; i < count; i++) {
        z.sum += lengths[i];
        if (z.misfit < count)
            continue;
        z.total = at + lengths[i];
        if (lengths[i] == 0 || z.total > ceiling)
            z.misfit = i;
        at = (z.total + align) & ~(align - 1);
    }
    return z;
}

/* Every place is a multiple of the alignment, the first one too. So none hangs on another: several lengths are taken at once. */
INLINE sized size_frame(const uint32_t *lengths, size_t count, size_t ceiling, uint32_t align, uint32_t size)
{
    uint32_t sum = 0, spans = 0, bits = 0, empty = 0;
    if (UNLIKELY(count > LONGEST_FRAME))
        return size_misfit_in_frame(lengths, count, ceiling, align, size);
    for (size_t i = 0; i < count; i++) {
        sum += lengths[i];
        bits |= lengths[i];
        empty |= lengths[i] - 1;
        spans += (lengths[i] + align) & ~(align - 1);
    }
    uint32_t last = lengths[count - 1], end = size + spans - ((last + align) & ~(align - 1)) + last;
    if (UNLIKELY((bits > 255) | (empty >> 31) | (end > ceiling)))
        return size_misfit_in_frame(lengths, count, ceiling, align, size);
    sized z = {sum, end, count};
    return z;
}

/* The same one by one, which is faster for a few. */
INLINE sized size_few(const uint32_t *lengths, size_t count, size_t ceiling, size_t align, size_t size)
{
    sized z = {0, 0, count};
    for (size_t i = 0, at = size; i < count; i++) {
        z.sum += lengths[i];
        z.total = at + lengths[i];
        if (UNLIKELY((lengths[i] == 0) | (z.total > ceiling)))
            return size_misfit_in_frame(lengths, count, ceiling, align, size);
        at = (z.total + align) & ~(align - 1);
    }
    return z;
}

/* Packets, each with its LEN before it, into a frame of `total` bytes. */
INLINE void put_packets(const uint8_t *packets, size_t left, const uint32_t *lengths, size_t count, uint8_t fill, uint8_t *out,
                        size_t total, size_t align, size_t size)
{
    uint8_t fills[8];
    memset(fills, fill, 8);
    size_t i = 0, at = size;
    for (; left > SMALL + align; i++) {
        size_t len = lengths[i];
        if (len <= SMALL)
            copy_block(out + at, packets, SMALL);
        else if (len <= BLOCK && left > BLOCK + align)
            copy_block(out + at, packets, BLOCK);
        else
            break;
        out[at - 1] = (uint8_t)len;
        if (align > 1)
            memcpy(out + at + len, fills, align);
        packets += len;
        left -= len;
        at = (at + len + align) & ~(align - 1);
    }
    for (; i < count; i++) {
        size_t len = lengths[i], next = (at + len + align) & ~(align - 1);
        if (align > 1 && next <= total)
            memcpy(out + next - align, fills, align);
        out[at - 1] = (uint8_t)len;
        copy(out + at, packets, len);
        packets += len;
        at = next;
    }
    if (at <= total)
        out[at - 1] = 0;
}

INLINE xcp_written flexray_write(const xcp_flexray_setting *s, const uint8_t *packets, size_t n, const uint32_t *lengths,
                                 size_t count, uint32_t first, uint8_t fill, uint8_t *out, size_t room,
                                 size_t align, size_t size, int ctr, int len)
{
    if (ctr && first > 255)
        return not_written(1, 0, first);
    if (count - 1 >= (len ? MOST_LENGTHS : 1))
        return not_written(2, 0, first);
    sized z = count < 8 ? size_few(lengths, count, s->ceiling, align, size)
                          : size_frame(lengths, count, s->ceiling, (uint32_t)align, (uint32_t)size);
    if (UNLIKELY(z.sum != n))
        return not_written(2, 0, first);
    if (UNLIKELY(z.misfit < count))
        return not_written(3, z.misfit, first);
    size_t total = (z.total + 1) & ~(size_t)1;
    if (total > room)
        return not_written(4, 0, first);

    memset(out, fill, size);
    out[total - 1] = fill;
    out[0] = (uint8_t)s->node;
    if (ctr)
        out[1] = (uint8_t)first;
    if (len)
        put_packets(packets, n, lengths, count, fill, out, total, align, size);
    else
        copy(out + size, packets, n);
    return not_written(0, total, ctr ? (first + 1) & 0xFF : first);
}

#define FLEXRAY_LOOPS(h, a, size, ctr, len) \
    static __attribute__((noinline)) xcp_read flexray_read_##h##a(xcp_flexray_setting s, const uint8_t *f, size_t n, \
                                                                  xcp_counter c, uint32_t *rows, size_t numbers) \
    { \
        return flexray_read(&s, f, n, c, rows, numbers, a, size, ctr, len); \
    } \
    static __attribute__((noinline)) xcp_written flexray_write_##h##a( \
        xcp_flexray_setting s, const uint8_t *packets, size_t n, const uint32_t *lengths, size_t count, uint32_t first, \
        uint8_t fill, uint8_t *out, size_t room) \
    { \
        return flexray_write(&s, packets, n, lengths, count, first, fill, out, room, a, size, ctr, len); \
    }
EACH_FLEXRAY(FLEXRAY_LOOPS)

xcp_read tuned_flexray_read(xcp_flexray_setting s, const uint8_t *f, size_t n, xcp_counter c, uint32_t *rows, size_t numbers)
{
    if (!flexray_sound(&s))
        return not_read(1, 0, c);
    switch (FLEXRAY_NUMBER(s.header, s.align)) {
#define CASE(h, a, size, ctr, len) case FLEXRAY_NUMBER(h, a): return flexray_read_##h##a(s, f, n, c, rows, numbers);
    EACH_FLEXRAY(CASE)
#undef CASE
    default: return not_read(1, 0, c);
    }
}

xcp_written tuned_flexray_write(xcp_flexray_setting s, const uint8_t *packets, size_t n, const uint32_t *lengths, size_t count,
                                uint32_t first, uint8_t fill, uint8_t *out, size_t room)
{
    if (!flexray_sound(&s))
        return not_written(1, 0, first);
    switch (FLEXRAY_NUMBER(s.header, s.align)) {
#define CASE(h, a, size, ctr, len) \
    case FLEXRAY_NUMBER(h, a): return flexray_write_##h##a(s, packets, n, lengths, count, first, fill, out, room);
    EACH_FLEXRAY(CASE)
#undef CASE
    default: return not_written(1, 0, first);
    }
}

/* UDP. A message is that of USB header 4 with alignment 1, and there are no data packets. */

enum { WORDS = 4, UDP_SIZE = 4 }; /* its header's number on USB, and its bytes */

INLINE int udp_sound(const xcp_udp_setting *s)
{
    return (s->longest - 8 <= LONGEST_DATAGRAM - UDP_SIZE - 8) & (s->direction < 2);
}

/* Why no message stands at q, before the datagram's end. */
static __attribute__((noinline, cold)) judged no_message(const uint8_t *d, size_t n, size_t q, size_t longest)
{
    size_t len = n - q < UDP_SIZE ? 1 : len_at(d + q, WORDS);
    return judged_as(len == 0 ? 6 : len > longest ? 3 : 5, q);
}

/* The messages of a datagram, judged, and their rows unless `row` is NULL. Where fewer bytes are left than a message has, a message must
   have ended with the datagram: so in a turn one comparison of its end is enough. */
INLINE judged judge_datagram(const uint8_t *d, size_t n, size_t longest, uint32_t *row, uint32_t expected, uint32_t direction)
{
    size_t q = 0, next = 0, count = 0;
    if (n > UDP_SIZE)
        for (const size_t last = n - UDP_SIZE - 1;; q = next) {
            size_t len = len_at(d + q, WORDS);
            next = behind(q, len, WORDS, 1);
            if (UNLIKELY(len - 1 >= longest))
                return no_message(d, n, q, longest);
            if (row) {
                expected = put_row(row, d, q, len, expected, direction, WORDS);
                row += 5;
            }
            count++;
            if (next > last)
                break;
        }
    if (UNLIKELY(next != n))
        return no_message(d, n, next > n ? q : next, longest);
    return judged_as(0, count);
}

INLINE void fill_datagram(uint32_t *row, size_t count, const uint8_t *d, uint32_t expected, uint32_t direction)
{
    for (size_t q = 0;; row += 5) {
        size_t len = len_at(d + q, WORDS);
        expected = put_row(row, d, q, len, expected, direction, WORDS);
        if (--count == 0)
            return;
        q = behind(q, len, WORDS, 1);
    }
}

/* Judges and gives rows, as of a frame: twice over a datagram that starts with a long packet, else by rows made aside. */
INLINE judged read_messages(const uint8_t *d, size_t n, size_t longest, uint32_t *rows, size_t numbers, uint32_t expected,
                            uint32_t direction)
{
    if (n > UDP_SIZE && word_at(d) >= BLOCK) {
        judged j = judge_datagram(d, n, longest, NULL, expected, direction);
        if (UNLIKELY(j.number != 0))
            return j;
        if (numbers < 5 * j.value)
            return judged_as(4, 0);
        fill_datagram(rows, j.value, d, expected, direction);
        return j;
    }
    uint32_t aside[LONGEST_DATAGRAM]; /* a row has five numbers, a message at least five bytes */
    judged j = judge_datagram(d, n, longest, aside, expected, direction);
    if (UNLIKELY(j.number != 0))
        return j;
    if (numbers < 5 * j.value)
        return judged_as(4, 0);
    memcpy(rows, aside, 5 * j.value * sizeof *rows);
    return j;
}

xcp_read tuned_udp_read(xcp_udp_setting s, const uint8_t *d, size_t n, xcp_counter c, uint32_t *rows, size_t numbers)
{
    if (!udp_sound(&s) || (c.known && c.expected > 0xFFFF))
        return not_read(1, 0, c);
    if (n > LONGEST_DATAGRAM)
        return not_read(2, 0, c);
    uint32_t expected = c.known ? c.expected : n < UDP_SIZE ? 0 : ctr_at(d, WORDS);
    judged j = s.direction ? read_messages(d, n, s.longest, rows, numbers, expected, 1)
                           : read_messages(d, n, s.longest, rows, numbers, expected, 0);
    if (UNLIKELY(j.number != 0))
        return not_read(j.number, j.value, c);
    if (j.value != 0) {
        c.known = 1;
        c.expected = (rows[5 * j.value - 3] + 1) & 0xFFFF;
    }
    return not_read(0, j.value, c);
}

/* Both words by one store: the processor has the low byte first too. */
INLINE void put_words(uint8_t *to, size_t len, uint32_t ctr)
{
    uint32_t words = (uint32_t)len | ctr << 16;
    memcpy(to, &words, UDP_SIZE);
}

/* As many bytes as are left of the packets, and more, are left of the datagram. So a block from there stays inside both. */
INLINE uint32_t put_datagram(const uint8_t *packets, size_t left, const uint32_t *lengths, size_t count, uint32_t ctr, uint8_t *out)
{
    size_t i = 0;
    for (; left >= SMALL; i++, ctr++) {
        size_t len = lengths[i];
        if (len <= SMALL)
            copy_block(out + UDP_SIZE, packets, SMALL);
        else if (len <= BLOCK && left >= BLOCK)
            copy_block(out + UDP_SIZE, packets, BLOCK);
        else
            copy(out + UDP_SIZE, packets, len);
        put_words(out, len, ctr);
        packets += len;
        left -= len;
        out += UDP_SIZE + len;
    }
    for (; i < count; i++, ctr++) {
        size_t len = lengths[i];
        copy(out + UDP_SIZE, packets, len);
        put_words(out, len, ctr);
        packets += len;
        out += UDP_SIZE + len;
    }
    return ctr;
}

xcp_written tuned_udp_write(xcp_udp_setting s, const uint8_t *packets, size_t n, const uint32_t *lengths, size_t count,
                            uint32_t first, uint8_t *out, size_t room)
{
    if (!udp_sound(&s) || first > 0xFFFF)
        return not_written(1, 0, first);
    if (count > MOST_LENGTHS)
        return not_written(2, 0, first);
    sized z = size_apart(lengths, count, 0, s.longest, WORDS, STREAMING, 1);
    if (UNLIKELY(z.sum != n))
        return not_written(2, 0, first);
    if (UNLIKELY(z.misfit < count))
        return not_written(3, z.misfit, first);
    if (z.total > room || z.total > LONGEST_DATAGRAM)
        return not_written(4, 0, first);
    return not_written(0, z.total, put_datagram(packets, n, lengths, count, first, out) & 0xFFFF);
}
