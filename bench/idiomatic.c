/* The rules of include/plumagemud.h in plain C: a table of headers, one function for each question, two passes. A place is carried
   with the end of its data packet, so that a division stands only where a message runs over several of them. */
#include <string.h>

#include "bench.h"

enum { SINGLE, MULTIPLE, STREAMING };
enum { LONGEST_TRANSFER = 262144, LONGEST_DATAGRAM = 1472, MOST_LENGTHS = 4096 };
enum { UDP_HEADER = 4 }; /* LEN and CTR words */

typedef struct { uint32_t size, len_width, ctr_at, ctr_width; } usb_header;

static const usb_header usb_headers[6] = {
    {1, 1, 0, 0}, {2, 1, 1, 1}, {2, 1, 0, 0}, {2, 2, 0, 0}, {4, 2, 2, 2}, {4, 2, 0, 0},
};

typedef struct { uint32_t size, has_ctr, has_len, aligns; } flexray_header;

/* aligns: the sum of those that go with the header */
static const flexray_header flexray_headers[9] = {
    {1, 0, 0, 1}, {2, 0, 0, 2}, {4, 0, 0, 4}, {2, 1, 0, 3}, {4, 1, 0, 4}, {2, 0, 1, 3}, {4, 0, 1, 4}, {3, 1, 1, 1}, {4, 1, 1, 6},
};

static size_t round_up(size_t n, size_t align)
{
    return (n + align - 1) & ~(align - 1);
}

static uint32_t get(const uint8_t *from, uint32_t width)
{
    uint32_t value = from[0];
    if (width == 2)
        value |= (uint32_t)from[1] << 8;
    return value;
}

static void put(uint8_t *to, uint32_t width, uint32_t value)
{
    to[0] = (uint8_t)value;
    if (width == 2)
        to[1] = (uint8_t)(value >> 8);
}

static uint32_t kind(uint32_t direction, uint8_t first)
{
    if (direction == 1)
        return first >= 0xC0 ? 6 : 7;
    switch (first) {
    case 0xFF: return 1;
    case 0xFE: return 2;
    case 0xFD: return 3;
    case 0xFC: return 4;
    default: return 5;
    }
}

static xcp_read not_read(uint32_t number, size_t place, xcp_counter c)
{
    xcp_read r = {number, (uint32_t)place, c};
    return r;
}

static xcp_written not_written(uint32_t number, size_t place, uint32_t first)
{
    xcp_written r = {number, (uint32_t)place, first};
    return r;
}

/* The greatest counter of so many bytes. */
static uint32_t counter_mask(uint32_t width)
{
    return width == 2 ? 0xFFFF : 0xFF;
}

static void put_row(uint32_t *row, size_t place, uint32_t length, uint32_t ctr, uint32_t gap, uint32_t kind)
{
    row[0] = (uint32_t)place;
    row[1] = length;
    row[2] = ctr;
    row[3] = gap;
    row[4] = kind;
}

/* The gap before a message with this counter; the state goes on. */
static uint32_t advance(xcp_counter *c, uint32_t ctr, uint32_t mask)
{
    uint32_t gap = c->known ? (ctr - c->expected) & mask : 0;
    c->known = 1;
    c->expected = (ctr + 1) & mask;
    return gap;
}

static int sum_is(const uint32_t *lengths, size_t count, size_t n)
{
    size_t sum = 0;
    for (size_t i = 0; i < count; i++)
        sum += lengths[i];
    return sum == n;
}

static int usb_sound(const xcp_usb_setting *s)
{
    if (s->header > 5 || s->packing > 2 || s->direction > 1)
        return 0;
    if (s->align != 1 && s->align != 2 && s->align != 4 && s->align != 8)
        return 0;
    if (s->data_packet < 8 || s->data_packet > 1024 || s->data_packet % 8 != 0)
        return 0;
    return s->longest >= 8 && s->longest <= (usb_headers[s->header].len_width == 2 ? 65535u : 255u);
}

/* A place, and the end of its data packet. */
typedef struct { size_t q, end; } usb_place;

/* From one place to one behind it. */
static usb_place usb_move(const xcp_usb_setting *s, usb_place p, size_t q)
{
    p.q = q;
    if (p.end <= q)
        p.end += s->data_packet;
    if (p.end <= q) /* over several data packets */
        p.end = q - q % s->data_packet + s->data_packet;
    return p;
}

/* A message, or with length 0 a rest; and the place behind it. */
typedef struct { uint32_t length; usb_place next; } usb_item;

/* What stands at p: 0 and the item, or the number of a refusal. */
static uint32_t usb_see(const xcp_usb_setting *s, const usb_header *h, const uint8_t *t, size_t n, usb_place p, usb_item *item)
{
    size_t stop = p.end < n ? p.end : n;
    uint32_t length = stop - p.q < h->size ? 0 : get(t + p.q, h->len_width);

    item->length = length;
    item->next = usb_move(s, p, stop);
    if (length == 0)
        return s->packing == SINGLE ? 6 : 0;
    if (length > s->longest)
        return 3;
    size_t behind = p.q + round_up(h->size + length, s->align);
    if (behind > (s->packing == STREAMING ? n : stop))
        return 5;
    if (s->packing != SINGLE)
        item->next = usb_move(s, p, behind);
    return 0;
}

xcp_read idiomatic_usb_read(xcp_usb_setting s, const uint8_t *t, size_t n, xcp_counter c, uint32_t *rows, size_t numbers)
{
    if (!usb_sound(&s))
        return not_read(1, 0, c);
    const usb_header *h = &usb_headers[s.header];
    uint32_t mask = counter_mask(h->ctr_width);
    if (h->ctr_width != 0 && c.known && c.expected > mask)
        return not_read(1, 0, c);
    if (n > LONGEST_TRANSFER)
        return not_read(2, 0, c);

    usb_item item;
    size_t count = 0;
    for (usb_place p = {0, s.data_packet}; p.q < n; p = item.next) {
        uint32_t number = usb_see(&s, h, t, n, p, &item);
        if (number != 0)
            return not_read(number, p.q, c);
        if (item.length != 0)
            count++;
    }
    if (numbers / 5 < count)
        return not_read(4, 0, c);

    uint32_t *row = rows;
    for (usb_place p = {0, s.data_packet}; p.q < n; p = item.next) {
        usb_see(&s, h, t, n, p, &item);
        if (item.length == 0)
            continue;
        uint32_t ctr = 0, gap = 0;
        if (h->ctr_width != 0) {
            ctr = get(t + p.q + h->ctr_at, h->ctr_width);
            gap = advance(&c, ctr, mask);
        }
        put_row(row, p.q + h->size, item.length, ctr, gap, kind(s.direction, t[p.q + h->size]));
        row += 5;
    }
    xcp_read r = {0, (uint32_t)count, c};
    return r;
}

/* The first place from p on where a message of so many bytes may stand. */
static usb_place usb_start(const xcp_usb_setting *s, const usb_header *h, usb_place p, size_t whole)
{
    size_t need = s->packing == SINGLE ? s->data_packet : s->packing == MULTIPLE ? whole : h->size;
    return need <= p.end - p.q ? p : usb_move(s, p, p.end);
}

static void usb_put_rest(const xcp_usb_setting *s, const usb_header *h, uint8_t *out, size_t n, uint8_t fill)
{
    memset(out, fill, n);
    if (s->packing != SINGLE && n >= h->size)
        put(out, h->len_width, 0);
}

xcp_written idiomatic_usb_write(xcp_usb_setting s, const uint8_t *packets, size_t n, const uint32_t *lengths, size_t count,
                                uint32_t first, uint8_t fill, uint32_t fill_up, uint8_t *out, size_t room)
{
    if (!usb_sound(&s))
        return not_written(1, 0, first);
    const usb_header *h = &usb_headers[s.header];
    uint32_t mask = counter_mask(h->ctr_width);
    if (h->ctr_width != 0 && first > mask)
        return not_written(1, 0, first);
    if (count > MOST_LENGTHS || !sum_is(lengths, count, n))
        return not_written(2, 0, first);

    usb_place p = {0, s.data_packet};
    for (size_t i = 0; i < count; i++) {
        if (lengths[i] == 0 || lengths[i] > s.longest)
            return not_written(3, i, first);
        size_t whole = round_up(h->size + lengths[i], s.align);
        if (s.packing != STREAMING && whole > s.data_packet)
            return not_written(3, i, first);
        p = usb_start(&s, h, p, whole);
        p = usb_move(&s, p, p.q + whole);
    }
    size_t total = p.q;
    if (fill_up && p.end - p.q < s.data_packet)
        total = p.end;
    if (total > room || total > LONGEST_TRANSFER)
        return not_written(4, 0, first);

    uint32_t ctr = first;
    p = (usb_place){0, s.data_packet};
    for (size_t i = 0; i < count; i++) {
        size_t whole = round_up(h->size + lengths[i], s.align);
        usb_place start = usb_start(&s, h, p, whole);
        usb_put_rest(&s, h, out + p.q, start.q - p.q, fill);

        uint8_t *message = out + start.q;
        memset(message, fill, h->size);
        put(message, h->len_width, lengths[i]);
        if (h->ctr_width != 0) {
            put(message + h->ctr_at, h->ctr_width, ctr);
            ctr = (ctr + 1) & mask;
        }
        memcpy(message + h->size, packets, lengths[i]);
        memset(message + h->size + lengths[i], fill, whole - h->size - lengths[i]);
        packets += lengths[i];
        p = usb_move(&s, start, start.q + whole);
    }
    if (total > p.q)
        usb_put_rest(&s, h, out + p.q, total - p.q, fill);
    xcp_written r = {0, (uint32_t)total, ctr};
    return r;
}

static int flexray_sound(const xcp_flexray_setting *s)
{
    if (s->node > 255 || s->direction > 1 || s->header > 8)
        return 0;
    if (s->ceiling < 8 || s->ceiling > 254 || s->ceiling % 2 != 0)
        return 0;
    return (s->align == 1 || s->align == 2 || s->align == 4) && (flexray_headers[s->header].aligns & s->align) != 0;
}

xcp_read idiomatic_flexray_read(xcp_flexray_setting s, const uint8_t *f, size_t n, xcp_counter c, uint32_t *rows, size_t numbers)
{
    if (!flexray_sound(&s))
        return not_read(1, 0, c);
    const flexray_header *h = &flexray_headers[s.header];
    if (h->has_ctr && c.known && c.expected > 255)
        return not_read(1, 0, c);
    if (n % 2 != 0 || n > s.ceiling)
        return not_read(8, 0, c);
    if (n <= h->size)
        return not_read(6, 0, c);
    if (f[0] != s.node)
        return not_read(7, 0, c);

    size_t count = 1;
    if (h->has_len) {
        size_t at = h->size;
        if (f[at - 1] == 0)
            return not_read(6, 0, c);
        if (at + f[at - 1] > n)
            return not_read(5, 0, c);
        for (;;) {
            at = round_up(at + f[at - 1] + 1, s.align);
            if (at - 1 >= n || f[at - 1] == 0)
                break;
            if (at + f[at - 1] > n)
                return not_read(5, at - 1, c);
            count++;
        }
    }
    if (numbers / 5 < count)
        return not_read(4, 0, c);

    uint32_t ctr = 0, gap = 0;
    if (h->has_ctr) {
        ctr = f[1];
        gap = advance(&c, ctr, 0xFF);
    }
    size_t at = h->size;
    for (size_t i = 0; i < count; i++) {
        uint32_t length = h->has_len ? f[at - 1] : (uint32_t)(n - at);
        put_row(rows + 5 * i, at, length, i == 0 ? ctr : 0, i == 0 ? gap : 0, kind(s.direction, f[at]));
        at = round_up(at + length + 1, s.align);
    }
    xcp_read r = {0, (uint32_t)count, c};
    return r;
}

xcp_written idiomatic_flexray_write(xcp_flexray_setting s, const uint8_t *packets, size_t n, const uint32_t *lengths,
                                    size_t count, uint32_t first, uint8_t fill, uint8_t *out, size_t room)
{
    if (!flexray_sound(&s))
        return not_written(1, 0, first);
    const flexray_header *h = &flexray_headers[s.header];
    if (h->has_ctr && first > 255)
        return not_written(1, 0, first);
    if (count == 0 || count > MOST_LENGTHS || (!h->has_len && count != 1) || !sum_is(lengths, count, n))
        return not_written(2, 0, first);

    size_t at = h->size, end = 0;
    for (size_t i = 0; i < count; i++) {
        end = at + lengths[i];
        if (lengths[i] == 0 || end > s.ceiling)
            return not_written(3, i, first);
        at = round_up(end + 1, s.align);
    }
    size_t total = round_up(end, 2);
    if (total > room)
        return not_written(4, 0, first);

    memset(out, fill, total);
    out[0] = (uint8_t)s.node;
    if (h->has_ctr)
        out[1] = (uint8_t)first;
    at = h->size;
    for (size_t i = 0; i < count; i++) {
        if (h->has_len)
            out[at - 1] = (uint8_t)lengths[i];
        memcpy(out + at, packets, lengths[i]);
        packets += lengths[i];
        at = round_up(at + lengths[i] + 1, s.align);
    }
    if (h->has_len && at - 1 < total)
        out[at - 1] = 0;
    xcp_written r = {0, (uint32_t)total, h->has_ctr ? (first + 1) & 0xFF : first};
    return r;
}

static int udp_sound(const xcp_udp_setting *s)
{
    return s->longest >= 8 && s->longest <= LONGEST_DATAGRAM - UDP_HEADER && s->direction <= 1;
}

/* What stands at q: 0 and the length of a packet, or the number of a refusal. */
static uint32_t udp_see(const xcp_udp_setting *s, const uint8_t *d, size_t n, size_t q, uint32_t *length)
{
    if (n - q < UDP_HEADER)
        return 5;
    *length = get(d + q, 2);
    if (*length == 0)
        return 6;
    if (*length > s->longest)
        return 3;
    return *length > n - q - UDP_HEADER ? 5 : 0;
}

xcp_read idiomatic_udp_read(xcp_udp_setting s, const uint8_t *d, size_t n, xcp_counter c, uint32_t *rows, size_t numbers)
{
    uint32_t mask = counter_mask(2), length;
    if (!udp_sound(&s) || (c.known && c.expected > mask))
        return not_read(1, 0, c);
    if (n > LONGEST_DATAGRAM)
        return not_read(2, 0, c);

    size_t count = 0;
    for (size_t q = 0; q < n; q += UDP_HEADER + length) {
        uint32_t number = udp_see(&s, d, n, q, &length);
        if (number != 0)
            return not_read(number, q, c);
        count++;
    }
    if (numbers / 5 < count)
        return not_read(4, 0, c);

    size_t at = UDP_HEADER;
    for (size_t i = 0; i < count; i++) {
        const uint8_t *header = d + at - UDP_HEADER;
        uint32_t ctr = get(header + 2, 2), gap = advance(&c, ctr, mask);
        length = get(header, 2);
        put_row(rows + 5 * i, at, length, ctr, gap, kind(s.direction, d[at]));
        at += length + UDP_HEADER;
    }
    xcp_read r = {0, (uint32_t)count, c};
    return r;
}

xcp_written idiomatic_udp_write(xcp_udp_setting s, const uint8_t *packets, size_t n, const uint32_t *lengths, size_t count,
                                uint32_t first, uint8_t *out, size_t room)
{
    uint32_t mask = counter_mask(2);
    if (!udp_sound(&s) || first > mask)
        return not_written(1, 0, first);
    if (count > MOST_LENGTHS || !sum_is(lengths, count, n))
        return not_written(2, 0, first);
    for (size_t i = 0; i < count; i++)
        if (lengths[i] == 0 || lengths[i] > s.longest)
            return not_written(3, i, first);
    size_t total = n + UDP_HEADER * count;
    if (total > room || total > LONGEST_DATAGRAM)
        return not_written(4, 0, first);

    uint32_t ctr = first;
    for (size_t i = 0; i < count; i++) {
        put(out, 2, lengths[i]);
        put(out + 2, 2, ctr);
        memcpy(out + UDP_HEADER, packets, lengths[i]);
        ctr = (ctr + 1) & mask;
        packets += lengths[i];
        out += UDP_HEADER + lengths[i];
    }
    xcp_written r = {0, (uint32_t)total, ctr};
    return r;
}
