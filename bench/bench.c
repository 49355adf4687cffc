/*
 * Measures the library against idiomatic.c and tuned.c in one process. First all three are held to the same answers, on random
 * cases and on every case that is measured; if one differs the exit status is 1. Then they take turns with a copy of tuned, with
 * memcpy of the same bytes, and where they write with the memcpy and memset of packets and free bytes alone. What the copy takes
 * against tuned shows how exact the ratios are. For a text, plain.c stands for both: its reader gives the answers, its tokenizer
 * only counts the words.
 */
#include <stdio.h>
#include <string.h>
#include <time.h>

#include "bench.h"

enum { SINGLE, MULTIPLE, STREAMING };
enum { LONGEST = 56 }; /* of a packet, for a text */
enum { TRANSFER = 262144, LENGTHS = 4096, ROWS = 131072, FRAMES = 1032, FRAME = 254, DATAGRAMS = 178, DATAGRAM = 1472, FILL = 0xEE };
enum { OURS, IDIOMATIC, TUNED, COPY, MEMCPY, LEAST, WAYS };
enum { READER = IDIOMATIC, TOKENIZER = TUNED }; /* for a text */
enum { BASIC = 1 << OURS | 1 << IDIOMATIC | 1 << TUNED | 1 << MEMCPY, READS = BASIC | 1 << COPY, WRITES = READS | 1 << LEAST };
enum { MOST_ROUNDS = 4000, SAMPLE = 100000 }; /* SAMPLE: least nanoseconds of one timed run */
enum { PASSES = 7, MOST_LINES = 128 };
enum { COUNTED = 100, COUNTED_BYTES = 20000, COUNTED_PARTS = 4 }; /* of these the instructions are counted */

typedef enum { USB, FLEXRAY, UDP } transport;

typedef struct {
    xcp_read (*usb_read)(xcp_usb_setting, const uint8_t *, size_t, xcp_counter, uint32_t *, size_t);
    xcp_written (*usb_write)(xcp_usb_setting, const uint8_t *, size_t, const uint32_t *, size_t, uint32_t, uint8_t, uint32_t,
                             uint8_t *, size_t);
    xcp_read (*flexray_read)(xcp_flexray_setting, const uint8_t *, size_t, xcp_counter, uint32_t *, size_t);
    xcp_written (*flexray_write)(xcp_flexray_setting, const uint8_t *, size_t, const uint32_t *, size_t, uint32_t, uint8_t,
                                 uint8_t *, size_t);
    xcp_read (*udp_read)(xcp_udp_setting, const uint8_t *, size_t, xcp_counter, uint32_t *, size_t);
    xcp_written (*udp_write)(xcp_udp_setting, const uint8_t *, size_t, const uint32_t *, size_t, uint32_t, uint8_t *, size_t);
} implementation;

#define WAY(name) \
    {name##_usb_read, name##_usb_write, name##_flexray_read, name##_flexray_write, name##_udp_read, name##_udp_write}

static const implementation ways[4] = {WAY(xcp), WAY(idiomatic), WAY(tuned), WAY(copy)};

/* What is measured: frames, datagrams or transfers, one behind another in `transfer`; `lengths` and `packets` are those of all. */
static struct {
    xcp_usb_setting usb;
    xcp_flexray_setting flexray;
    xcp_udp_setting udp;
    size_t n, count, bytes, parts;                              /* all bytes laid out, all packets, their bytes; frames and the like */
    uint32_t in[FRAMES], length_of[FRAMES], bytes_of[FRAMES];   /* of each: its packets, its bytes, its packets' bytes */
} it;

/* A call with the setting of `it`. */

static xcp_read read_by(const implementation *f, transport by, const uint8_t *t, size_t n, xcp_counter c, uint32_t *rows,
                        size_t numbers)
{
    switch (by) {
    case FLEXRAY: return f->flexray_read(it.flexray, t, n, c, rows, numbers);
    case UDP: return f->udp_read(it.udp, t, n, c, rows, numbers);
    default: return f->usb_read(it.usb, t, n, c, rows, numbers);
    }
}

static xcp_written write_by(const implementation *f, transport by, const uint8_t *p, size_t n, const uint32_t *l, size_t count,
                            uint32_t first, uint32_t fill_up, uint8_t *out, size_t room)
{
    switch (by) {
    case FLEXRAY: return f->flexray_write(it.flexray, p, n, l, count, first, FILL, out, room);
    case UDP: return f->udp_write(it.udp, p, n, l, count, first, out, room);
    default: return f->usb_write(it.usb, p, n, l, count, first, FILL, fill_up, out, room);
    }
}

/* Each array starts behind a page's start by an offset, another one in each pass: of the bytes that are read, of those that are
   written, and of lengths and rows. */
enum { PAGE = 4096 };
static const struct { uint32_t read, written, numbers; } offsets[PASSES] = {
    {0, 0, 0}, {1, 0, 4}, {7, 67, 8}, {64, 1, 12}, {67, 7, 16}, {33, 129, 60}, {4093, 2050, 36},
};

static _Alignas(PAGE) uint8_t packet_pages[TRANSFER + PAGE], transfer_pages[TRANSFER + PAGE], out_pages[3][TRANSFER + PAGE],
    copied_pages[TRANSFER + PAGE];
static _Alignas(PAGE) uint32_t length_pages[ROWS + PAGE], table_pages[3][5 * ROWS + PAGE];

static uint8_t *packets, *transfer, *outs[3], *copied;
static uint32_t *lengths, *tables[3];

static void place_arrays(int pass)
{
    packets = packet_pages + offsets[pass].read;
    transfer = transfer_pages + offsets[pass].read;
    copied = copied_pages + offsets[pass].written;
    lengths = length_pages + offsets[pass].numbers / sizeof *lengths;
    for (int w = 0; w < 3; w++) {
        outs[w] = out_pages[w] + offsets[pass].written;
        tables[w] = table_pages[w] + offsets[pass].numbers / sizeof *tables[w];
    }
}

static unsigned long long seed = 1;

static uint32_t random_below(uint32_t n)
{
    seed ^= seed << 13;
    seed ^= seed >> 7;
    seed ^= seed << 17;
    return (uint32_t)((seed >> 32) * n >> 32);
}

static uint32_t random_from(uint32_t least, uint32_t most)
{
    return least + random_below(most - least + 1);
}

static double now(void)
{
    struct timespec t;
    clock_gettime(CLOCK_MONOTONIC, &t);
    return (double)t.tv_sec * 1e9 + (double)t.tv_nsec;
}

static void random_bytes(uint8_t *to, size_t n)
{
    for (size_t i = 0; i < n; i++)
        to[i] = (uint8_t)random_below(256);
}

/* The same answers? */

static int same_read(xcp_read a, xcp_read b)
{
    return a.number == b.number && a.value == b.value && a.counter.known == b.counter.known
        && a.counter.expected == b.counter.expected;
}

static int same_written(xcp_written a, xcp_written b)
{
    return a.number == b.number && a.value == b.value && a.counter == b.counter;
}

/* Reads in all three ways: answers and whole tables, behind the rows too. */
static int agree_read(transport by, const uint8_t *t, size_t n, xcp_counter c, size_t numbers, size_t table, xcp_read *answer)
{
    xcp_read r[3];
    for (int w = 0; w < 3; w++) {
        memset(tables[w], 0xA5, table * sizeof *tables[w]);
        r[w] = read_by(&ways[w], by, t, n, c, tables[w], numbers);
    }
    *answer = r[0];
    for (int w = 1; w < 3; w++)
        if (!same_read(r[0], r[w]) || memcmp(tables[0], tables[w], table * sizeof *tables[0]) != 0)
            return 0;
    return 1;
}

static int agree_write(transport by, const uint8_t *p, size_t n, const uint32_t *l, size_t count, uint32_t first,
                       uint32_t fill_up, size_t room, size_t whole, xcp_written *answer)
{
    xcp_written r[3];
    for (int w = 0; w < 3; w++) {
        memset(outs[w], 0x5A, whole);
        r[w] = write_by(&ways[w], by, p, n, l, count, first, fill_up, outs[w], room);
    }
    *answer = r[0];
    for (int w = 1; w < 3; w++)
        if (!same_written(r[0], r[w]) || memcmp(outs[0], outs[w], whole) != 0)
            return 0;
    return 1;
}

/* A setting, sound or not. */
static void random_setting(transport by)
{
    static const uint32_t pairs[12][2] = {{0, 1}, {1, 2}, {2, 4}, {3, 1}, {3, 2}, {4, 4}, {5, 1}, {5, 2}, {6, 4}, {7, 1},
                                          {8, 2}, {8, 4}};
    uint32_t header = random_below(6), pair = random_below(12);
    it.usb = (xcp_usb_setting){header, random_below(3), 1u << random_below(4), 8 * random_from(1, random_below(4) ? 12 : 128),
                               random_from(8, header < 3 ? 255 : random_below(4) ? 300 : 3000), random_below(2)};
    it.flexray = (xcp_flexray_setting){random_below(256), random_below(2), 2 * random_from(4, 127), pairs[pair][0], pairs[pair][1]};
    it.udp = (xcp_udp_setting){random_from(random_below(4) ? 1400 : 8, 1468), random_below(2)};
    if (random_below(16) == 0) {
        uint32_t *fields[] = {&it.usb.header, &it.usb.packing, &it.usb.align, &it.usb.data_packet, &it.usb.longest,
                              &it.usb.direction, &it.flexray.node, &it.flexray.direction, &it.flexray.ceiling,
                              &it.flexray.header, &it.flexray.align, &it.udp.longest, &it.udp.direction};
        static const uint32_t from[] = {0, 6, 11, 13}; /* where the fields of a transport start */
        *fields[random_from(from[by], from[by + 1] - 1)] =
            random_below(4) == 0 ? 0u - random_below(3) : random_below(random_below(2) ? 300 : 3000);
    }
}

/* Gives the sum of the lengths. A datagram is in one of four cases about as long as it may be. */
static uint32_t random_lengths(uint32_t count, transport by)
{
    uint32_t most = 1u << random_below(7), sum = 0;
    if (random_below(8) == 0)
        most = by == FLEXRAY ? 250 : random_below(2) ? 255 : 3000;
    for (uint32_t k = 0; k < count; k++)
        sum += lengths[k] = random_from(random_below(count < 24 ? 40 : 400) != 0, most);
    if (by == UDP && count != 0 && random_below(4) == 0) {
        uint32_t others = sum - lengths[count - 1], about = random_from(DATAGRAM - 3, DATAGRAM + 3);
        if (others + 4 * count < about)
            sum = others + (lengths[count - 1] = about - others - 4 * count);
    }
    return sum;
}

/* Random settings and lists are written; what was written, or any bytes, is damaged and read. Gives the cases in which the three
   differ. */
static unsigned differing(unsigned cases, unsigned *refused)
{
    enum { ROOM = 16384, NUMBERS = 20000 };
    static const transport turns[4] = {USB, USB, FLEXRAY, UDP};
    unsigned differ = 0;
    *refused = 0;
    for (unsigned i = 0; i < cases; i++) {
        transport by = turns[i % 4];
        place_arrays((int)(i % PASSES));
        random_setting(by);
        uint32_t count = random_below(by == FLEXRAY ? 4 : 24);
        if (by != USB && !random_below(2))
            count = by == FLEXRAY ? 1 : random_below(200);
        uint32_t sum = random_lengths(count, by);
        size_t room = random_below(8) ? ROOM : random_below(300);
        uint32_t first = random_below(8) ? random_below(256) : random_below(70000);
        xcp_written w;
        const uint8_t *p = packets + random_below(TRANSFER / 2);
        if (!agree_write(by, p, sum + (random_below(30) == 0), lengths, count, first, random_below(2), room, ROOM + 100, &w))
            differ++;
        *refused += w.number != 0;

        size_t n = w.number == 0 ? w.value : random_below(16) ? random_below(300) : random_from(DATAGRAM - 3, DATAGRAM + 3);
        memcpy(transfer, w.number == 0 ? outs[0] : p, n);
        if (n != 0 && random_below(2))
            transfer[random_below((uint32_t)n)] = (uint8_t)random_below(random_below(2) ? random_from(1, 8) : 256);
        if (n != 0 && random_below(4) == 0)
            n -= random_below(n < 9 ? (uint32_t)n : 9);
        xcp_counter c = {random_below(3), random_below(8) ? first : random_below(70000)};
        xcp_read r;
        if (!agree_read(by, transfer, n, c, random_below(8) ? NUMBERS : random_below(60), NUMBERS, &r))
            differ++;
        *refused += r.number != 0;
    }
    return differ;
}

static int same_settings(xcp_settings a, xcp_settings b)
{
    return memcmp(&a, &b, sizeof a) == 0;
}

/* The texts that are measured, whole and damaged: cut, or one byte too long, and up to three other bytes in it, half of them among
   the first words. Gives the cases in which the library and the plain reader differ. */
static unsigned differing_texts(unsigned cases, unsigned *refused)
{
    static const uint8_t bytes[] = "/*\"\n 0x1A_";
    static const uint32_t longest[] = {LONGEST, LONGEST, 7, 8, 255, 256, 65535, 65536};
    static uint8_t text[TEXT + 1];
    unsigned differ = 0;
    *refused = 0;
    for (unsigned i = 0; i < cases; i++) {
        make_text((text_kind)(i % TEXTS), text);
        text[TEXT] = '\n';
        uint32_t way = i < TEXTS ? 2 : random_below(8);
        size_t n = way == 0 ? TEXT + 1 : way == 1 ? random_below(TEXT) : TEXT;
        for (uint32_t k = i < TEXTS ? 0 : random_below(4); k != 0; k--)
            text[random_below(random_below(2) ? 500 : TEXT)] = bytes[random_below(sizeof bytes - 1)];
        uint32_t x = longest[random_below(8)];
        xcp_settings ours = xcp_usb_settings(text, n, x);
        differ += !same_settings(ours, plain_usb_settings(text, n, x));
        *refused += ours.number != 0;
    }
    return differ;
}

/* Making what is measured. */

/* Writes the next packets, as many as lengths[it.count..] names, behind what was made. */
static xcp_written append(transport by, size_t count, uint32_t ctr, int fill_up, size_t *bytes)
{
    *bytes = 0;
    for (size_t i = 0; i < count; i++)
        *bytes += lengths[it.count + i];
    return write_by(&ways[OURS], by, packets + it.bytes, *bytes, lengths + it.count, count, ctr, (uint32_t)fill_up,
                    transfer + it.n, TRANSFER - it.n);
}

/* The same, as one of many frames, datagrams or transfers. */
static int append_part(transport by, size_t count, uint32_t *ctr)
{
    size_t bytes;
    xcp_written w = append(by, count, *ctr, 0, &bytes);
    if (w.number != 0)
        return 0;
    it.in[it.parts] = (uint32_t)count;
    it.bytes_of[it.parts] = (uint32_t)bytes;
    it.length_of[it.parts++] = w.value;
    it.count += count;
    it.bytes += bytes;
    it.n += w.value;
    *ctr = w.counter;
    return 1;
}

/* Draws lengths until a write or the packets' bytes are full, and gives how many of them fit behind what was made. */
static size_t draw_fitting(uint32_t least, uint32_t most, uint32_t ctr, int fill_up)
{
    size_t count = 0, bytes = 0, fits = 0, sum;
    while (count < LENGTHS && it.count + count < ROWS) {
        uint32_t n = random_from(least, most);
        if (it.bytes + bytes + n > TRANSFER)
            break;
        lengths[it.count + count++] = n;
        bytes += n;
    }
    for (size_t step = LENGTHS; step != 0; step /= 2)
        if (fits + step <= count && append(USB, fits + step, ctr, fill_up, &sum).number == 0)
            fits += step;
    return fits;
}

/* One transfer with as many packets as fit; not more than 4096 in one write. Where it is only read, writes that are filled up are
   joined until no more fits: a reader takes more messages than one write gives. */
static int make_usb(xcp_usb_setting s, uint32_t least, uint32_t most, int joined)
{
    it.usb = s;
    it.n = it.count = it.bytes = 0;
    it.parts = 1;
    uint32_t ctr = 0;
    do {
        size_t bytes, fits = draw_fitting(least, most, ctr, joined);
        if (fits == 0)
            break;
        xcp_written w = append(USB, fits, ctr, joined, &bytes);
        if (w.number != 0)
            return 0;
        it.n += w.value;
        it.bytes += bytes;
        it.count += fits;
        ctr = w.counter;
    } while (joined);
    it.in[0] = (uint32_t)it.count;
    it.length_of[0] = (uint32_t)it.n;
    it.bytes_of[0] = (uint32_t)it.bytes;
    return it.count != 0;
}

/* How many frames or datagrams, and their most bytes; where the first packet stands. A further one stands `between` bytes behind the end
   of the one before, or less, so that its place is a multiple of `align`. */
typedef struct { size_t parts; uint32_t whole, first, between, align; } shape;

/* Frames with LEN, or datagrams: in each, packets until none fits, the last one cut to fit. */
static int make_many(transport by, shape p, uint32_t least, uint32_t most)
{
    uint32_t ctr = 0;
    it.n = it.count = it.bytes = it.parts = 0;
    while (it.parts < p.parts) {
        size_t count = 0;
        for (uint32_t n, at = p.first; at < p.whole; at = (at + n + p.between) & ~(p.align - 1)) {
            n = random_from(least, most);
            if (at + n > p.whole)
                n = p.whole - at;
            lengths[it.count + count++] = n;
        }
        if (!append_part(by, count, &ctr))
            return 0;
    }
    return 1;
}

/* The same packets as so many transfers, each with as many packets. */
static int make_parts(xcp_usb_setting s, uint32_t least, uint32_t most, size_t count, size_t parts)
{
    uint32_t ctr = 0;
    it.usb = s;
    it.n = it.count = it.bytes = it.parts = 0;
    while (it.parts < parts) {
        for (size_t i = 0; i < count / parts; i++)
            lengths[it.count + i] = random_from(least, most);
        if (!append_part(USB, count / parts, &ctr))
            return 0;
    }
    return 1;
}

/* Where a packet comes from and goes to, its length, and the free bytes behind it up to the next header. */
typedef struct { uint32_t from, to, length, behind; } move;

static move moves[ROWS];

/* The moves of what was made, from the rows of a reader. */
static void make_moves(transport by)
{
    size_t from = 0, start = 0;
    move *m = moves;
    for (size_t i = 0; i < it.parts; i++) {
        uint32_t n = it.length_of[i], *row = tables[0];
        xcp_counter fresh = {0, 0};
        read_by(&ways[IDIOMATIC], by, transfer + start, n, fresh, row, 5 * ROWS);
        uint32_t header = by == FLEXRAY ? 1 : row[0];
        for (uint32_t k = it.in[i]; k != 0; k--, row += 5, m++) {
            uint32_t end = row[0] + row[1], next = k > 1 ? row[5] - header : n;
            *m = (move){(uint32_t)from, (uint32_t)start + row[0], row[1], next - end};
            from += row[1];
        }
        start += n;
    }
}

/* One run of each job in one of the ways. The sum of what they answer is kept, so that no call is left out. */

typedef enum { USB_READ, USB_WRITE, FLEXRAY_READ, FLEXRAY_WRITE, UDP_READ, UDP_WRITE, USB_SETTINGS } job;

static int is_read(job j)
{
    return j == USB_READ || j == FLEXRAY_READ || j == UDP_READ;
}

static transport transport_of(job j)
{
    return j == FLEXRAY_READ || j == FLEXRAY_WRITE ? FLEXRAY : j == UDP_READ || j == UDP_WRITE ? UDP : USB;
}

static volatile uint32_t kept;

/* The text stands in `transfer`. */
static uint32_t run_text(int w)
{
    if (w == TOKENIZER)
        return (uint32_t)plain_words(transfer, it.n);
    return (w == OURS ? xcp_usb_settings : plain_usb_settings)(transfer, it.n, LONGEST).res_daq.data_packet;
}

static void run_memcpy(void)
{
    memcpy(copied, transfer, it.n);
    __asm__ volatile("" : : "r"(copied) : "memory");
}

/* What no writer can leave out: each packet is copied, the free bytes behind it are filled. */
static void run_least(void)
{
    for (size_t i = 0; i < it.count; i++) {
        uint8_t *to = outs[0] + moves[i].to;
        memcpy(to, packets + moves[i].from, moves[i].length);
        if (moves[i].behind != 0)
            memset(to + moves[i].length, FILL, moves[i].behind);
    }
    __asm__ volatile("" : : "r"(outs[0]) : "memory");
}

static void run_calls(job j, const implementation *f)
{
    const transport by = transport_of(j);
    const int reads = is_read(j);
    const uint8_t *t = transfer, *p = packets;
    const uint32_t *l = lengths;
    uint8_t *out = outs[0];
    xcp_read r = {0, 0, {0, 0}};
    xcp_written x = {0, 0, 0};
    for (size_t i = 0; i < it.parts; i++) {
        if (reads) {
            r = read_by(f, by, t, it.length_of[i], r.counter, tables[0], 5 * ROWS);
            kept += r.value;
        } else {
            x = write_by(f, by, p, it.bytes_of[i], l, it.in[i], x.counter, 0, out, it.length_of[i]);
            kept += x.value;
        }
        t += it.length_of[i];
        out += it.length_of[i];
        p += it.bytes_of[i];
        l += it.in[i];
    }
}

static void run(job j, int w)
{
    if (w == MEMCPY)
        run_memcpy();
    else if (w == LEAST)
        run_least();
    else if (j == USB_SETTINGS)
        kept += run_text(w);
    else
        run_calls(j, &ways[w]);
}

/* Whether the three agree on all of it, and give back what was put in: reading the rows, writing the bytes. */
static int agree(job j)
{
    const transport by = transport_of(j);
    const int reads = is_read(j);
    size_t from = 0, at = 0, to = 0;
    xcp_read r = {0, 0, {0, 0}};
    xcp_written w = {0, 0, 0};
    for (size_t i = 0; i < it.parts; i++) {
        size_t n = it.length_of[i], table = 5 * (it.in[i] + 8u);
        if (reads) {
            if (!agree_read(by, transfer + to, n, r.counter, table, table, &r) || r.number != 0 || r.value != it.in[i])
                return 0;
            for (size_t k = 0; k < it.in[i]; k++)
                if (tables[0][5 * k + 1] != lengths[at + k])
                    return 0;
        } else {
            if (!agree_write(by, packets + from, it.bytes_of[i], lengths + at, it.in[i], w.counter, 0, n, n, &w) || w.number != 0
                || w.value != n || memcmp(outs[0], transfer + to, n) != 0)
                return 0;
        }
        from += it.bytes_of[i];
        at += it.in[i];
        to += n;
    }
    return 1;
}

/* Measuring. */

static double samples[WAYS][MOST_ROUNDS], ratio[MOST_ROUNDS];

static void sort(double *a, int n)
{
    for (int gap = n / 2; gap > 0; gap /= 2)
        for (int i = gap; i < n; i++) {
            double x = a[i];
            int k = i;
            for (; k >= gap && a[k - gap] > x; k -= gap)
                a[k] = a[k - gap];
            a[k] = x;
        }
}

static double median(double *a, int n)
{
    sort(a, n);
    return n % 2 ? a[n / 2] : (a[n / 2 - 1] + a[n / 2]) / 2;
}

static double median_ratio(int a, int b, int rounds)
{
    for (int i = 0; i < rounds; i++)
        ratio[i] = samples[a][i] / samples[b][i];
    return median(ratio, rounds);
}

static double timed(job j, int w, int times)
{
    double t = now();
    for (int k = 0; k < times; k++)
        run(j, w);
    return now() - t;
}

/* How often it must run to be timed. */
static int repeats(job j, int w)
{
    int times = 1;
    run(j, w);
    while (timed(j, w, times) < SAMPLE)
        times *= 2;
    return times;
}

/* ns for one run in each way, and the ratios: ours to idiomatic, ours to tuned, the copy of tuned to tuned. */
typedef struct { double ns[WAYS], idiomatic, tuned, copy; int rounds; } measured;

/* Each round times every way of the set, in a random order, so that none always runs behind the same one. */
static measured measure(job j, int set, double budget)
{
    measured m = {{0}, 0, 0, 0, 0};
    int order[WAYS], repeat[WAYS], n = 0;
    for (int w = 0; w < WAYS; w++)
        if (set >> w & 1) {
            order[n++] = w;
            repeat[w] = repeats(j, w);
        }
    double start = now();
    for (m.rounds = 0; m.rounds < MOST_ROUNDS && (m.rounds < 9 || now() - start < budget); m.rounds++)
        for (int left = n; left != 0; left--) {
            int k = (int)random_below((uint32_t)left), w = order[k];
            order[k] = order[left - 1];
            order[left - 1] = w;
            samples[w][m.rounds] = timed(j, w, repeat[w]) / repeat[w];
        }
    m.idiomatic = median_ratio(OURS, IDIOMATIC, m.rounds);
    m.tuned = median_ratio(OURS, TUNED, m.rounds);
    m.copy = set >> COPY & 1 ? median_ratio(COPY, TUNED, m.rounds) : 1.0;
    for (int k = 0; k < n; k++)
        m.ns[order[k]] = median(samples[order[k]], m.rounds);
    return m;
}

/* The instructions for a message: of all that a run takes, the caller included, with the first messages, frames or datagrams of what
   is measured. `moves` tells where the messages end. */
static double instructions(job j, int w)
{
    size_t parts = it.parts, count = 0;
    uint32_t in = it.in[0], length = it.length_of[0], bytes = it.bytes_of[0];
    if (transport_of(j) != USB) {
        for (it.parts = 0; it.parts < COUNTED_PARTS; it.parts++)
            count += it.in[it.parts];
    } else {
        while (count < it.count && count < COUNTED && moves[count].from < COUNTED_BYTES)
            count++;
        if (count < it.count) {
            it.in[0] = (uint32_t)count;
            it.length_of[0] = moves[count].to - moves[0].to;
            it.bytes_of[0] = moves[count].from;
        }
    }
    count_start();
    run(j, w);
    unsigned long counted = count_stop();
    it.parts = parts;
    it.in[0] = in;
    it.length_of[0] = length;
    it.bytes_of[0] = bytes;
    return (double)counted / (double)count;
}

static int differ, counts;

/*
 * A row of the table. All rows are measured in each of the passes, one pass behind another, so that what disturbs the machine for
 * some seconds disturbs one pass of a row and not the row.
 */
typedef struct {
    const char *name, *setting, *sizes;
    job j;
    uint32_t header, align;
    size_t n, count;
    double ns[WAYS][PASSES], idiomatic[PASSES], tuned[PASSES], copy[PASSES];
    double ours_counted, tuned_counted;
} line;

static line lines[MOST_LINES];
static int line_count, pass;

static void row(job j, const char *name, uint32_t header, const char *packing, uint32_t align, const char *sizes, double budget)
{
    if (line_count == MOST_LINES || !agree(j)) {
        printf("%s, %u %s, %s: the answers differ\n", name, header, packing, sizes);
        differ = 1;
        return;
    }
    make_moves(transport_of(j));
    line *l = &lines[line_count++];
    l->name = name;
    l->setting = packing;
    l->sizes = sizes;
    l->j = j;
    l->header = header;
    l->align = align;
    l->n = it.n;
    l->count = it.count;
    measured m = measure(j, is_read(j) ? READS : WRITES, budget / PASSES);
    for (int w = 0; w < WAYS; w++)
        l->ns[w][pass] = m.ns[w];
    l->idiomatic[pass] = m.idiomatic;
    l->tuned[pass] = m.tuned;
    l->copy[pass] = m.copy;
    if (pass == 0 && counts) {
        l->ours_counted = instructions(j, OURS);
        l->tuned_counted = instructions(j, TUNED);
    }
}

/* Each row's ratio of the copy to tuned, sorted. */
static double copies[MOST_LINES];

/* How exact a ratio is: 95 of 100 rows of the copy are not further from 1, above or below, than this factor. */
static double resolution(void)
{
    double apart[MOST_LINES];
    for (int i = 0; i < line_count; i++) {
        copies[i] = median(lines[i].copy, PASSES);
        apart[i] = copies[i] < 1.0 ? 1.0 / copies[i] : copies[i];
    }
    sort(copies, line_count);
    sort(apart, line_count);
    return apart[line_count - 1 - line_count / 20];
}

static void print_line(line *l, double most)
{
    double messages = (double)l->count, idiomatic = median(l->idiomatic, PASSES), tuned = median(l->tuned, PASSES);
    if (transport_of(l->j) == UDP)
        printf("| %s | | | ", l->name); /* one header, no alignment */
    else
        printf("| %s | %u%s%s | %u | ", l->name, l->header, *l->setting ? " " : "", l->setting, l->align);
    printf("%s | %lu | %lu | %.2f | %.2f%s | %.2f%s | %.2f | ", l->sizes, (unsigned long)l->n, (unsigned long)l->count,
           median(l->ns[OURS], PASSES) / messages, idiomatic, idiomatic > 0.8 * most ? " *" : "", tuned, tuned > most ? " *" : "",
           median(l->copy, PASSES));
    if (counts)
        printf("%.1f | %.1f | ", l->ours_counted, l->tuned_counted);
    printf("%.2f | ", median(l->ns[MEMCPY], PASSES) / messages);
    if (is_read(l->j))
        printf("|\n");
    else
        printf("%.2f |\n", median(l->ns[LEAST], PASSES) / messages);
}

/* How far the passes of a row are apart. The copy does not show it: what else the machine does slows down another program more, or less,
   than tuned. */
static void print_passes(void)
{
    double apart[MOST_LINES];
    for (int i = 0; i < line_count; i++) {
        sort(lines[i].tuned, PASSES);
        apart[i] = lines[i].tuned[PASSES - 1] / lines[i].tuned[0];
    }
    double middle = median(apart, line_count);
    printf("Between the passes of a row ours/tuned changes by a factor of %.2f (median of the rows), at most %.2f.\n", middle,
           apart[line_count - 1]);
}

static void print_lines(void)
{
    int over[4] = {0, 0, 0, 0}, edge = line_count / 20;
    double most = resolution();
    printf("| what | header, packing | align | packet bytes | bytes | messages | ours, ns/message | ours/idiomatic | ours/tuned "
           "| copy/tuned |%s memcpy, ns/message | memcpy and memset, ns/message |\n",
           counts ? " ours, instructions/message | tuned, instructions/message |" : "");
    printf("|---|---|---|---|---|---|---|---|---|---|%s---|---|\n", counts ? "---|---|" : "");
    for (int i = 0; i < line_count; i++) {
        double idiomatic = median(lines[i].idiomatic, PASSES), tuned = median(lines[i].tuned, PASSES);
        over[0] += idiomatic > 0.8;
        over[1] += idiomatic > 0.8 * most;
        over[2] += tuned > 1.0;
        over[3] += tuned > most;
        print_line(&lines[i], most);
    }
    printf("\n%d rows. copy/tuned: %.3f to %.3f, nine tenths of the rows %.3f to %.3f.\n", line_count, copies[0],
           copies[line_count - 1], copies[edge], copies[line_count - 1 - edge]);
    printf("Resolution: 95 of 100 rows of the copy are between %.3f and %.3f. A ratio between them is no difference.\n", 1.0 / most,
           most);
    print_passes();
    printf("Over 0.8 of idiomatic: %d; beyond the resolution, over %.3f: %d.\n", over[0], 0.8 * most, over[1]);
    printf("Over 1.0 of tuned: %d; beyond the resolution, over %.3f: %d.\n", over[2], most, over[3]);
    printf("A star marks what is beyond the resolution.\n");
    if (counts)
        printf("Instructions: all of a call, with its caller and the C library, for up to %d messages or for %d frames or datagrams; "
               "for one message.\n", COUNTED, COUNTED_PARTS);
    else
        printf("Instructions could not be counted here.\n");
}

static const char *const packings[3] = {"single", "multiple", "streaming"};

/* One row: the packet lengths are those of a class, 0 to 2; the longest class hangs on LEN and packing. */
static void usb_row(job j, const char *name, uint32_t header, uint32_t align, uint32_t packing, int size, double budget)
{
    uint32_t wide = header > 2, least = 1, most = size == 0 ? 8 : 64;
    xcp_usb_setting s = {header, packing, align, 512, wide ? 65535 : 255, 0};
    const char *sizes = size == 0 ? "1-8" : "1-64";
    if (size == 2 && !wide) {
        least = 200, most = 255, sizes = "200-255";
    } else if (size == 2 && packing == STREAMING) {
        least = 1000, most = 60000, sizes = "1000-60000";
    } else if (size == 2) {
        s.data_packet = 1024;
        least = 1000, most = 1020, sizes = "1000-1020";
    }
    seed = 88172645463325252u + align * 1000 + header * 100 + packing * 10 + (uint32_t)size;
    if (!make_usb(s, least, most, j == USB_READ)) {
        printf("%s: no transfer was made\n", sizes);
        differ = 1;
        return;
    }
    row(j, name, header, packings[packing], align, sizes, budget);
}

static void usb_rows(job j, const char *name, double budget)
{
    static const uint32_t pairs[5][2] = {{0, 1}, {1, 4}, {4, 4}, {4, 1}, {5, 8}}; /* header, alignment */
    for (int pair = 0; pair < 5; pair++)
        for (uint32_t packing = SINGLE; packing <= STREAMING; packing++)
            for (int size = 0; size < 3; size++)
                usb_row(j, name, pairs[pair][0], pairs[pair][1], packing, size, budget);
}

/* The packet lengths of a row. */
typedef struct { const char *sizes; uint32_t least, most; } range;

/* Rows of frames or datagrams, by the setting of `it`. */
static void part_rows(job j, const char *name, shape p, uint32_t header, const range sizes[3], double budget)
{
    for (uint32_t size = 0; size < 3; size++) {
        seed = 362436069u + size;
        if (!make_many(transport_of(j), p, sizes[size].least, sizes[size].most)) {
            printf("%s, %s: nothing was made\n", name, sizes[size].sizes);
            differ = 1;
            continue;
        }
        row(j, name, header, "", p.align, sizes[size].sizes, budget);
    }
}

static void flexray_rows(job j, const char *name, double budget)
{
    static const range sizes[3] = {{"1-8", 1, 8}, {"1-64", 1, 64}, {"200-251", 200, 251}};
    static const uint32_t headers[2][3] = {{7, 1, 3}, {8, 4, 4}}; /* header, alignment, bytes of the header */
    for (int k = 0; k < 2; k++) {
        const uint32_t header = headers[k][0], align = headers[k][1];
        it.flexray = (xcp_flexray_setting){7, 0, FRAME, header, align};
        part_rows(j, name, (shape){FRAMES, FRAME, headers[k][2], align, align}, header, sizes, budget);
    }
}

static void udp_rows(job j, const char *name, double budget)
{
    static const range sizes[3] = {{"1-8", 1, 8}, {"1-64", 1, 64}, {"200-1468", 200, 1468}};
    it.udp = (xcp_udp_setting){1468, 0};
    part_rows(j, name, (shape){DATAGRAMS, DATAGRAM, 4, 4, 1}, 0, sizes, budget);
}

/* The same packets as 16 transfers, 8, and so on to one, by turns: the time for one message should not grow with the transfer. */
static void lengths_table(double budget)
{
    enum { LINES = 5, TURNS = 15 };
    static double reads[LINES][TURNS], writes[LINES][TURNS], bytes[LINES], messages[LINES];
    for (int turn = 0; turn < TURNS; turn++)
        for (int line = 0; line < LINES; line++) {
            size_t parts = 16u >> line;
            xcp_usb_setting s = {4, STREAMING, 4, 512, 65535, 0};
            seed = 521288629u;
            if (!make_parts(s, 64, 128, 2560, parts) || !agree(USB_READ) || !agree(USB_WRITE)) {
                printf("%lu transfers: the answers differ\n", (unsigned long)parts);
                differ = 1;
                return;
            }
            bytes[line] = (double)it.n / (double)parts;
            messages[line] = (double)it.count / (double)parts;
            reads[line][turn] = measure(USB_READ, BASIC, budget / TURNS).ns[OURS] / (double)parts;
            writes[line][turn] = measure(USB_WRITE, BASIC, budget / TURNS).ns[OURS] / (double)parts;
        }
    printf("\n| transfer, bytes | messages | read, us | read, ns/message | write, us | write, ns/message |\n|---|---|---|---|---|---|\n");
    for (int line = 0; line < LINES; line++) {
        double r = median(reads[line], TURNS), w = median(writes[line], TURNS);
        printf("| %.0f | %.0f | %.2f | %.2f | %.2f | %.2f |\n", bytes[line], messages[line], r / 1e3, r / messages[line], w / 1e3,
               w / messages[line]);
    }
}

/* A row of the table of texts: ns in each way, and the ratios. */
typedef struct { size_t words; double ns[3][PASSES], of_reader[PASSES], of_tokenizer[PASSES]; } text_line;

static text_line text_lines[TEXTS];
static const char *const text_names[TEXTS] = {"keywords", "comments", "nested"};

static void text_rows(double budget)
{
    for (int kind = 0; kind < TEXTS; kind++) {
        text_line *l = &text_lines[kind];
        make_text((text_kind)kind, transfer);
        it.n = TEXT;
        l->words = plain_words(transfer, TEXT);
        xcp_settings a = xcp_usb_settings(transfer, TEXT, LONGEST);
        if (a.number != 0 || !same_settings(a, plain_usb_settings(transfer, TEXT, LONGEST))) {
            printf("text, %s: refused, or the answers differ\n", text_names[kind]);
            differ = 1;
            return;
        }
        measured m = measure(USB_SETTINGS, BASIC, budget / PASSES);
        for (int w = 0; w < 3; w++)
            l->ns[w][pass] = m.ns[w];
        l->of_reader[pass] = m.idiomatic;
        l->of_tokenizer[pass] = m.tuned;
    }
}

static double megabytes(double *ns)
{
    return TEXT * 1e3 / median(ns, PASSES);
}

static void print_texts(void)
{
    printf("\n| text | bytes | words | ours, us | ours, MB/s | tokenizer, MB/s | reader, MB/s | ours/tokenizer | ours/reader |\n"
           "|---|---|---|---|---|---|---|---|---|\n");
    for (int kind = 0; kind < TEXTS; kind++) {
        text_line *l = &text_lines[kind];
        double of_tokenizer = median(l->of_tokenizer, PASSES);
        printf("| %s | %d | %lu | %.2f | %.0f | %.0f | %.0f | %.2f%s | %.2f |\n", text_names[kind], TEXT, (unsigned long)l->words,
               median(l->ns[OURS], PASSES) / 1e3, megabytes(l->ns[OURS]), megabytes(l->ns[TOKENIZER]), megabytes(l->ns[READER]),
               of_tokenizer, of_tokenizer > 1.0 ? " *" : "", median(l->of_reader, PASSES));
    }
}

int main(void)
{
    double budget = 1.2e9, start = now();

    random_bytes(packet_pages, sizeof packet_pages);
    for (size_t i = 0; i < sizeof packet_pages; i += 3)
        packet_pages[i] |= 0xF8; /* so that every kind is frequent */
    unsigned refused, cases = 30000;
    unsigned bad = differing(cases, &refused);
    printf("%u random writes and %u random reads, %u of them refused: %u differ\n", cases, cases, refused, bad);
    unsigned bad_texts = differing_texts(cases, &refused);
    printf("%u texts, %u of them refused: %u differ\n\n", cases, refused, bad_texts);
    if (bad != 0 || bad_texts != 0)
        return 1;

    counts = count_begin();
    random_bytes(packet_pages, sizeof packet_pages);
    for (pass = 0; pass < PASSES && !differ; pass++) {
        line_count = 0;
        place_arrays(pass);
        usb_rows(USB_READ, "USB read", budget);
        usb_rows(USB_WRITE, "USB write", budget);
        flexray_rows(FLEXRAY_READ, "FlexRay read", budget);
        flexray_rows(FLEXRAY_WRITE, "FlexRay write", budget);
        udp_rows(UDP_READ, "UDP read", budget);
        udp_rows(UDP_WRITE, "UDP write", budget);
        place_arrays(0);
        text_rows(budget);
    }
    if (!differ) {
        print_lines();
        print_texts();
        lengths_table(budget);
    }
    printf("\n%.0f seconds\n", (now() - start) / 1e9);
    return differ;
}
