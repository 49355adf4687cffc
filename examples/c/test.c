/* Calls each function of plumagemud.h and compares all that it returns, and what it leaves of the table and the output. */
#include <stdio.h>

#include "plumagemud.h"

#define COUNT(a) (sizeof(a) / sizeof((a)[0]))
#define CHECK(holds) check((holds) != 0, #holds, __LINE__)

_Static_assert(sizeof(xcp_usb_setting) == 24, "six numbers");
_Static_assert(sizeof(xcp_flexray_setting) == 20, "five numbers");
_Static_assert(sizeof(xcp_udp_setting) == 8, "two numbers");
_Static_assert(sizeof(xcp_counter) == 8, "two numbers");
_Static_assert(sizeof(xcp_read) == 16, "four numbers");
_Static_assert(sizeof(xcp_written) == 12, "three numbers");
_Static_assert(sizeof(xcp_checked) == 8, "two numbers");
_Static_assert(sizeof(xcp_settings) == 56, "fourteen numbers");

static unsigned passed, failed;

static void check(int holds, const char *what, int line)
{
    if (holds) {
        passed++;
        return;
    }
    failed++;
    printf("test.c:%d: not so: %s\n", line, what);
}

static int same_bytes(const uint8_t *a, const uint8_t *b, size_t n)
{
    for (size_t i = 0; i < n; i++)
        if (a[i] != b[i])
            return 0;
    return 1;
}

static int same_numbers(const uint32_t *a, const uint32_t *b, size_t n)
{
    for (size_t i = 0; i < n; i++)
        if (a[i] != b[i])
            return 0;
    return 1;
}

static int all_bytes(const uint8_t *a, size_t n, uint8_t value)
{
    for (size_t i = 0; i < n; i++)
        if (a[i] != value)
            return 0;
    return 1;
}

static int all_numbers(const uint32_t *a, size_t n, uint32_t value)
{
    for (size_t i = 0; i < n; i++)
        if (a[i] != value)
            return 0;
    return 1;
}

static int read_is(xcp_read r, uint32_t number, uint32_t value, uint32_t known, uint32_t expected)
{
    return r.number == number && r.value == value && r.counter.known == known && r.counter.expected == expected;
}

static int written_is(xcp_written w, uint32_t number, uint32_t value, uint32_t counter)
{
    return w.number == number && w.value == value && w.counter == counter;
}

static int checked_is(xcp_checked c, uint32_t number, uint32_t place)
{
    return c.number == number && c.place == place;
}

static int same_setting(xcp_usb_setting a, xcp_usb_setting b)
{
    return a.header == b.header && a.packing == b.packing && a.align == b.align && a.data_packet == b.data_packet
        && a.longest == b.longest && a.direction == b.direction;
}

static int settings_are(xcp_settings a, xcp_usb_setting cmd_stim, xcp_usb_setting res_daq)
{
    return a.number == 0 && a.place == 0 && same_setting(a.cmd_stim, cmd_stim) && same_setting(a.res_daq, res_daq);
}

static int settings_refused(xcp_settings a, uint32_t number, uint32_t place)
{
    static const xcp_usb_setting zeros = {0, 0, 0, 0, 0, 0};
    return a.number == number && a.place == place && same_setting(a.cmd_stim, zeros) && same_setting(a.res_daq, zeros);
}

/* what a table and an output hold before each call */
enum { OLD = 0xA5 };

static uint32_t rows[20];
static uint8_t out[1480];

static void renew(void)
{
    for (size_t i = 0; i < COUNT(rows); i++)
        rows[i] = OLD;
    for (size_t i = 0; i < COUNT(out); i++)
        out[i] = OLD;
}

static const xcp_counter fresh = {0, 0};
static const xcp_counter known = {7, 250};

/* U1 of document 01, and the 12 bytes of its first example */
static const xcp_usb_setting u1 = {1, 1, 4, 16, 64, 0};
static const uint8_t twelve[] = {0x01, 0xFE, 0xFF, 0xEE, 0x03, 0xFF, 0x01, 0x02, 0x03, 0xEE, 0xEE, 0xEE};

static xcp_read usb_read(xcp_usb_setting s, const uint8_t *t, size_t n, xcp_counter c, size_t numbers)
{
    renew();
    return xcp_usb_read(s, t, n, c, rows, numbers);
}

static void test_usb_read(void)
{
    static const uint32_t first[] = {2, 1, 254, 0, 1, 6, 3, 255, 0, 5};
    static const uint32_t gaps[] = {2, 1, 254, 4, 1, 6, 3, 255, 0, 5};
    static const uint8_t cut[] = {0x01, 0x00, 0xFF};
    static const uint8_t over[] = {0x41, 0x00};
    static const uint8_t zero[] = {0x00, 0x07, 0x09, 0x09};
    static const uint8_t many[262145];
    xcp_usb_setting s = u1;

    CHECK(read_is(usb_read(u1, twelve, 12, fresh, 20), 0, 2, 1, 0));
    CHECK(same_numbers(rows, first, 10) && all_numbers(rows + 10, 10, OLD));
    CHECK(read_is(usb_read(u1, twelve, 12, known, 10), 0, 2, 1, 0));
    CHECK(same_numbers(rows, gaps, 10) && all_numbers(rows + 10, 10, OLD));

    CHECK(read_is(usb_read(u1, twelve, 12, known, 9), 4, 0, 7, 250));
    CHECK(all_numbers(rows, 20, OLD));
    CHECK(read_is(usb_read(u1, twelve, 11, known, 20), 5, 4, 7, 250));
    CHECK(read_is(usb_read(u1, cut, 3, fresh, 20), 5, 0, 0, 0));
    CHECK(read_is(usb_read(u1, over, 2, fresh, 20), 3, 0, 0, 0));
    CHECK(all_numbers(rows, 20, OLD));
    CHECK(read_is(usb_read(u1, many, 262145, fresh, 20), 2, 0, 0, 0));
    CHECK(read_is(usb_read(u1, many, 262144, known, 0), 0, 0, 7, 250));
    CHECK(read_is(usb_read(u1, twelve, 12, (xcp_counter){1, 256}, 20), 1, 0, 1, 256));
    CHECK(read_is(usb_read(u1, twelve, 12, (xcp_counter){0, 256}, 20), 0, 2, 1, 0));

    CHECK(read_is(usb_read(u1, zero, 4, fresh, 20), 0, 0, 0, 0));
    s.packing = 0;
    CHECK(read_is(usb_read(s, zero, 4, fresh, 20), 6, 0, 0, 0));
    s.packing = 3;
    CHECK(read_is(usb_read(s, zero, 4, known, 20), 1, 0, 7, 250));

    /* each field of the setting by itself */
    CHECK(read_is(usb_read((xcp_usb_setting){6, 1, 4, 16, 64, 0}, twelve, 12, fresh, 20), 1, 0, 0, 0));
    CHECK(read_is(usb_read((xcp_usb_setting){1, 1, 3, 16, 64, 0}, twelve, 12, fresh, 20), 1, 0, 0, 0));
    CHECK(read_is(usb_read((xcp_usb_setting){1, 1, 4, 20, 64, 0}, twelve, 12, fresh, 20), 1, 0, 0, 0));
    CHECK(read_is(usb_read((xcp_usb_setting){1, 1, 4, 16, 7, 0}, twelve, 12, fresh, 20), 1, 0, 0, 0));
    CHECK(read_is(usb_read((xcp_usb_setting){1, 1, 4, 16, 64, 2}, twelve, 12, fresh, 20), 1, 0, 0, 0));

    /* an empty transfer and an empty table */
    CHECK(read_is(xcp_usb_read(u1, NULL, 0, known, NULL, 0), 0, 0, 7, 250));
    CHECK(read_is(xcp_usb_read(u1, twelve, 12, known, NULL, 0), 4, 0, 7, 250));
}

static void test_usb_write(void)
{
    static const uint8_t packets[] = {0xFF, 0x01, 0x02, 0x03};
    static const uint32_t lengths[] = {1, 3};
    static const uint32_t short_sum[] = {1, 2};
    static const uint32_t with_none[] = {4, 0};
    static const uint8_t rest[] = {0x00, 0xEE, 0xEE, 0xEE};
    const xcp_usb_setting u2 = {5, 2, 1, 8, 100, 0};
    static const uint8_t streamed[] = {0x01, 0x00, 0xAA, 0xAA, 0x10, 0xAA, 0xAA, 0xAA, 0x01, 0x00, 0xAA, 0xAA, 0x20};
    static const uint8_t two[] = {0x10, 0x20};
    static const uint32_t ones[] = {1, 1};

    renew();
    CHECK(written_is(xcp_usb_write(u1, packets, 4, lengths, 2, 254, 0xEE, 0, out, 40), 0, 12, 0));
    CHECK(same_bytes(out, twelve, 12) && all_bytes(out + 12, 28, OLD));
    renew();
    CHECK(written_is(xcp_usb_write(u1, packets, 4, lengths, 2, 254, 0xEE, 1, out, 16), 0, 16, 0));
    CHECK(same_bytes(out, twelve, 12) && same_bytes(out + 12, rest, 4) && all_bytes(out + 16, 24, OLD));
    renew();
    CHECK(written_is(xcp_usb_write(u1, packets, 4, lengths, 2, 254, 0xEE, UINT32_MAX, out, 40), 0, 16, 0));
    CHECK(same_bytes(out + 12, rest, 4));
    renew();
    CHECK(written_is(xcp_usb_write(u2, two, 2, ones, 2, 77, 0xAA, 0, out, 40), 0, 13, 77));
    CHECK(same_bytes(out, streamed, 13) && all_bytes(out + 13, 27, OLD));

    renew();
    CHECK(written_is(xcp_usb_write(u1, packets, 4, lengths, 2, 256, 0xEE, 0, out, 40), 1, 0, 256));
    CHECK(written_is(xcp_usb_write(u1, packets, 4, short_sum, 2, 9, 0xEE, 0, out, 40), 2, 0, 9));
    CHECK(written_is(xcp_usb_write(u1, packets, 4, with_none, 2, 9, 0xEE, 0, out, 40), 3, 1, 9));
    CHECK(written_is(xcp_usb_write(u1, packets, 4, lengths, 2, 9, 0xEE, 0, out, 11), 4, 0, 9));
    CHECK(written_is(xcp_usb_write(u1, packets, 4, lengths, 2, 9, 0xEE, 1, out, 15), 4, 0, 9));
    CHECK(all_bytes(out, 40, OLD));

    CHECK(written_is(xcp_usb_write(u1, NULL, 0, NULL, 0, 9, 0xEE, 1, NULL, 0), 0, 0, 9));
}

static void test_flexray(void)
{
    const xcp_flexray_setting s = {7, 0, 32, 5, 2};
    const xcp_flexray_setting counted = {7, 0, 32, 7, 1};
    static const uint8_t packets[] = {0x01, 0x02, 0xFF};
    static const uint32_t lengths[] = {2, 1};
    static const uint32_t none[] = {3, 0};
    static const uint8_t frame[] = {0x07, 0x02, 0x01, 0x02, 0xEE, 0x01, 0xFF, 0x00};
    static const uint32_t told[] = {2, 2, 0, 0, 5, 6, 1, 0, 0, 1};
    static const uint8_t bad_end[] = {0x07, 0x01, 0xFF, 0xEE};
    static const uint8_t empty[] = {0x07, 0x00, 0xFF, 0x00};
    static const uint8_t with_ctr[] = {0x07, 0xFF, 0x02, 0x01, 0x02, 0x01, 0xFF, 0x00};
    static const uint32_t told_ctr[] = {3, 2, 255, 5, 5, 6, 1, 0, 0, 1};

    renew();
    CHECK(written_is(xcp_flexray_write(s, packets, 3, lengths, 2, 300, 0xEE, out, 40), 0, 8, 300));
    CHECK(same_bytes(out, frame, 8) && all_bytes(out + 8, 32, OLD));
    renew();
    CHECK(written_is(xcp_flexray_write(counted, packets, 3, lengths, 2, 255, 0xEE, out, 8), 0, 8, 0));
    CHECK(same_bytes(out, with_ctr, 8) && all_bytes(out + 8, 32, OLD));
    renew();
    CHECK(written_is(xcp_flexray_write(counted, packets, 3, lengths, 2, 256, 0xEE, out, 40), 1, 0, 256));
    CHECK(written_is(xcp_flexray_write(s, NULL, 0, NULL, 0, 9, 0xEE, out, 40), 2, 0, 9));
    CHECK(written_is(xcp_flexray_write(s, packets, 3, none, 2, 9, 0xEE, out, 40), 3, 1, 9));
    CHECK(written_is(xcp_flexray_write(s, packets, 3, lengths, 2, 9, 0xEE, out, 7), 4, 0, 9));
    CHECK(all_bytes(out, 40, OLD));

    renew();
    CHECK(read_is(xcp_flexray_read(s, frame, 8, known, rows, 20), 0, 2, 7, 250));
    CHECK(same_numbers(rows, told, 10) && all_numbers(rows + 10, 10, OLD));
    renew();
    CHECK(read_is(xcp_flexray_read(counted, with_ctr, 8, known, rows, 20), 0, 2, 1, 0));
    CHECK(same_numbers(rows, told_ctr, 10) && all_numbers(rows + 10, 10, OLD));
    renew();
    CHECK(read_is(xcp_flexray_read(counted, with_ctr, 8, (xcp_counter){1, 256}, rows, 20), 1, 0, 1, 256));
    CHECK(read_is(xcp_flexray_read(s, frame, 8, known, rows, 9), 4, 0, 7, 250));
    CHECK(read_is(xcp_flexray_read(s, bad_end, 4, fresh, rows, 20), 5, 3, 0, 0));
    CHECK(read_is(xcp_flexray_read(s, empty, 4, fresh, rows, 20), 6, 0, 0, 0));
    CHECK(read_is(xcp_flexray_read(s, NULL, 0, fresh, rows, 20), 6, 0, 0, 0));
    CHECK(read_is(xcp_flexray_read((xcp_flexray_setting){8, 0, 32, 5, 2}, frame, 8, fresh, rows, 20), 7, 0, 0, 0));
    CHECK(read_is(xcp_flexray_read(s, frame, 7, fresh, rows, 20), 8, 0, 0, 0));

    /* each field of the setting by itself */
    CHECK(read_is(xcp_flexray_read((xcp_flexray_setting){256, 0, 32, 5, 2}, frame, 8, fresh, rows, 20), 1, 0, 0, 0));
    CHECK(read_is(xcp_flexray_read((xcp_flexray_setting){7, 2, 32, 5, 2}, frame, 8, fresh, rows, 20), 1, 0, 0, 0));
    CHECK(read_is(xcp_flexray_read((xcp_flexray_setting){7, 0, 31, 5, 2}, frame, 8, fresh, rows, 20), 1, 0, 0, 0));
    CHECK(read_is(xcp_flexray_read((xcp_flexray_setting){7, 0, 32, 9, 2}, frame, 8, fresh, rows, 20), 1, 0, 0, 0));
    CHECK(read_is(xcp_flexray_read((xcp_flexray_setting){7, 0, 32, 5, 4}, frame, 8, fresh, rows, 20), 1, 0, 0, 0));
    CHECK(all_numbers(rows, 20, OLD));
}

/* two messages, whose counters go over the wrap */
static const uint8_t datagram[] = {0x01, 0x00, 0xFF, 0xFF, 0xFF, 0x03, 0x00, 0x00, 0x00, 0x01, 0x02, 0x03};
static const xcp_udp_setting u64 = {64, 0}, u1468 = {1468, 0};

static xcp_read udp_read(xcp_udp_setting s, const uint8_t *d, size_t n, xcp_counter c, size_t numbers)
{
    renew();
    return xcp_udp_read(s, d, n, c, rows, numbers);
}

static void test_udp_read(void)
{
    static const uint32_t first[] = {4, 1, 65535, 0, 1, 9, 3, 0, 0, 5};
    static const uint32_t gaps[] = {4, 1, 65535, 65285, 1, 9, 3, 0, 0, 5};
    static const uint32_t master[] = {4, 1, 65535, 65535, 6, 9, 3, 0, 0, 7};
    static const uint32_t whole[] = {4, 1468, 258, 0, 5};
    static const uint8_t over[] = {0x41, 0x00, 0x00, 0x00}, far_over[] = {0x01, 0x01, 0x00, 0x00}, fits[] = {0x40, 0x00, 0x00, 0x00};
    static const uint8_t zero[] = {0x01, 0x00, 0x00, 0x00, 0xFF, 0x00, 0x00, 0x01, 0x00, 0xFF};
    static const uint8_t many[1473] = {0xBC, 0x05, 0x02, 0x01};

    CHECK(read_is(udp_read(u64, datagram, 12, fresh, 20), 0, 2, 1, 1));
    CHECK(same_numbers(rows, first, 10) && all_numbers(rows + 10, 10, OLD));
    CHECK(read_is(udp_read(u64, datagram, 12, known, 10), 0, 2, 1, 1));
    CHECK(same_numbers(rows, gaps, 10) && all_numbers(rows + 10, 10, OLD));
    CHECK(read_is(udp_read(u64, datagram, 5, (xcp_counter){1, 65535}, 5), 0, 1, 1, 0));
    CHECK(same_numbers(rows, first, 5) && all_numbers(rows + 5, 15, OLD));
    CHECK(read_is(udp_read((xcp_udp_setting){8, 1}, datagram, 12, (xcp_counter){1, 0}, 20), 0, 2, 1, 1));
    CHECK(same_numbers(rows, master, 10) && all_numbers(rows + 10, 10, OLD));

    CHECK(read_is(udp_read(u64, datagram, 12, known, 9), 4, 0, 7, 250));
    CHECK(all_numbers(rows, 20, OLD));

    /* a packet that is cut; three, two and one bytes left over */
    CHECK(read_is(udp_read(u64, datagram, 11, known, 20), 5, 5, 7, 250));
    CHECK(read_is(udp_read(u64, datagram, 9, known, 20), 5, 5, 7, 250));
    CHECK(read_is(udp_read(u64, datagram, 8, known, 20), 5, 5, 7, 250));
    CHECK(read_is(udp_read(u64, datagram, 7, known, 20), 5, 5, 7, 250));
    CHECK(read_is(udp_read(u64, datagram, 6, known, 0), 5, 5, 7, 250));
    CHECK(read_is(udp_read(u64, datagram, 4, fresh, 20), 5, 0, 0, 0));
    CHECK(read_is(udp_read(u64, datagram, 3, fresh, 20), 5, 0, 0, 0));
    CHECK(all_numbers(rows, 20, OLD));

    /* LEN 0, and LEN over the longest packet, which goes before the end of the datagram */
    CHECK(read_is(udp_read(u64, zero, 10, known, 20), 6, 5, 7, 250));
    CHECK(read_is(udp_read(u64, zero, 9, known, 0), 6, 5, 7, 250));
    CHECK(read_is(udp_read(u64, zero + 5, 4, fresh, 20), 6, 0, 0, 0));
    CHECK(read_is(udp_read(u64, over, 4, fresh, 20), 3, 0, 0, 0));
    CHECK(read_is(udp_read(u64, far_over, 4, fresh, 20), 3, 0, 0, 0));
    CHECK(read_is(udp_read(u64, fits, 4, fresh, 20), 5, 0, 0, 0));
    CHECK(all_numbers(rows, 20, OLD));

    /* the longest datagram, and one byte more */
    CHECK(read_is(udp_read(u1468, many, 1472, fresh, 5), 0, 1, 1, 259));
    CHECK(same_numbers(rows, whole, 5) && all_numbers(rows + 5, 15, OLD));
    CHECK(read_is(udp_read(u1468, many, 1471, known, 20), 5, 0, 7, 250));
    CHECK(read_is(udp_read(u1468, many, 1473, known, 20), 2, 0, 7, 250));
    CHECK(all_numbers(rows, 20, OLD));

    /* each field of the setting by itself, and the state */
    CHECK(read_is(udp_read((xcp_udp_setting){7, 0}, datagram, 12, known, 20), 1, 0, 7, 250));
    CHECK(read_is(udp_read((xcp_udp_setting){1469, 0}, many, 1473, fresh, 20), 1, 0, 0, 0));
    CHECK(read_is(udp_read((xcp_udp_setting){64, 2}, datagram, 12, fresh, 20), 1, 0, 0, 0));
    CHECK(read_is(udp_read(u64, datagram, 12, (xcp_counter){1, 65536}, 20), 1, 0, 1, 65536));
    CHECK(all_numbers(rows, 20, OLD));
    CHECK(read_is(udp_read(u64, datagram, 12, (xcp_counter){0, 65536}, 20), 0, 2, 1, 1));

    /* an empty datagram and an empty table */
    CHECK(read_is(xcp_udp_read(u64, NULL, 0, known, NULL, 0), 0, 0, 7, 250));
    CHECK(read_is(xcp_udp_read(u64, NULL, 0, (xcp_counter){1, 65536}, NULL, 0), 1, 0, 1, 65536));
    CHECK(read_is(xcp_udp_read(u64, datagram, 12, known, NULL, 0), 4, 0, 7, 250));
}

static void test_udp_write(void)
{
    static const uint8_t packets[4097] = {0xFF, 0x01, 0x02, 0x03};
    static const uint8_t counted[] = {0x01, 0x00, 0xFF, 0x00, 0xFF, 0x03, 0x00, 0x00, 0x01, 0x01, 0x02, 0x03};
    static const uint8_t head[] = {0xBC, 0x05, 0xFF, 0xFF, 0xFF, 0x01, 0x02, 0x03};
    static const uint32_t lengths[] = {1, 3}, short_sum[] = {1, 2}, with_none[] = {4, 0}, over[] = {64, 65, 0};
    static const uint32_t whole[] = {1468}, too_long[] = {1464, 1};
    static uint32_t ones[4097];

    for (size_t i = 0; i < COUNT(ones); i++)
        ones[i] = 1;

    renew();
    CHECK(written_is(xcp_udp_write(u64, packets, 4, lengths, 2, 65535, out, 40), 0, 12, 1));
    CHECK(same_bytes(out, datagram, 12) && all_bytes(out + 12, 28, OLD));
    renew();
    CHECK(written_is(xcp_udp_write(u64, packets, 4, lengths, 2, 255, out, 12), 0, 12, 257));
    CHECK(same_bytes(out, counted, 12) && all_bytes(out + 12, 28, OLD));
    renew();
    CHECK(written_is(xcp_udp_write(u1468, packets, 1468, whole, 1, 65535, out, COUNT(out)), 0, 1472, 0));
    CHECK(same_bytes(out, head, 8) && all_bytes(out + 8, 1464, 0) && all_bytes(out + 1472, 8, OLD));

    renew();
    CHECK(written_is(xcp_udp_write((xcp_udp_setting){7, 0}, packets, 4, lengths, 2, 9, out, 40), 1, 0, 9));
    CHECK(written_is(xcp_udp_write((xcp_udp_setting){1469, 0}, packets, 4, lengths, 2, 9, out, 40), 1, 0, 9));
    CHECK(written_is(xcp_udp_write((xcp_udp_setting){64, 2}, packets, 4, lengths, 2, 9, out, 40), 1, 0, 9));
    CHECK(written_is(xcp_udp_write(u64, packets, 4, lengths, 2, 65536, out, 40), 1, 0, 65536));
    CHECK(written_is(xcp_udp_write(u64, packets, 4, short_sum, 2, 9, out, 40), 2, 0, 9));
    CHECK(written_is(xcp_udp_write(u64, packets, 4097, ones, 4097, 9, out, COUNT(out)), 2, 0, 9));
    CHECK(written_is(xcp_udp_write(u64, packets, 4, with_none, 2, 9, out, 0), 3, 1, 9));
    CHECK(written_is(xcp_udp_write(u64, packets, 129, over, 3, 9, out, 40), 3, 1, 9));
    CHECK(written_is(xcp_udp_write(u64, packets, 4, lengths, 2, 9, out, 11), 4, 0, 9));
    CHECK(written_is(xcp_udp_write(u64, packets, 4096, ones, 4096, 9, out, COUNT(out)), 4, 0, 9));
    CHECK(written_is(xcp_udp_write(u1468, packets, 1465, too_long, 2, 9, out, COUNT(out)), 4, 0, 9));
    CHECK(all_bytes(out, COUNT(out), OLD));

    CHECK(written_is(xcp_udp_write(u64, NULL, 0, NULL, 0, 65535, NULL, 0), 0, 0, 65535));
    CHECK(written_is(xcp_udp_write(u64, NULL, 0, NULL, 0, 65536, NULL, 0), 1, 0, 65536));
}

static void test_part_check(void)
{
    CHECK(checked_is(xcp_part_check(twelve, 12, 6, 3), 0, 0));
    CHECK(checked_is(xcp_part_check(twelve, 12, 12, 0), 0, 0));
    CHECK(checked_is(xcp_part_check(twelve, 12, 6, 7), 5, 6));
    CHECK(checked_is(xcp_part_check(twelve, 12, UINT32_MAX, UINT32_MAX), 5, UINT32_MAX));
    CHECK(checked_is(xcp_part_check(NULL, 0, 0, 0), 0, 0));
}

static void test_kind(void)
{
    static const uint8_t firsts[] = {0xFF, 0xFE, 0xFD, 0xFC, 0xFB, 0x00, 0xC0, 0xBF};
    static const uint32_t slave[] = {1, 2, 3, 4, 5, 5, 5, 5};
    static const uint32_t master[] = {6, 6, 6, 6, 6, 7, 6, 7};

    for (size_t i = 0; i < COUNT(firsts); i++) {
        CHECK(xcp_kind(0, firsts + i, 1) == slave[i]);
        CHECK(xcp_kind(1, firsts + i, 1) == master[i]);
        CHECK(xcp_kind(2, firsts + i, 1) == 0);
    }
    CHECK(xcp_kind(0, NULL, 0) == 0);
}

/* the bytes of examples/xcp_on_usb.a2l */
static const uint8_t example[] = {
#include "example.inc"
};

/* parts of a block, and what its endpoints say */
#define HEAD "/begin XCP_ON_USB 1 0xfFfF 65535 0 "
#define CTR_WORD HEAD "HEADER_LEN_CTR_WORD "
#define CMD_NAME "/begin OUT_EP_CMD_STIM "
#define CMD CMD_NAME "1 BULK_TRANSFER 8 16 MESSAGE_PACKING_STREAMING ALIGNMENT_64_BIT /end OUT_EP_CMD_STIM "
#define RES_NAME "/begin IN_EP_RESERR_DAQ_EVSERV "
#define RES RES_NAME "1 INTERRUPT_TRANSFER 0x0400 16 MESSAGE_PACKING_MULTIPLE ALIGNMENT_16_BIT /end IN_EP_RESERR_DAQ_EVSERV "
#define CLOSED "/end XCP_ON_USB"
#define LENGTH(text) ((uint32_t)sizeof(text) - 1)
#define SETTINGS(text, longest) xcp_usb_settings((const uint8_t *)(text), LENGTH(text), longest)
#define WRONG(before, behind) settings_refused(SETTINGS(before behind, 64), 9, LENGTH(before))

static void test_usb_settings(void)
{
    const xcp_usb_setting cmd_stim = {4, 2, 8, 8, 64, 1}, res_daq = {4, 1, 2, 1024, 64, 0};
    const uint32_t n = COUNT(example);
    uint32_t accepted = 0, cut = 0;

    CHECK(settings_are(xcp_usb_settings(example, n, 56), (xcp_usb_setting){5, 0, 4, 64, 56, 1},
                       (xcp_usb_setting){5, 0, 4, 64, 56, 0}));
    CHECK(settings_refused(xcp_usb_settings(example, n, 7), 1, 0));
    CHECK(settings_refused(xcp_usb_settings(example, n, 65536), 1, 0));
    CHECK(settings_refused(xcp_usb_settings(NULL, 0, 56), 9, 0));
    CHECK(settings_refused(xcp_usb_settings(example, 17, 56), 9, 17));

    /* cut anywhere; all of it but the last line end is a block too */
    for (uint32_t i = 0; i < n; i++) {
        const xcp_settings a = xcp_usb_settings(example, i, 56);
        accepted += a.number == 0;
        cut += a.number == 9 && a.place <= i && settings_refused(a, 9, a.place);
    }
    CHECK(accepted == 1 && cut == n - 1);

    /* either order; words and blocks that are read over; strings and comments */
    CHECK(settings_are(SETTINGS(CTR_WORD CMD RES CLOSED, 64), cmd_stim, res_daq));
    CHECK(settings_are(SETTINGS("// x\r\t" CTR_WORD "A " RES "/begin A /begin B " CMD "/end B 7 /end A " CMD CLOSED "/* x */", 64),
                       cmd_stim, res_daq));
    CHECK(settings_are(SETTINGS("/*/ */" CTR_WORD "\"/* /end\"" RES "/begin\"\"/end\"\"/**/" CMD CLOSED "//", 64), cmd_stim, res_daq));
}

static void test_no_settings(void)
{
    /* 9 at a word that cannot stand */
    CHECK(WRONG("/begin ", "XCP_ON_USB_2 1 2 3 4 HEADER_LEN_WORD"));
    CHECK(WRONG("", "\"/begin\" XCP_ON_USB"));
    CHECK(WRONG("/begin XCP_ON_USB 1 2 3 ", "65536 HEADER_LEN_WORD"));
    CHECK(WRONG("/begin XCP_ON_USB 1 2 3 ", "0x HEADER_LEN_WORD"));
    CHECK(WRONG(HEAD, "HEADER_LEN_LONG"));
    CHECK(WRONG(CTR_WORD CMD "/begin ", "OUT_EP_CMD_STIM"));
    CHECK(WRONG(CTR_WORD CMD, "/end XCP_ON_USB"));
    CHECK(WRONG(CTR_WORD CMD RES "/begin A /end ", "B"));
    CHECK(WRONG(CTR_WORD CMD RES "/begin ", "/end"));
    CHECK(WRONG(CTR_WORD CMD RES CLOSED " ", "A"));
    CHECK(WRONG(CTR_WORD CMD RES "/end ", "XCP_ON_USB\0"));

    /* 9 at the length */
    CHECK(WRONG(CTR_WORD CMD RES "/end", ""));
    CHECK(WRONG(CTR_WORD CMD RES CLOSED " /*/", ""));
    CHECK(WRONG(CTR_WORD CMD RES CLOSED " \"A", ""));

    /* 1 for each setting by itself, and behind 9 */
    CHECK(settings_refused(SETTINGS(HEAD "HEADER_LEN_BYTE " CMD RES CLOSED, 256), 1, 0));
    CHECK(settings_refused(SETTINGS(CTR_WORD CMD RES_NAME "1 BULK_TRANSFER 1032 0 MESSAGE_PACKING_SINGLE ALIGNMENT_8_BIT "
                                    "/end IN_EP_RESERR_DAQ_EVSERV " CLOSED, 64), 1, 0));
    CHECK(settings_refused(SETTINGS(CTR_WORD RES CMD_NAME "1 BULK_TRANSFER 20 8 MESSAGE_PACKING_SINGLE ALIGNMENT_8_BIT "
                                    "/end OUT_EP_CMD_STIM " CLOSED, 64), 1, 0));
    CHECK(settings_refused(SETTINGS(CTR_WORD CMD RES, 7), 9, LENGTH(CTR_WORD CMD RES)));
}

/* a text of the greatest length, and one byte more */
static uint8_t text[16385];

static size_t put(size_t at, const char *words)
{
    while (*words)
        text[at++] = (uint8_t)*words++;
    return at;
}

static size_t put_times(size_t at, const char *words, size_t times)
{
    for (; times != 0; times--)
        at = put(at, words);
    return at;
}

static void test_long_texts(void)
{
    const xcp_usb_setting cmd_stim = {4, 2, 8, 8, 64, 1}, res_daq = {4, 1, 2, 1024, 64, 0};
    const size_t from = put(0, CTR_WORD CMD RES);
    const size_t deep = (16384 - from) / LENGTH("/begin\"\"");
    const size_t closed = (16384 - from - LENGTH(CLOSED)) / LENGTH("/begin\"\"/end\"\"");

    /* blanks up to the greatest length */
    put_times(put(from, CLOSED), " ", COUNT(text) - from - LENGTH(CLOSED));
    CHECK(settings_are(xcp_usb_settings(text, 16384, 64), cmd_stim, res_daq));
    CHECK(settings_refused(xcp_usb_settings(text, 16385, 64), 2, 0));
    CHECK(settings_refused(xcp_usb_settings(text, 16385, 7), 2, 0));

    /* one block in another, as deep as can be: not closed, closed, and the outermost closed by another name */
    put_times(put_times(from, "/begin\"\"", deep), " ", COUNT(text) - from - deep * LENGTH("/begin\"\""));
    CHECK(settings_refused(xcp_usb_settings(text, 16384, 64), 9, 16384));
    size_t at = put_times(put_times(from, "/begin\"\"", closed), "/end\"\"", closed);
    put_times(put(at, CLOSED), "\n", COUNT(text) - at - LENGTH(CLOSED));
    CHECK(settings_are(xcp_usb_settings(text, 16384, 64), cmd_stim, res_daq));
    put(at - 2, "\"!\"");
    CHECK(settings_refused(xcp_usb_settings(text, 16384, 64), 9, (uint32_t)at - 2));
}

/* A stack for one call: bytes that are still as they were painted the call did not touch. */
static _Alignas(16) uint8_t stack[131072];

/* How much stack a call takes, all that it calls included. It is called once before, so that the linker has found memset and memmove. */
static size_t stack_of(void (*call)(void))
{
    call();
    for (size_t i = 0; i < sizeof stack; i++)
        stack[i] = 0xA5;
    __asm__ volatile("movq %%rsp, %%rbx\n\tmovq %0, %%rsp\n\tcall *%1\n\tmovq %%rbx, %%rsp"
                     :
                     : "r"(stack + sizeof stack), "r"(call)
                     : "rbx", "rax", "rcx", "rdx", "rsi", "rdi", "r8", "r9", "r10", "r11", "xmm0", "xmm1", "xmm2", "xmm3", "xmm4", "xmm5",
                       "xmm6", "xmm7", "xmm8", "xmm9", "xmm10", "xmm11", "xmm12", "xmm13", "xmm14", "xmm15", "memory", "cc");
    size_t untouched = 0;
    while (untouched < sizeof stack && stack[untouched] == 0xA5)
        untouched++;
    return sizeof stack - untouched;
}

/* Calls whose stack is measured: packets of many lengths are written and read back, by each transport. */
static uint8_t bytes[236], wire[2048];
static const uint32_t many[] = {1, 2, 3, 4, 7, 8, 9, 16, 17, 40, 64, 65};
static uint32_t table[5 * COUNT(many)];
static xcp_usb_setting usb = {1, 0, 4, 128, 120, 0};
static const xcp_flexray_setting flexray = {7, 0, 254, 8, 4};
static const xcp_udp_setting udp = {1468, 0};
static xcp_written written;
static uint32_t number;

static void write_usb(void)
{
    written = xcp_usb_write(usb, bytes, 236, many, COUNT(many), 0, 0xEE, 1, wire, sizeof wire);
    number = written.number;
}

static void read_usb(void)
{
    number = xcp_usb_read(usb, wire, written.value, fresh, table, COUNT(table)).number;
}

static void write_flexray(void)
{
    written = xcp_flexray_write(flexray, bytes, 107, many, 10, 0, 0xEE, wire, sizeof wire);
    number = written.number;
}

static void read_flexray(void)
{
    number = xcp_flexray_read(flexray, wire, written.value, fresh, table, COUNT(table)).number;
}

static void write_udp(void)
{
    written = xcp_udp_write(udp, bytes, 236, many, COUNT(many), 0, wire, sizeof wire);
    number = written.number;
}

static void read_udp(void)
{
    number = xcp_udp_read(udp, wire, written.value, fresh, table, COUNT(table)).number;
}

/* the text that test_long_texts left: blocks as deep as can be */
static void read_settings(void)
{
    number = xcp_usb_settings(text, 16384, 64).number;
}

static int accepted_within(size_t most, void (*call)(void))
{
    return stack_of(call) <= most && number == 0;
}

static void test_stack(void)
{
    for (usb.packing = 0; usb.packing < 3; usb.packing++) {
        CHECK(accepted_within(1024, write_usb));
        CHECK(accepted_within(1024, read_usb));
    }
    CHECK(accepted_within(1024, write_flexray));
    CHECK(accepted_within(1024, read_flexray));
    CHECK(accepted_within(1024, write_udp));
    CHECK(accepted_within(1024, read_udp));
    CHECK(stack_of(read_settings) <= 10240 && number == 9);
}

int main(void)
{
    test_usb_read();
    test_usb_write();
    test_flexray();
    test_udp_read();
    test_udp_write();
    test_part_check();
    test_kind();
    test_usb_settings();
    test_no_settings();
    test_long_texts();
    test_stack();
    printf("%u results as they should be, %u not\n", passed, failed);
    return failed != 0;
}
