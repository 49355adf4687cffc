/*
 * Writes packets as a USB transfer, as a FlexRay frame and as a UDP datagram, reads them back, and reads a transfer that was cut; and
 * takes the setting for a transfer from a description file's block.
 */
#include <stdio.h>

#include "plumagemud.h"

#define COUNT(a) (sizeof(a) / sizeof((a)[0]))

static const char *const kinds[] = {"none", "RES", "ERR", "EV", "SERV", "DAQ", "CMD", "STIM"};

static void show(const uint8_t *bytes, size_t n)
{
    for (size_t i = 0; i < n; i++)
        printf(" %02X", (unsigned)bytes[i]);
    printf("\n");
}

static void show_written(const char *what, xcp_written w, const uint8_t *out)
{
    if (w.number != 0) {
        printf("%s: refused %u at %u\n", what, (unsigned)w.number, (unsigned)w.value);
        return;
    }
    printf("%s: %u bytes, next counter %u:", what, (unsigned)w.value, (unsigned)w.counter);
    show(out, w.value);
}

static void show_read(const char *what, xcp_read r, const uint8_t *input, const uint32_t *rows)
{
    if (r.number != 0) {
        printf("%s: refused %u at %u\n", what, (unsigned)r.number, (unsigned)r.value);
        return;
    }
    if (r.counter.known != 0)
        printf("%s: %u rows, counter %u expected next\n", what, (unsigned)r.value, (unsigned)r.counter.expected);
    else
        printf("%s: %u rows, no counter yet\n", what, (unsigned)r.value);
    for (uint32_t i = 0; i < r.value; i++) {
        const uint32_t *row = rows + 5 * i;
        printf("  at %u, counter %u, gap %u, %s:", (unsigned)row[0], (unsigned)row[2], (unsigned)row[3], kinds[row[4]]);
        show(input + row[0], row[1]);
    }
}

static void usb(void)
{
    /* LEN and CTR bytes, multiple packing, alignment 4, data packets of 16 bytes, packets of up to 64, from the slave */
    const xcp_usb_setting s = {1, 1, 4, 16, 64, 0};
    const uint8_t packets[] = {0xFF, 0x01, 0x02, 0x03};
    const uint32_t lengths[] = {1, 3};
    uint8_t out[64];
    uint32_t rows[5 * 8];
    xcp_counter state = {0, 0};

    const xcp_written w = xcp_usb_write(s, packets, COUNT(packets), lengths, COUNT(lengths), 254, 0xEE, 0, out, COUNT(out));
    show_written("usb write", w, out);
    if (w.number != 0)
        return;

    xcp_read r = xcp_usb_read(s, out, w.value, state, rows, COUNT(rows));
    show_read("usb read", r, out, rows);
    state = r.counter;

    /* the same transfer again: 0 is expected, and 254 comes */
    r = xcp_usb_read(s, out, w.value, state, rows, COUNT(rows));
    show_read("usb read again", r, out, rows);
    state = r.counter;

    /* its last byte is missing: the second message, at 4, has lost a part of its tail */
    r = xcp_usb_read(s, out, w.value - 1, state, rows, COUNT(rows));
    show_read("usb read, cut", r, out, rows);
}

static void show_setting(const char *what, xcp_usb_setting s)
{
    printf("  %s: header %u, packing %u, align %u, data packets of %u, packets of up to %u, direction %u\n", what, (unsigned)s.header,
           (unsigned)s.packing, (unsigned)s.align, (unsigned)s.data_packet, (unsigned)s.longest, (unsigned)s.direction);
}

static void show_settings(const char *what, xcp_settings a)
{
    if (a.number != 0) {
        printf("%s: refused %u at %u\n", what, (unsigned)a.number, (unsigned)a.place);
        return;
    }
    printf("%s:\n", what);
    show_setting("cmd_stim", a.cmd_stim);
    show_setting("res_daq", a.res_daq);
}

static void settings(void)
{
    static const char block[] =
        "/begin XCP_ON_USB\n"
        "  0x0100 0x108C 0x0EDC 2  /* version, vendor, product, interface */\n"
        "  HEADER_LEN_CTR_BYTE\n"
        "  /begin OUT_EP_CMD_STIM\n"
        "    1 BULK_TRANSFER 0x40 0 MESSAGE_PACKING_SINGLE ALIGNMENT_8_BIT\n"
        "  /end OUT_EP_CMD_STIM\n"
        "  /begin IN_EP_RESERR_DAQ_EVSERV\n"
        "    1 BULK_TRANSFER 0x10 0 MESSAGE_PACKING_MULTIPLE ALIGNMENT_32_BIT\n"
        "  /end IN_EP_RESERR_DAQ_EVSERV\n"
        "/end XCP_ON_USB\n";
    const uint8_t transfer[] = {0x01, 0xFE, 0xFF, 0xEE, 0x03, 0xFF, 0x01, 0x02, 0x03, 0xEE, 0xEE, 0xEE};
    const xcp_counter fresh = {0, 0};
    uint32_t rows[5 * 8];

    /* without the 0 that ends the string; the block does not say how long a packet may be: 64 */
    xcp_settings a = xcp_usb_settings((const uint8_t *)block, COUNT(block) - 1, 64);
    show_settings("settings", a);
    if (a.number != 0)
        return;
    const xcp_read r = xcp_usb_read(a.res_daq, transfer, COUNT(transfer), fresh, rows, COUNT(rows));
    show_read("usb read, by the block", r, transfer, rows);

    /* its last line is missing: the text stops early, at its length */
    a = xcp_usb_settings((const uint8_t *)block, COUNT(block) - COUNT("/end XCP_ON_USB\n"), 64);
    show_settings("settings, cut", a);
}

static void flexray(void)
{
    /* node 7, from the slave, frames of up to 32 bytes, NAX and LEN, alignment 2 */
    const xcp_flexray_setting s = {7, 0, 32, 5, 2};
    const uint8_t packets[] = {0x01, 0x02, 0xFF};
    const uint32_t lengths[] = {2, 1};
    const xcp_counter fresh = {0, 0};
    uint8_t out[32];
    uint32_t rows[5 * 8];

    const xcp_written w = xcp_flexray_write(s, packets, COUNT(packets), lengths, COUNT(lengths), 0, 0xEE, out, COUNT(out));
    show_written("flexray write", w, out);
    if (w.number != 0)
        return;

    xcp_read r = xcp_flexray_read(s, out, w.value, fresh, rows, COUNT(rows));
    show_read("flexray read", r, out, rows);

    /* the byte that makes the frame even stands on the next LEN's place, and must be 0 */
    out[7] = 0xEE;
    r = xcp_flexray_read(s, out, w.value, fresh, rows, COUNT(rows));
    show_read("flexray read, damaged", r, out, rows);
}

static void udp(void)
{
    /* packets of up to 64 bytes, from the slave */
    const xcp_udp_setting s = {64, 0};
    const uint8_t packets[] = {0xFF, 0x01, 0x02, 0x03};
    const uint32_t lengths[] = {1, 3};
    const xcp_counter fresh = {0, 0};
    uint8_t out[64];
    uint32_t rows[5 * 8];

    const xcp_written w = xcp_udp_write(s, packets, COUNT(packets), lengths, COUNT(lengths), 65535, out, COUNT(out));
    show_written("udp write", w, out);
    if (w.number != 0)
        return;

    xcp_read r = xcp_udp_read(s, out, w.value, fresh, rows, COUNT(rows));
    show_read("udp read", r, out, rows);

    /* three bytes are left over behind the first message, at 5: no header */
    r = xcp_udp_read(s, out, 8, fresh, rows, COUNT(rows));
    show_read("udp read, cut", r, out, rows);
}

int main(void)
{
    usb();
    flexray();
    udp();
    settings();
    return 0;
}
