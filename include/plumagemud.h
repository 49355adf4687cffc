/*
 * Plumagemud: lists of XCP packets in USB transfers, FlexRay frames and UDP datagrams, and USB settings from a description file.
 *
 * Every function answers every call; nothing has to be checked before. A refusal is a number from 1 to 9 with a place, and
 * changes nothing. The functions keep no data of their own, so threads may call them at the same time. All but xcp_usb_settings bring
 * code alone into a program that is linked with --gc-sections: no constants.
 *
 * Arrays. Each pointer is followed by the number of its elements. It must be valid for so many, and aligned as its type asks.
 * Where that number is 0 the pointer is not used, and may be NULL. The table `rows` and the output `out` must not overlap any
 * other array of the call. Elements of them behind the answer are unchanged.
 *
 * Header fields. LEN is the length of the packet in bytes, CTR a counter, NAX the node of a FlexRay frame; FILL is free.
 *
 * Direction: 0 from the slave, 1 from the master.
 */
#ifndef PLUMAGEMUD_H
#define PLUMAGEMUD_H

#include <stddef.h>
#include <stdint.h>

#ifdef __cplusplus
extern "C" {
#endif

/*
 * A USB endpoint. A message is a header, a packet and a tail: the fewest free bytes that align the next message.
 *   header       0 to 5: LEN byte; LEN, CTR bytes; LEN, FILL bytes; LEN word; LEN, CTR words; LEN, FILL words.
 *                A word is low byte first. The header has 1, 2, 2, 2, 4, 4 bytes.
 *   packing      0 single: one message in each data packet. 1 multiple: one behind another, each inside a data packet.
 *                2 streaming: packet and tail may run on into the following data packets; a header never does.
 *   align        1, 2, 4 or 8 bytes: header, packet and tail together are a multiple of it.
 *   data_packet  bytes of a data packet: a multiple of 8, from 8 to 1024.
 *   longest      bytes of the longest packet: 8 to 255 with a LEN byte, 8 to 65535 with a LEN word.
 *   direction    0 or 1.
 */
typedef struct { uint32_t header, packing, align, data_packet, longest, direction; } xcp_usb_setting;

/*
 * A FlexRay node.
 *   node       0 to 255: the first byte (NAX) of its frames.
 *   direction  0 or 1.
 *   ceiling    bytes of the longest frame: even, from 8 to 254.
 *   header     0 to 8, and
 *   align      bytes: a packet behind the first starts at a multiple of it. The pairs:
 *                0  NAX                 align 1         5  NAX LEN             align 1, 2
 *                1  NAX FILL            align 2         6  NAX FILL FILL LEN   align 4
 *                2  NAX FILL FILL FILL  align 4         7  NAX CTR LEN         align 1
 *                3  NAX CTR             align 1, 2      8  NAX CTR FILL LEN    align 2, 4
 *                4  NAX CTR FILL FILL   align 4
 *              Each field has one byte.
 */
typedef struct { uint32_t node, direction, ceiling, header, align; } xcp_flexray_setting;

/*
 * A UDP port. A message is a header, LEN and CTR words, and a packet; a word is low byte first. No byte is free.
 *   longest    bytes of the longest packet: 8 to 1468.
 *   direction  0 or 1.
 */
typedef struct { uint32_t longest, direction; } xcp_udp_setting;

/*
 * The state of the counter (CTR), from one read to the next. {0, 0} is a fresh state.
 *   known     0: fresh, no counter was read yet, and expected is not used. Any other number: known.
 *   expected  the counter that the next message should carry: 0 to 255, and 0 to 65535 for USB header 4 and for UDP.
 * Where the header has no counter the state is neither used nor altered.
 */
typedef struct { uint32_t known, expected; } xcp_counter;                  /* known 0: fresh; any other: known */

/*
 * What a read returns.
 *   number   0: read. Any other number: refused.
 *   value    the number of rows, or the place of the refusal: an index into the input.
 *   counter  the state for the next read. After a refusal it is the state that was given.
 */
typedef struct { uint32_t number, value; xcp_counter counter; } xcp_read;  /* number 0: value = rows; else value = place */

/*
 * What a write returns.
 *   number   0: written. Any other number: refused.
 *   value    the number of bytes written, or the place of the refusal.
 *   counter  the first counter of the next write. After a refusal, and where the header has no counter, it is `first`.
 */
typedef struct { uint32_t number, value, counter; } xcp_written;           /* number 0: value = bytes, counter = next;
                                                                              else value = place, counter as given */

/*
 * What a check of a part returns.
 *   number  0: the part is inside the input. 5: it is not.
 *   place   0, or the place that was asked for.
 */
typedef struct { uint32_t number, place; } xcp_checked;                    /* number 0: the part is inside */

/*
 * What a read of settings returns.
 *   number    0: both settings were found, and they are sound. Any other number: refused.
 *   place     0, or the place of the refusal: an index into the text, or its length.
 *   cmd_stim  the setting of the endpoint for CMD and STIM; its direction is 1.
 *   res_daq   the setting of the endpoint for RES, ERR, DAQ, EV and SERV; its direction is 0.
 * After a refusal the twelve numbers of the settings are all 0.
 */
typedef struct { uint32_t number, place; xcp_usb_setting cmd_stim, res_daq; } xcp_settings; /* number 0: both; else place */

/*
 * Reads a USB transfer: the joined bytes of its data packets, which all have s.data_packet bytes but the last.
 *   transfer, n    the transfer and its length in bytes, at most 262144.
 *   c              the state of the counter; {0, 0} for the first transfer, then the counter that the last read returned.
 *   rows, numbers  the table to be filled and its length in numbers: five for each row.
 * A row is a packet: its place in the transfer, its length in bytes, its counter, the gap before it, its kind (see xcp_kind).
 * Counter and gap are 0 where the header has no counter. The gap is the counter less the expected one, modulo the counter's
 * size, and 0 from a fresh state.
 * Refusals, in the order in which they are found; of 3, 5 and 6 the leftmost, 3 before 5 at one header; 4 comes last:
 *   1 at 0          a field of s is out of its range; or the state is known, and expected is too large for the counter
 *   2 at 0          the transfer is longer than 262144 bytes
 *   3 at a header   LEN is greater than s.longest
 *   5 at a header   the message, with its tail, runs past its data packet (single, multiple) or past the transfer
 *   6 at a data packet's start   single packing: the data packet is shorter than the header, or LEN is 0
 *   4 at 0          the table has fewer than five numbers for each row
 */
xcp_read    xcp_usb_read(xcp_usb_setting s, const uint8_t *transfer, size_t n, xcp_counter c, uint32_t *rows, size_t numbers);

/*
 * Writes packets as a USB transfer.
 *   packets, n      the bytes of all packets, one behind another, and their number.
 *   lengths, count  the length of each packet in bytes, and the number of packets, at most 4096.
 *   first           the counter of the first packet: 0 to 255, and 0 to 65535 in header 4; not used without a counter.
 *   fill            the value of all free bytes: FILL, tails and rests.
 *   fill_up         0: no. Any other number: the last data packet is filled up to s.data_packet bytes.
 *   out, room       where the transfer is written, and the number of bytes there.
 * No packet gives no bytes, filled up or not.
 * Refusals, in the order in which they are found:
 *   1 at 0  a field of s is out of its range; or first is too large for the counter
 *   2 at 0  there are more than 4096 lengths, or their sum is not n
 *   3 at i  lengths[i] is 0, is greater than s.longest, or with header and tail does not fit one data packet (single,
 *           multiple); the least such i
 *   4 at 0  the transfer needs more than room, or more than 262144 bytes
 */
xcp_written xcp_usb_write(xcp_usb_setting s, const uint8_t *packets, size_t n, const uint32_t *lengths, size_t count,
                          uint32_t first, uint8_t fill, uint32_t fill_up, uint8_t *out, size_t room);

/*
 * Reads a FlexRay frame.
 *   frame, n       the frame and its length in bytes.
 *   c              the state of the counter; {0, 0} for the first frame, then the counter that the last read returned.
 *   rows, numbers  the table to be filled and its length in numbers: five for each row.
 * Rows are those of xcp_usb_read. Only the first packet of a frame carries the counter; in further rows counter and gap are 0.
 * Without LEN the one packet is everything behind the header.
 * Refusals, in the order in which they are found; of 5 and the second 6 the leftmost; 4 comes last:
 *   1 at 0  a field of s is out of its range, or header and align are no pair; or the state is known, and expected is too
 *           large for the counter
 *   8 at 0  the length is odd, or greater than s.ceiling
 *   6 at 0  there is no byte behind the header
 *   7 at 0  the frame is for another node
 *   6 at 0  the first LEN is 0
 *   5 at 0, or at a later packet's LEN   that packet runs past the frame
 *   4 at 0  the table has fewer than five numbers for each row
 */
xcp_read    xcp_flexray_read(xcp_flexray_setting s, const uint8_t *frame, size_t n, xcp_counter c, uint32_t *rows, size_t numbers);

/*
 * Writes packets as one FlexRay frame of the least even length.
 *   packets, n      the bytes of all packets, one behind another, and their number.
 *   lengths, count  the length of each packet in bytes, and the number of packets: one where the header has no LEN.
 *   first           the counter of the frame, 0 to 255; not used without a counter. The next is one more, modulo 256.
 *   fill            the value of all free bytes.
 *   out, room       where the frame is written, and the number of bytes there.
 * Without LEN an odd frame is made even by one fill byte, which a reader takes for the packet's last byte.
 * Refusals, in the order in which they are found:
 *   1 at 0  a field of s is out of its range, or header and align are no pair; or first is too large for the counter
 *   2 at 0  there are more than 4096 lengths, none, or without LEN more than one; or their sum is not n
 *   3 at i  lengths[i] is 0, or its packet ends past s.ceiling; the least such i
 *   4 at 0  the frame needs more than room
 */
xcp_written xcp_flexray_write(xcp_flexray_setting s, const uint8_t *packets, size_t n, const uint32_t *lengths, size_t count,
                          uint32_t first, uint8_t fill, uint8_t *out, size_t room);

/*
 * Reads a UDP datagram: messages one behind another, which end with the datagram.
 *   datagram, n    the datagram and its length in bytes, at most 1472.
 *   c              the state of the counter; {0, 0} for the first datagram, then the counter that the last read returned.
 *   rows, numbers  the table to be filled and its length in numbers: five for each row.
 * Rows are those of xcp_usb_read with header 4: each carries a counter. An empty datagram has no rows, and leaves the state.
 * Refusals, in the order in which they are found; of 6, 3 and 5 the leftmost, in this order at one header; 4 comes last:
 *   1 at 0         a field of s is out of its range; or the state is known, and expected is greater than 65535
 *   2 at 0         the datagram is longer than 1472 bytes
 *   6 at a header  LEN is 0
 *   3 at a header  LEN is greater than s.longest
 *   5 at a header  the packet runs past the datagram; or at the first of one to three bytes that are left over
 *   4 at 0         the table has fewer than five numbers for each row
 */
xcp_read    xcp_udp_read(xcp_udp_setting s, const uint8_t *datagram, size_t n, xcp_counter c, uint32_t *rows, size_t numbers);

/*
 * Writes packets as one UDP datagram.
 *   packets, n      the bytes of all packets, one behind another, and their number.
 *   lengths, count  the length of each packet in bytes, and the number of packets, at most 4096.
 *   first           the counter of the first packet, 0 to 65535. The next is one more for each packet, modulo 65536.
 *   out, room       where the datagram is written, and the number of bytes there.
 * There is no fill byte, since no byte is free. No packet gives no bytes, and `first` as the next counter.
 * Refusals, in the order in which they are found:
 *   1 at 0  a field of s is out of its range; or first is greater than 65535
 *   2 at 0  there are more than 4096 lengths, or their sum is not n
 *   3 at i  lengths[i] is 0, or is greater than s.longest; the least such i
 *   4 at 0  the datagram needs more than room, or more than 1472 bytes
 */
xcp_written xcp_udp_write(xcp_udp_setting s, const uint8_t *packets, size_t n, const uint32_t *lengths, size_t count,
                          uint32_t first, uint8_t *out, size_t room);

/*
 * Reads the settings of the two USB endpoints from the XCP_ON_USB block of a slave's description file (A2L).
 *   text, n  the block and its length in bytes, at most 16384. Blanks and comments may stand before and behind the block, and
 *            nothing else: the 0 that ends a string in C is not counted.
 *   longest  bytes of the longest packet, for both settings. The block does not say it.
 * Words. Blank, tab, CR, LF and comments part words. A comment goes from slash star to the next star slash behind them, or from
 * // to LF, CR or the text's end. A quoted string is one word, from " to the next ", any byte between, no escapes; what follows
 * it is a new word. A comment and a string also end a word right before them. Words are compared byte for byte.
 * Numbers. Decimal digits, or 0x and hexadecimal digits of either case, up to 65535; leading zeros are allowed.
 * The block is /begin XCP_ON_USB, four numbers, a header word, entries, /end XCP_ON_USB.
 *   header word  HEADER_LEN_BYTE, HEADER_LEN_CTR_BYTE, HEADER_LEN_FILL_BYTE, HEADER_LEN_WORD, HEADER_LEN_CTR_WORD,
 *                HEADER_LEN_FILL_WORD: header 0 to 5 of both settings
 *   entries      the endpoint blocks OUT_EP_CMD_STIM (cmd_stim) and IN_EP_RESERR_DAQ_EVSERV (res_daq), each once, in either
 *                order; other blocks and words before, between and behind them are read over
 * An endpoint block is /begin and its name, a number, BULK_TRANSFER or INTERRUPT_TRANSFER, a number (data_packet), a number, a
 * packing word, an alignment word, words and blocks that are read over, /end and its name.
 *   packing word    MESSAGE_PACKING_SINGLE, MESSAGE_PACKING_MULTIPLE, MESSAGE_PACKING_STREAMING: packing 0 to 2
 *   alignment word  ALIGNMENT_8_BIT, ALIGNMENT_16_BIT, ALIGNMENT_32_BIT, ALIGNMENT_64_BIT: align 1, 2, 4, 8
 * A block that is read over is /begin, a name, words and such blocks, /end and the same name. Any word but /begin and /end is a
 * name, inside another block an endpoint's too. Blocks may stand in one another as deep as the text allows: a call takes about
 * 10,000 bytes of stack, however deep they stand.
 * Refusals, in the order in which they are found:
 *   2 at 0       the text is longer than 16384 bytes
 *   9 at a word  the first that cannot stand where it stands, whatever might follow: so a second endpoint is refused at its
 *                name, a missing one at the /end of the whole block, a wrong name behind /end at that name, a word behind the
 *                block at that word
 *   9 at n       all words can stand, but the text stops before the block is whole, or inside a comment or a string
 *   1 at 0       the settings are not both sound: a data_packet or longest is out of its range (see xcp_usb_setting)
 */
xcp_settings xcp_usb_settings(const uint8_t *text, size_t n, uint32_t longest);

/*
 * Whether `length` bytes from `place` on lie inside an input of n bytes. A row's packet always does.
 * Returns 5 at `place` where place + length is greater than n. The sum does not wrap. The input's bytes are not read.
 */
xcp_checked xcp_part_check(const uint8_t *input, size_t n, uint32_t place, uint32_t length);

/*
 * The kind of a packet of n bytes, by its first byte.
 *   direction 0   FF: 1 (RES), FE: 2 (ERR), FD: 3 (EV), FC: 4 (SERV), 00 to FB: 5 (DAQ)
 *   direction 1   C0 to FF: 6 (CMD), 00 to BF: 7 (STIM)
 * 0 where n is 0, and for any other direction.
 */
uint32_t    xcp_kind(uint32_t direction, const uint8_t *packet, size_t n);

#ifdef __cplusplus
}
#endif

#endif
