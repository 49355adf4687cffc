/* The texts that are measured: sound XCP_ON_USB blocks of 16,384 bytes. What no further entry fits into is filled with line ends. */
#include <string.h>

#include "bench.h"

static const char head[] =
    "/begin XCP_ON_USB\n"
    "    0x0100 0x108C 0x0EDC 0x02 HEADER_LEN_FILL_WORD\n"
    "    /begin OUT_EP_CMD_STIM\n"
    "        0x01 BULK_TRANSFER 0x40 0 MESSAGE_PACKING_SINGLE ALIGNMENT_32_BIT\n"
    "    /end OUT_EP_CMD_STIM\n"
    "    /begin IN_EP_RESERR_DAQ_EVSERV\n"
    "        0x01 BULK_TRANSFER 0x40 0 MESSAGE_PACKING_SINGLE ALIGNMENT_32_BIT RECOMMENDED_HOST_BUFSIZE 1\n"
    "    /end IN_EP_RESERR_DAQ_EVSERV\n"
    "    ALTERNATE_SETTING_NO 0x01\n"
    "    INTERFACE_STRING_DESCRIPTOR \"XCP Master ECU on interface 1\"\n";

static const char tail[] = "/end XCP_ON_USB\n";

/* # stands for the four digits of a list's number. */
static const char plain_entry[] =
    "    /begin DAQ_LIST_USB_ENDPOINT\n"
    "        0x# FIXED_IN 0x02\n"
    "    /end DAQ_LIST_USB_ENDPOINT\n";

static const char commented_entry[] =
    "    /* ---- a list of measured values ----------------------------------- *\n"
    "     * It is sent from the endpoint below, which is never another.         */\n"
    "    /begin DAQ_LIST_USB_ENDPOINT // one of these blocks for each list\n"
    "        0x#                      /* the number of the list              */\n"
    "        FIXED_IN 0x02            /* the endpoint's number, no address   */\n"
    "    /end DAQ_LIST_USB_ENDPOINT   // the next list follows, or the end\n";

static size_t put(uint8_t *to, size_t at, const char *text)
{
    size_t n = strlen(text);
    memcpy(to + at, text, n);
    return at + n;
}

static size_t put_entry(uint8_t *to, size_t at, const char *entry, uint32_t number)
{
    for (; *entry; entry++) {
        if (*entry != '#') {
            to[at++] = (uint8_t)*entry;
            continue;
        }
        for (int shift = 12; shift >= 0; shift -= 4)
            to[at++] = (uint8_t) "0123456789ABCDEF"[number >> shift & 15];
    }
    return at;
}

void make_text(text_kind kind, uint8_t *to)
{
    size_t at = put(to, 0, head), most = TEXT - strlen(tail);
    if (kind == NESTED) {
        size_t depth = (most - at) / strlen("/begin\"\"/end\"\"");
        for (size_t i = 0; i < depth; i++)
            at = put(to, at, "/begin\"\"");
        for (size_t i = 0; i < depth; i++)
            at = put(to, at, "/end\"\"");
    } else {
        const char *entry = kind == KEYWORDS ? plain_entry : commented_entry;
        size_t bytes = put_entry(to, at, entry, 0) - at;
        for (uint32_t i = 0; at + bytes <= most; i++)
            at = put_entry(to, at, entry, i);
    }
    while (at < most)
        to[at++] = '\n';
    put(to, at, tail);
}
