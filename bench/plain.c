/*
 * The words and the block of xcp_usb_settings in plain C: a tokenizer that goes over the text byte by byte, and a reader on top of
 * it, which takes one word after another and compares it with the words that may stand there.
 */
#include <string.h>

#include "bench.h"

/* A block that is open takes `/begin` and a name, seven bytes at least. */
enum { MOST_OPEN = TEXT / 7 };

typedef struct { uint32_t start, end; } word; /* the bytes from start up to end, end not included */
typedef enum { WORD, END, CUT } token;        /* CUT: a comment or a string is not closed */

static int is_blank(uint8_t c)
{
    return c == ' ' || c == '\t' || c == '\r' || c == '\n';
}

static int is_comment(const uint8_t *text, size_t n, size_t at)
{
    return text[at] == '/' && at + 1 < n && (text[at + 1] == '*' || text[at + 1] == '/');
}

/* The place behind the comment at `at`, or n + 1 where it is not closed. */
static size_t behind_comment(const uint8_t *text, size_t n, size_t at)
{
    if (text[at + 1] == '/') {
        while (at < n && text[at] != '\n' && text[at] != '\r')
            at++;
        return at;
    }
    for (at += 2; at + 1 < n; at++)
        if (text[at] == '*' && text[at + 1] == '/')
            return at + 2;
    return n + 1;
}

/* The first word from w->end on. */
static token next_word(const uint8_t *text, size_t n, word *w)
{
    size_t at = w->end;
    for (;;) {
        while (at < n && is_blank(text[at]))
            at++;
        if (at == n)
            return END;
        if (!is_comment(text, n, at))
            break;
        at = behind_comment(text, n, at);
        if (at > n)
            return CUT;
    }
    w->start = (uint32_t)at;
    if (text[at] == '"') {
        for (at++; at < n && text[at] != '"'; at++)
            ;
        if (at == n)
            return CUT;
        at++;
    } else {
        while (at < n && !is_blank(text[at]) && text[at] != '"' && !is_comment(text, n, at))
            at++;
    }
    w->end = (uint32_t)at;
    return WORD;
}

size_t plain_words(const uint8_t *text, size_t n)
{
    size_t count = 0;
    word w = {0, 0};
    while (next_word(text, n, &w) == WORD)
        count++;
    return count;
}

/* Each function of the reader gives 0 where the text is no block; `now` then starts at the place of the refusal. */
typedef struct {
    const uint8_t *text;
    size_t n;
    word now;
} reader;

static int take(reader *r)
{
    if (next_word(r->text, r->n, &r->now) == WORD)
        return 1;
    r->now.start = (uint32_t)r->n;
    return 0;
}

static int is(const reader *r, const char *name)
{
    size_t n = strlen(name);
    return r->now.end - r->now.start == n && memcmp(r->text + r->now.start, name, n) == 0;
}

static int same(const reader *r, word a, word b)
{
    return a.end - a.start == b.end - b.start && memcmp(r->text + a.start, r->text + b.start, a.end - a.start) == 0;
}

static int take_name(reader *r)
{
    return take(r) && !is(r, "/begin") && !is(r, "/end");
}

/* The value of a digit, 16 where it is none. */
static uint32_t digit(uint8_t c)
{
    if (c >= '0' && c <= '9')
        return c - '0';
    if (c >= 'a' && c <= 'f')
        return c - 'a' + 10;
    if (c >= 'A' && c <= 'F')
        return c - 'A' + 10;
    return 16;
}

static int take_number(reader *r, uint32_t *number)
{
    if (!take(r))
        return 0;
    uint32_t at = r->now.start, end = r->now.end, base = 10, value = 0;
    if (end - at > 2 && r->text[at] == '0' && r->text[at + 1] == 'x') {
        base = 16;
        at += 2;
    }
    for (; at < end; at++) {
        uint8_t c = r->text[at];
        value = value * base + digit(c);
        if (digit(c) >= base || value > 65535)
            return 0;
    }
    *number = value;
    return 1;
}

static int take_one_of(reader *r, const char *const *names, uint32_t count, uint32_t *which)
{
    if (!take(r))
        return 0;
    for (*which = 0; *which < count; ++*which)
        if (is(r, names[*which]))
            return 1;
    return 0;
}

/* Words and paired blocks, up to the end of the block of this name. */
static int read_over(reader *r, word name)
{
    word open[MOST_OPEN];
    size_t depth = 0;
    open[depth++] = name;
    while (depth != 0) {
        if (!take(r))
            return 0;
        if (is(r, "/begin")) {
            if (!take_name(r))
                return 0;
            open[depth++] = r->now;
        } else if (is(r, "/end")) {
            if (!take(r) || !same(r, r->now, open[--depth]))
                return 0;
        }
    }
    return 1;
}

static const char *const headers[6] = {"HEADER_LEN_BYTE", "HEADER_LEN_CTR_BYTE", "HEADER_LEN_FILL_BYTE",
                                       "HEADER_LEN_WORD", "HEADER_LEN_CTR_WORD", "HEADER_LEN_FILL_WORD"};
static const char *const transfers[2] = {"BULK_TRANSFER", "INTERRUPT_TRANSFER"};
static const char *const packings[3] = {"MESSAGE_PACKING_SINGLE", "MESSAGE_PACKING_MULTIPLE", "MESSAGE_PACKING_STREAMING"};
static const char *const alignments[4] = {"ALIGNMENT_8_BIT", "ALIGNMENT_16_BIT", "ALIGNMENT_32_BIT", "ALIGNMENT_64_BIT"};

/* An endpoint block, behind its name. No alignment: none was found before. */
static int read_endpoint(reader *r, xcp_usb_setting *s)
{
    word name = r->now;
    uint32_t unused, alignment;
    if (s->align != 0 || !take_number(r, &unused) || !take_one_of(r, transfers, 2, &unused) || !take_number(r, &s->data_packet)
        || !take_number(r, &unused) || !take_one_of(r, packings, 3, &s->packing) || !take_one_of(r, alignments, 4, &alignment))
        return 0;
    s->align = 1u << alignment;
    return read_over(r, name);
}

/* Entries up to the /end of the whole block. */
static int read_entries(reader *r, xcp_usb_setting *cmd_stim, xcp_usb_setting *res_daq)
{
    while (take(r)) {
        if (is(r, "/end"))
            return cmd_stim->align != 0 && res_daq->align != 0;
        if (!is(r, "/begin"))
            continue;
        if (!take_name(r))
            return 0;
        if (is(r, "OUT_EP_CMD_STIM") ? !read_endpoint(r, cmd_stim)
            : is(r, "IN_EP_RESERR_DAQ_EVSERV") ? !read_endpoint(r, res_daq) : !read_over(r, r->now))
            return 0;
    }
    return 0;
}

static int read_block(reader *r, xcp_usb_setting *cmd_stim, xcp_usb_setting *res_daq)
{
    uint32_t unused;
    if (!take(r) || !is(r, "/begin") || !take(r) || !is(r, "XCP_ON_USB"))
        return 0;
    for (int i = 0; i < 4; i++)
        if (!take_number(r, &unused))
            return 0;
    if (!take_one_of(r, headers, 6, &cmd_stim->header))
        return 0;
    res_daq->header = cmd_stim->header;
    if (!read_entries(r, cmd_stim, res_daq) || !take(r) || !is(r, "XCP_ON_USB"))
        return 0;
    token behind = next_word(r->text, r->n, &r->now);
    if (behind == CUT)
        r->now.start = (uint32_t)r->n;
    return behind == END;
}

static int is_sound(xcp_usb_setting s)
{
    return s.data_packet >= 8 && s.data_packet <= 1024 && s.data_packet % 8 == 0 && s.longest >= 8
        && s.longest <= (s.header < 3 ? 255 : 65535);
}

static xcp_settings refused(uint32_t number, uint32_t place)
{
    xcp_settings a = {number, place, {0, 0, 0, 0, 0, 0}, {0, 0, 0, 0, 0, 0}};
    return a;
}

xcp_settings plain_usb_settings(const uint8_t *text, size_t n, uint32_t longest)
{
    if (n > TEXT)
        return refused(2, 0);
    reader r = {text, n, {0, 0}};
    xcp_settings a = {0, 0, {0, 0, 0, 0, longest, 1}, {0, 0, 0, 0, longest, 0}};
    if (!read_block(&r, &a.cmd_stim, &a.res_daq))
        return refused(9, r.now.start);
    if (!is_sound(a.cmd_stim) || !is_sound(a.res_daq))
        return refused(1, 0);
    return a;
}
