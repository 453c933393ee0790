/* A call: what of a program's SSAs and I/O area belongs to it, as a frame, and the answer put into the PCB mask and the area. */
#include "dli.h"

#include <stdlib.h>
#include <string.h>

/* A program hands over addresses without lengths. So an SSA is read as far as DL/I reads it: to the blank, to ')', or to the byte at which
   it is refused; no byte behind that is touched. */
struct argument {
    const struct type *type; /* NULL where the database has none of that name */
    int has_d;               /* whether its segment is part of the I/O area */
};

static unsigned char frame[MOST_FRAME + 4];

/* Where the qualification that begins at a place ends. */
static size_t qualification_end(const char *text, size_t place, const struct type *type)
{
    for (;;) {
        const struct field *field = field_named(type, text + place);
        if (!field)
            return place + 8;
        place += 8 + 2 + field->length;
        char connector = text[place++];
        if (!connector || !strchr("*&+|", connector))
            return place;
    }
}

/* Reads an SSA, and gives the bytes that belong to it. */
static size_t read_argument(const char *text, struct argument *argument)
{
    *argument = (struct argument){NULL, 0};
    size_t place = strnlen(text, 8);

    if (place == 8) {
        argument->type = type_named(text);
        if (text[place] == '*')
            for (place++; text[place] && strchr("DFLN-", text[place]); place++)
                argument->has_d |= text[place] == 'D';
        if (text[place] == '(' && argument->type)
            place = qualification_end(text, place + 1, argument->type);
        else if (text[place] && text[place] != ' ')
            place++;
    }
    return place;
}

/* The bytes that a segment takes at the front of an area. */
static size_t segment_length(const struct type *type, const unsigned char *area)
{
    if (!type)
        return 0;
    return type->is_variable ? number_in(area, 2) : type->most;
}

/* The bytes of an area that ISRT puts in: from the first segment with D, or else the last one. */
static size_t inserted_length(const struct argument *arguments, int count, const unsigned char *area)
{
    size_t length = 0;
    int place = 0;

    while (place < count - 1 && !arguments[place].has_d)
        place++;
    for (; place < count; place++)
        length += segment_length(arguments[place].type, area + length);
    return length;
}

/* The bytes of an area that REPL replaces: all segments that are held. */
static size_t held_length(const struct pcb *pcb, const unsigned char *area)
{
    size_t length = 0;

    for (int place = 0; place < pcb->held; place++)
        length += segment_length(pcb->held_types[place], area + length);
    return length;
}

static size_t area_length(const char *function, const struct pcb *pcb, const struct argument *arguments, int count, const unsigned char *area)
{
    if (!area)
        return 0;
    if (!memcmp(function, "ISRT", 4))
        return inserted_length(arguments, count, area);
    if (!memcmp(function, "REPL", 4))
        return held_length(pcb, area);
    return 0;
}

/* Puts bytes into the frame behind others. */
static size_t put(size_t place, const void *bytes, size_t length)
{
    if (length > MOST_FRAME - place)
        abend("a call of more than %d bytes", MOST_FRAME);
    memcpy(frame + 4 + place, bytes, length);
    return place + length;
}

/* Puts a call into the frame, and gives its bytes. */
static size_t put_call(const struct pcb *pcb, const char *function, const struct text *ssas, int count, const unsigned char *area, size_t area_length)
{
    unsigned char head[2] = {1, (unsigned char)pcb_number(pcb)};
    unsigned char ssa_count = (unsigned char)count;
    size_t length = put(0, head, 2);

    length = put(length, function, 4);
    length = put(length, &ssa_count, 1);
    for (int place = 0; place < count; place++) {
        size_t bytes = ssas[place].length;
        unsigned char size[2];
        if (bytes > 65535)
            abend("an SSA of more than 65535 bytes");
        put_number(size, 2, (uint32_t)bytes);
        length = put(length, size, 2);
        length = put(length, ssas[place].bytes, bytes);
    }
    return put(length, area, area_length);
}

/* Whether a call may be read ahead: a GN or GNP without a qualification, for a search by one may pass thousands of segments for an answer. */
static int is_read_ahead(const char *function, const struct text *ssas, int count)
{
    if (memcmp(function, "GN  ", 4) && memcmp(function, "GNP ", 4))
        return 0;
    return count == 0 || (count == 1 && !memchr(ssas->bytes, '(', ssas->length));
}

/* What the server says where it can't answer. IMS ends a program that its database can't serve. */
_Noreturn void refused(unsigned outcome)
{
    static const char *const why[] = {
        "",
        "the volume is full, and nothing was inserted (IMS: U0844)",
        "the I/O area has another length than its segments",
        "hd serve has no memory for the call, and nothing was changed",
        "an access of the volume failed",
        "the volume can't be used since an access failed",
    };
    abend("%s", outcome < sizeof why / sizeof *why ? why[outcome] : "hd serve sent an answer that hdrun does not know");
}

/* Which segments are held now: those that a get with hold gave. */
static void hold(struct pcb *pcb, const char *function, const struct argument *arguments, int count, unsigned level)
{
    pcb->held = 0;
    if (memcmp(function, "GH", 2) || !level)
        return;
    for (int place = 0; place < count - 1; place++)
        if (arguments[place].has_d)
            pcb->held_types[pcb->held++] = arguments[place].type;
    pcb->held_types[pcb->held++] = type_named(pcb->mask->segment);
}

/* Puts an answer into the mask and the area, and gives the level of its segment. */
static unsigned take_answer(struct pcb *pcb, unsigned char *area, const unsigned char *answer, size_t length)
{
    struct mask *mask = pcb->mask;

    trace_answer(answer, length);
    if (length < 1 || answer[0])
        refused(length < 1 ? 255 : answer[0]);
    size_t key = length < 14 ? length : number_in(answer + 12, 2);
    if (length < 14 || key > length - 14 || key > pcb->longest_key)
        refused(255);
    memcpy(mask->status, answer + 1, 2);
    mask->level[0] = (char)('0' + answer[3] / 10);
    mask->level[1] = (char)('0' + answer[3] % 10);
    memcpy(mask->segment, answer + 4, 8);
    mask_number(pcb, &mask->key_length, (uint32_t)key);
    memset(mask->key, ' ', pcb->longest_key);
    memcpy(mask->key, answer + 14, key);
    if (area)
        memcpy(area, answer + 14 + key, length - 14 - key);
    return answer[3];
}

void dli_call(int count, void **at)
{
    struct argument arguments[MOST_SSAS];
    struct text ssas[MOST_SSAS];

    if (count < 2)
        abend("a DL/I call with fewer than two parameters");
    if (is_io_pcb(at[1])) {
        io_call(count, at);
        return;
    }
    struct pcb *pcb = pcb_of(at[1]);
    if (!pcb)
        abend("a DL/I call whose second parameter is no PCB of the PSB (IMS: U0476)");
    const char *function = at[0];
    unsigned char *area = count > 2 ? at[2] : NULL;
    int ssa_count = count > 3 ? count - 3 : 0;
    if (ssa_count > MOST_SSAS)
        abend("a DL/I call with %d SSAs, where %d is the most", ssa_count, MOST_SSAS);
    for (int place = 0; place < ssa_count; place++)
        ssas[place] = (struct text){at[3 + place], read_argument(at[3 + place], arguments + place)};
    size_t given = area_length(function, pcb, arguments, ssa_count, area), told;
    trace_call(pcb_number(pcb), function, ssa_count, ssas, area, given);
    size_t length = put_call(pcb, function, ssas, ssa_count, area, given);
    const unsigned char *answer = ahead_answer(frame, length, is_read_ahead(function, ssas, ssa_count), &told);
    unsigned level = take_answer(pcb, area, answer, told);
    if (!level)
        ahead_end();
    hold(pcb, function, arguments, ssa_count, level);
}
