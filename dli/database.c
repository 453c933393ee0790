/* The database as the server tells of it: segment types with their fields, and a mask for each PCB. */
#include "dli.h"

#include <stdio.h>
#include <stdlib.h>
#include <string.h>

static int types, pcbs;
static struct type *type;
static struct pcb *pcb;

/* Where IBM's ims.h has the addresses of the PCBs for programs in C. */
void *__pcblist[MOST_PCBS + 2];

static void *fresh(size_t count, size_t size)
{
    void *room = calloc(count ? count : 1, size);
    if (!room)
        abend("no memory");
    return room;
}

void mask_number(const struct pcb *of, uint32_t *place, uint32_t number)
{
    *place = of->is_big_endian ? __builtin_bswap32(number) : number;
}

static const unsigned char *read_type(struct type *into, const unsigned char *at)
{
    memcpy(into->name, at, 8);
    into->level = at[8];
    into->is_variable = at[9];
    into->most = number_in(at + 10, 2);
    into->fields = at[14];
    into->field = fresh(into->fields, sizeof *into->field);
    at += 15;
    for (unsigned place = 0; place < into->fields; place++, at += 13) {
        memcpy(into->field[place].name, at, 8);
        into->field[place].length = number_in(at + 10, 2);
    }
    return at;
}

static const unsigned char *read_pcb(struct pcb *into, const unsigned char *at, int number)
{
    into->longest_key = number_in(at + 14, 2);
    into->is_big_endian = 1;
    struct mask *mask = fresh(1, sizeof *mask + into->longest_key + 1);
    memcpy(mask->database, at, 8);
    memcpy(mask->level, "00", 2);
    memcpy(mask->status, "  ", 2);
    memcpy(mask->procopt, at + 8, 4);
    memset(mask->segment, ' ', 8);
    memset(mask->key, ' ', into->longest_key);
    mask->reserved = (uint32_t)number;
    mask_number(into, &mask->sensitive, number_in(at + 12, 2));
    into->mask = mask;
    return at + 16;
}

void database_read(const unsigned char *hello, size_t length)
{
    if (length < 6 || memcmp(hello, "HD", 2) || number_in(hello + 2, 2) != 3)
        abend("hd serve speaks another language than hdrun: they are of different versions");
    pcbs = hello[4];
    types = hello[5];
    type = fresh((size_t)types, sizeof *type);
    pcb = fresh((size_t)pcbs, sizeof *pcb);
    const unsigned char *at = hello + 6;
    for (int place = 0; place < types; place++)
        at = read_type(type + place, at);
    for (int place = 0; place < pcbs; place++) {
        at = read_pcb(pcb + place, at, place + 1);
        __pcblist[place] = pcb[place].mask;
    }
}

void database_release(void)
{
    for (int place = 0; place < pcbs; place++)
        pcb[place].held = 0;
}

int database_pcbs(void)
{
    return pcbs;
}

struct mask *database_mask(int number, int is_big_endian)
{
    struct pcb *of = pcb + number - 1;
    if (of->is_big_endian != is_big_endian) {
        of->is_big_endian = is_big_endian;
        of->mask->sensitive = __builtin_bswap32(of->mask->sensitive);
        of->mask->key_length = __builtin_bswap32(of->mask->key_length);
    }
    return of->mask;
}

struct pcb *pcb_of(const void *mask)
{
    for (int place = 0; place < pcbs; place++)
        if (pcb[place].mask == mask)
            return pcb + place;
    return NULL;
}

int pcb_number(const struct pcb *of)
{
    return (int)(of - pcb) + 1;
}

const struct type *type_named(const char *name)
{
    for (int place = 0; place < types; place++)
        if (!memcmp(type[place].name, name, 8))
            return type + place;
    return NULL;
}

const struct field *field_named(const struct type *of, const char *name)
{
    for (unsigned place = 0; place < of->fields; place++)
        if (!memcmp(of->field[place].name, name, 8))
            return of->field + place;
    return NULL;
}
