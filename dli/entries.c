/* DL/I's entry points: CBLTDLI, PLITDLI, CEETDLI, and CTDLI of ims.h. */
#define _GNU_SOURCE
#include "dli.h"
#include "include/ims.h"

#include <dlfcn.h>
#include <stdarg.h>

/* The most parameters of a call: a count, function, PCB, area and SSAs. */
enum { MOST_PARAMETERS = 4 + MOST_SSAS };

/* Whether the first parameter is a count of those behind it: its first or last byte is that number, and no function begins below 'A'. */
static int is_count(const unsigned char *first)
{
    return first[0] < 'A';
}

static int call_with(int count, void **at)
{
    if (count > 0 && is_count(at[0]))
        dli_call(count - 1, at + 1);
    else
        dli_call(count, at);
    return 0;
}

/* How many parameters a call has: as it says itself, or as COBOL's library counted them. */
static int parameters(const unsigned char *first)
{
    static int (*counted)(void);

    if (is_count(first))
        return 1 + (first[3] ? first[3] : first[0]);
    if (!counted)
        counted = (int (*)(void))dlsym(RTLD_DEFAULT, "cob_get_num_params");
    if (!counted)
        abend("a call without a count of its parameters, from a program that is not COBOL");
    return counted();
}

static int call_from(void *first, va_list more)
{
    void *at[MOST_PARAMETERS] = {first};
    int count = parameters(first);

    if (count > MOST_PARAMETERS)
        abend("a DL/I call with %d parameters", count);
    for (int place = 1; place < count; place++)
        at[place] = va_arg(more, void *);
    return call_with(count, at);
}

#define ENTRY(name)                         \
    int name(void *first, ...)              \
    {                                       \
        va_list more;                       \
        va_start(more, first);              \
        int answer = call_from(first, more);\
        va_end(more);                       \
        return answer;                      \
    }

ENTRY(CBLTDLI)
ENTRY(PLITDLI)
ENTRY(CEETDLI)

/* Calls by an application interface block are not known here. */
int AIBTDLI(void)
{
    abend("AIBTDLI is not there: call CBLTDLI, PLITDLI or CEETDLI with a PCB");
}

/* What ctdli of ims.h becomes: a call with the count of its parameters, which answers 0 at a blank status, and else its two letters. */
int hd_ctdli(int count, ...)
{
    void *at[MOST_PARAMETERS];
    va_list more;

    if (count < 2 || count > MOST_PARAMETERS)
        abend("a DL/I call with %d parameters", count);
    va_start(more, count);
    for (int place = 0; place < count; place++)
        at[place] = va_arg(more, void *);
    va_end(more);
    call_with(count, at);
    /* (the I/O PCB has its status at the same place) */
    const struct mask *mask = is_count(at[0]) ? at[2] : at[1];
    return mask->status[0] == ' ' ? 0 : mask->status[0] << 8 | mask->status[1];
}
