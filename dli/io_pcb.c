/* The I/O PCB: a batch program's checkpoints are commits, and it takes back what it has not committed. */
#include "dli.h"

#include <string.h>

struct io_mask {
    char terminal[8], reserved[2], status[2], rest[48];
};

static struct io_mask io;

void *io_pcb(void)
{
    memset(&io, ' ', sizeof io);
    return &io;
}

int is_io_pcb(const void *mask)
{
    return mask == &io;
}

/* Has the server commit or roll back; what it can't do ends the program. */
static void request(unsigned kind)
{
    unsigned answer = server_request(kind);
    if (answer != DONE)
        refused(answer);
}

void commit(void)
{
    request(COMMIT);
}

/* An XRST at a normal start has blanks in its area. hd keeps nothing of a checkpoint but the volume, so that no other start is known. */
static void begin(const char *area)
{
    if (area && memcmp(area, "        ", 8) && area[0])
        abend("XRST asks for the checkpoint %.8s, and none is kept that a program could start from (IMS: U0102)", area);
}

void io_call(int count, void **at)
{
    const char *function = at[0];

    memcpy(io.status, "  ", 2);
    if (!memcmp(function, "CHKP", 4) || !memcmp(function, "SYNC", 4)) {
        commit();
    } else if (!memcmp(function, "ROLB", 4)) {
        request(ROLL_BACK);
        database_release();
    } else if (!memcmp(function, "ROLL", 4)) {
        abend("the program asked to go back to its last commit, and to end (IMS: U0778)");
    } else if (!memcmp(function, "XRST", 4)) {
        begin(count > 3 ? at[3] : NULL);
    } else {
        memcpy(io.status, "AD", 2);
    }
}
