/* A program whose PSB says CMPAT=YES: the I/O PCB comes first, and answers checkpoints. */
#include <ims.h>
#include <stdio.h>

/* An I/O PCB: its status stands where that of a database's PCB does. */
struct io_pcb {
    char terminal[8], reserved[2], status[2];
};

int main(void)
{
    struct io_pcb *io = (struct io_pcb *)__pcblist[0];
    PCB_10_TYPE *pcb = (PCB_10_TYPE *)__pcblist[1];
    char area[33] = "", identifier[9] = "CHKP0001";

    printf("%d", ctdli("CHKP", io, identifier));
    printf(" [%.2s]\n", io->status);
    ctdli("GU  ", io, area);
    printf("[%.2s]\n", io->status);
    ctdli("GN  ", pcb, area);
    printf("[%.2s] %.6s\n", pcb->stat_code, area);
    return 0;
}
