/* A program that makes calls until its server is gone. */
#include <ims.h>
#include <stdio.h>
#include <unistd.h>

int main(void)
{
    PCB_10_TYPE *pcb = (PCB_10_TYPE *)__pcblist[0];
    char area[32];

    ctdli("GN  ", pcb, area);
    puts("WAITING");
    fflush(stdout);
    for (;;) {
        usleep(10000);
        ctdli("GU  ", pcb, area);
    }
}
