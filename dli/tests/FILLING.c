/* A program that loads parts until the volume is full. */
#include <ims.h>
#include <stdio.h>
#include <string.h>

int main(void)
{
    PCB_10_TYPE *pcb = (PCB_10_TYPE *)__pcblist[0];
    char area[33];

    for (int number = 0; number < 1000000; number++) {
        snprintf(area, sizeof area, "%06dA part of many    none    ", number);
        if (ctdli("ISRT", pcb, area, "PART     "))
            return 8;
    }
    return 0;
}
