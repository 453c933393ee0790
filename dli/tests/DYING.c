/* A program that holds a segment, replaces it, and dies. */
#include <ims.h>
#include <stdlib.h>

int main(void)
{
    PCB_10_TYPE *pcb = (PCB_10_TYPE *)__pcblist[0];
    char area[9];

    if (!ctdli("GHU ", pcb, area, "PART     ", "STOCK    "))
        ctdli("REPL", pcb, area);
    abort();
}
