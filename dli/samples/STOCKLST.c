/* Lists the stock of a warehouse, with CTDLI, as IBM's books write it: path calls give each part with its stock. */
#include <ims.h>
#include <stdio.h>
#include <string.h>

static const char GN[4] = "GN  ";

/* The area of a path call: the part, and its stock behind it. */
struct part_with_stock {
    char number[6], description[18], colour[8];
    char warehouse[3], on_hand[6];
};

int main(void)
{
    PCB_10_TYPE *pcb = (PCB_10_TYPE *)__pcblist[0];
    struct part_with_stock area;
    int status, found = 0;

    while (!(status = ctdli(GN, pcb, &area, "PART    *D", "STOCK   (WHOUSE  EQMUC)"))) {
        printf("%.6s %.18s %.6s\n", area.number, area.description, area.on_hand);
        found++;
    }
    printf("%d parts in MUC, status %.2s\n", found, pcb->stat_code);
    return strncmp(pcb->stat_code, "GE", 2) && strncmp(pcb->stat_code, "GB", 2) ? 8 : 0;
}
