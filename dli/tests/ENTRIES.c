/* The same call by each entry point, with a count of its parameters in front. */
#include <ims.h>
#include <stdio.h>
#include <string.h>

typedef int (*entry)(void *first, ...);

int main(void)
{
    const struct {
        const char *name;
        entry call;
    } entries[] = {{"CBLTDLI", CBLTDLI}, {"PLITDLI", PLITDLI}, {"CEETDLI", CEETDLI}};
    PCB_10_TYPE *pcb = (PCB_10_TYPE *)__pcblist[0];
    int four = 4;
    char area[33];

    for (int place = 0; place < 3; place++) {
        memset(area, 0, sizeof area);
        entries[place].call(&four, "GU  ", pcb, area, "PART    (PARTNO  EQCG2040)");
        printf("%s [%.2s] %.2s %.8s %.6s %.18s\n", entries[place].name, pcb->stat_code, pcb->seg_level, pcb->seg_name, pcb->key_fb_area, area + 6);
    }
    memset(area, 0, sizeof area);
    int status = ctdli(&four, "GU  ", pcb, area, "PART    (PARTNO  EQ999999)");
    printf("ctdli %c%c, key of %d bytes, area of %zu\n", status >> 8, status & 255, pcb->len_kfb, strlen(area));
    return 0;
}
