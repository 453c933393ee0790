/* Makes the calls of the file SCRIPT, and prints what each one answered in the words of hd deck. A line has, between tabs, a PCB, 0 for the I/O PCB, a function, the I/O
   area and up to three SSAs. */
#include <ims.h>
#include <stdio.h>
#include <stdlib.h>
#include <string.h>

/* The area that a call is given, behind what is the script's, has marks: what it answers ends at the first. */
enum { MARK = '~' };
static char area[40000];

static void show(const PCB_255_TYPE *pcb, const char *function)
{
    int given = function[0] == 'G' ? (int)strcspn(area, "~") : 0;
    printf("[%.2s] %.2s %.8s key=%.*s area=%.*s\n", pcb->stat_code, pcb->seg_level, pcb->seg_name, pcb->len_kfb, pcb->key_fb_area, given, area);
}

int main(void)
{
    FILE *script = fopen(getenv("SCRIPT"), "r");
    char line[1000];

    while (script && fgets(line, sizeof line, script)) {
        char *part[6] = {0}, *rest = line;
        int parts = 0;
        line[strcspn(line, "\n")] = 0;
        while (rest && parts < 6)
            part[parts++] = strsep(&rest, "\t");
        PCB_255_TYPE *pcb = __pcblist[atoi(part[0])];
        memset(area, MARK, sizeof area - 1);
        memcpy(area, part[2], strlen(part[2]));
        CBLTDLI(&parts, part[1], pcb, area, part[3], part[4], part[5]);
        if (pcb == __pcblist[0])
            printf("%s [%.2s]\n", part[1], pcb->stat_code);
        else
            show(pcb, part[1]);
    }
    return 0;
}
