/* A call whose PCB is none of the PSB's. */
#include <ims.h>

int main(void)
{
    PCB_10_TYPE own = {0};
    char area[32];
    return ctdli("GU  ", &own, area);
}
