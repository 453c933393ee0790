/* What a batch program in C needs of IBM's <ims.h>: PCB masks, the list of PCBs, and the call. */
#ifndef IMS_H
#define IMS_H

#define PCB_STRUCT(key_length) \
    char db_name[8];           \
    char seg_level[2];         \
    char stat_code[2];         \
    char proc_opt[4];          \
    int ims_func_code;         \
    char seg_name[8];          \
    int len_kfb;               \
    int no_senseg;             \
    char key_fb_area[key_length];

typedef struct { PCB_STRUCT(1) } DB_PCB_TYPE;
typedef struct { PCB_STRUCT(10) } PCB_10_TYPE;
typedef struct { PCB_STRUCT(50) } PCB_50_TYPE;
typedef struct { PCB_STRUCT(255) } PCB_255_TYPE;

extern void *__pcblist[];

int CBLTDLI(void *first, ...);
int PLITDLI(void *first, ...);
int CEETDLI(void *first, ...);
int hd_ctdli(int count, ...);

/* The parameters are counted where the call is compiled, since C marks no last one. */
#define HD_20TH(a, b, c, d, e, f, g, h, i, j, k, l, m, n, o, p, q, r, s, count, ...) count
#define HD_COUNT(...) HD_20TH(__VA_ARGS__, 19, 18, 17, 16, 15, 14, 13, 12, 11, 10, 9, 8, 7, 6, 5, 4, 3, 2, 1, 0)
#define ctdli(...) hd_ctdli(HD_COUNT(__VA_ARGS__), __VA_ARGS__)
#define CTDLI(...) hd_ctdli(HD_COUNT(__VA_ARGS__), __VA_ARGS__)

#endif
