/* hdrun DLI,PROGRAM,PSB: runs a batch program over a volume, as the region controller DFSRRC00 does. */
#define _GNU_SOURCE
#include "dli.h"
#include "include/ims.h"

#include <ctype.h>
#include <dlfcn.h>
#include <errno.h>
#include <stdio.h>
#include <stdlib.h>
#include <string.h>
#include <sys/wait.h>
#include <unistd.h>

static const char USAGE[] =
    "Runs a batch program over a volume of hd.\n"
    "\n"
    "Usage: hdrun [OPTIONS] DLI,PROGRAM[,PSB]\n"
    "\n"
    "PROGRAM is PROGRAM.so in the folder HD_PGMLIB (else this folder), made by `cobc -m` or `gcc -shared`. The PSB has the program's\n"
    "name unless it is given: PSB.psb in the folder HD_PSBLIB; the DBD that it names, NAME.dbd in the folder HD_DBDLIB; and the volume, the\n"
    "file that the environment has as DD_ and the name of the DBD's data set.\n"
    "\n"
    "Options:\n"
    "  --dbd FILE     the DBD's source\n"
    "  --psb FILE     the PSB's source\n"
    "  --volume FILE  the volume\n"
    "  --deck FILE    writes the calls as a deck, which hd deck plays\n"
    "  --answers FILE writes what is answered, in the lines that hd deck prints\n"
    "  --native       numbers in PCB masks are in the machine's order, as with cobc -fbinary-byteorder=native\n"
    "\n"
    "HD names the program hd where it is not found by that name. The status is the program's; 16 is that of a run that was ended.\n";

static char *program_hd(void)
{
    return getenv("HD") ? getenv("HD") : "hd";
}

/* The operands of a source, as `hd operands` lists them: the line, the operation, the keyword and the value. A source that hd refuses ends the run. */
static char *operands_of(char *path)
{
    char *words[] = {program_hd(), "--explain", "always", "operands", path, NULL};
    size_t length = 0, room = 1 << 16;
    char *lines = malloc(room);
    int ends[2], status;
    pid_t child;

    if (!lines || pipe(ends) || (child = fork()) < 0) {
        perror("hdrun");
        exit(16);
    }
    if (!child) {
        dup2(ends[1], 1);
        close(ends[0]);
        close(ends[1]);
        execvp(words[0], words);
        perror(words[0]);
        _exit(127);
    }
    close(ends[1]);
    for (ssize_t got; (got = read(ends[0], lines + length, room - length - 1)) > 0 || (got < 0 && errno == EINTR);) {
        length += got > 0 ? (size_t)got : 0;
        if (room - length < 2 && !(lines = realloc(lines, room *= 2)))
            exit(16);
    }
    close(ends[0]);
    while (waitpid(child, &status, 0) < 0 && errno == EINTR)
        ;
    if (!WIFEXITED(status) || WEXITSTATUS(status))
        exit(16);
    lines[length] = 0;
    return lines;
}

/* The value of the first operand of an operation by a keyword, at most eight letters; empty where the source has none. */
static void operand(const char *lines, const char *operation, const char *keyword, char word[9])
{
    const char *end;

    word[0] = 0;
    for (; (end = strchr(lines, '\n')); lines = end + 1) {
        const char *at = lines + strspn(lines, "0123456789") + 1;
        size_t length;
        if (strncmp(at, operation, strlen(operation)) || *(at += strlen(operation)) != ' ')
            continue;
        if (strncmp(++at, keyword, strlen(keyword)) || *(at += strlen(keyword)) != ' ')
            continue;
        at++;
        length = (size_t)(end - at) < 8 ? (size_t)(end - at) : 8;
        memcpy(word, at, length);
        word[length] = 0;
        return;
    }
}

/* A member of a library: NAME.EXTENSION in the folder that a variable names, or the same in small letters. */
static char *member(const char *variable, const char *name, const char *extension)
{
    static char path[2][4096];
    const char *folder = getenv(variable) ? getenv(variable) : ".";
    char small[9] = "";

    for (size_t place = 0; place < 8 && name[place]; place++)
        small[place] = (char)tolower((unsigned char)name[place]);
    snprintf(path[0], sizeof path[0], "%s/%s.%s", folder, name, extension);
    snprintf(path[1], sizeof path[1], "%s/%s.%s", folder, small, extension);
    return strdup(access(path[0], F_OK) && !access(path[1], F_OK) ? path[1] : path[0]);
}

struct run {
    const char *program, *psb_name;
    char *dbd, *psb, *volume, *deck, *answers;
    int is_native, has_io_pcb;
};

static void usage(const char *why)
{
    fprintf(stderr, "hdrun: %s\n\n%s", why, USAGE);
    exit(64);
}

/* DLI,PROGRAM,PSB taken apart. */
static void read_region(char *region, struct run *run)
{
    char *kind = strsep(&region, ","), *program = strsep(&region, ","), *psb = strsep(&region, ",");

    if (strcmp(kind, "DLI") && strcmp(kind, "DBB"))
        usage("the region is DLI or DBB: no other kind is run");
    if (!program || !*program || strlen(program) > 8)
        usage("the program has a name of one to eight letters");
    run->program = program;
    run->psb_name = psb && *psb ? psb : program;
    if (region && strspn(region, ",") < strlen(region))
        fprintf(stderr, "hdrun: of the region's words those behind the PSB are not read: %s\n", region);
}

/* Where the file behind an option is kept, or NULL where the word is no such option. */
static char **file_option(const char *word, struct run *run)
{
    const struct {
        const char *word;
        char **file;
    } options[] = {{"--dbd", &run->dbd}, {"--psb", &run->psb}, {"--volume", &run->volume}, {"--deck", &run->deck}, {"--answers", &run->answers}};

    for (size_t place = 0; place < sizeof options / sizeof *options; place++)
        if (!strcmp(options[place].word, word))
            return options[place].file;
    return NULL;
}

static void read_words(int count, char **words, struct run *run)
{
    char *region = NULL;

    for (int place = 1; place < count; place++) {
        char **into = file_option(words[place], run);
        if (!strcmp(words[place], "--help")) {
            fputs(USAGE, stdout);
            exit(0);
        } else if (!strcmp(words[place], "--native")) {
            run->is_native = 1;
        } else if (into && place + 1 < count) {
            *into = words[++place];
        } else if (into || words[place][0] == '-' || region) {
            usage("a word that is none of these");
        } else {
            region = words[place];
        }
    }
    if (!region)
        usage("no program is named");
    read_region(region, run);
}

/* The files that the words leave open: by the PSB's name the DBD's, and by that the volume's. */
static void find_files(struct run *run)
{
    char name[9], variable[12];

    if (!run->psb)
        run->psb = member("HD_PSBLIB", run->psb_name, "psb");
    char *source = operands_of(run->psb);
    operand(source, "PSBGEN", "CMPAT", name);
    run->has_io_pcb = !strcmp(name, "YES");
    operand(source, "PCB", "DBDNAME", name);
    if (!*name)
        operand(source, "PCB", "NAME", name);
    if (!run->dbd)
        run->dbd = member("HD_DBDLIB", name, "dbd");
    free(source);
    if (run->volume)
        return;
    source = operands_of(run->dbd);
    operand(source, "DATASET", "DD1", name);
    free(source);
    snprintf(variable, sizeof variable, "DD_%s", name);
    run->volume = getenv(variable);
    if (!run->volume) {
        fprintf(stderr, "hdrun: no volume: %s=FILE says which, or --volume FILE\n", variable);
        exit(16);
    }
}

static void start_server(const struct run *run)
{
    char *words[] = {program_hd(), "--explain", "always", "serve", "--commit-on-request", run->dbd, run->psb, run->volume, NULL};
    unsigned char *hello;
    size_t length;
    int status = server_start(words, &hello, &length);

    if (status)
        exit(status);
    database_read(hello, length);
}

/* Whether the program stopped at an error or a signal, of which its own library tells. */
static int has_failed;

static int on_error(char *why)
{
    (void)why;
    has_failed = 1;
    return 1;
}

static void on_signal(int number)
{
    (void)number;
    has_failed = 1;
}

/* The end of a program, by its return or by STOP RUN: what it has changed is made last. Where its library found an error, or where a signal ended it, nothing is, and the
   server goes back to the last commit. */
static void at_end(void)
{
    if (!has_failed)
        commit();
    int status = server_end();

    if (status) {
        fprintf(stderr, "hdrun: hd serve ended with status %d\n", status);
        fflush(NULL);
        _exit(16);
    }
}

/* The program's PCBs in the order of the PSB, behind the I/O PCB where there is one. */
static int list_pcbs(const struct run *run, int is_big_endian)
{
    int first = run->has_io_pcb, count = database_pcbs();

    for (int number = count; number > 0; number--)
        __pcblist[number - 1 + first] = database_mask(number, is_big_endian);
    if (first)
        __pcblist[0] = io_pcb();
    return count + first;
}

/* GnuCOBOL looks for subprograms where its own variable says: in the program library, unless that is set. */
static void find_subprograms(void)
{
    const char *folder = getenv("HD_PGMLIB");
    if (folder)
        setenv("COB_LIBRARY_PATH", folder, 0);
}

/* GnuCOBOL ends a program at an error as at STOP RUN, and so at some signals, but tells of both before. */
static void hear_of_failures(void)
{
    int (*of_errors)(const void *, const void *) = (int (*)(const void *, const void *))dlsym(RTLD_DEFAULT, "cob_sys_error_proc");
    void (*of_signals)(void (*)(int)) = (void (*)(void (*)(int)))dlsym(RTLD_DEFAULT, "cob_reg_sighnd");
    int (*handler)(char *) = on_error;

    if (of_errors)
        of_errors("\0", &handler);
    if (of_signals)
        of_signals(on_signal);
}

static int run_cobol(const struct run *run, const char *entry)
{
    void (*begin)(int, char **) = (void (*)(int, char **))dlsym(RTLD_DEFAULT, "cob_init");
    int (*call)(const char *, int, void **) = (int (*)(const char *, int, void **))dlsym(RTLD_DEFAULT, "cob_call");
    int count = list_pcbs(run, !run->is_native);

    if (!begin || !call)
        abend("%s is a COBOL program without GnuCOBOL's library", run->program);
    find_subprograms();
    begin(0, NULL);
    hear_of_failures();
    return call(entry, count, __pcblist);
}

static int run_program(const struct run *run)
{
    const char *folder = getenv("HD_PGMLIB") ? getenv("HD_PGMLIB") : ".";
    char path[4096];

    snprintf(path, sizeof path, "%s/%s.so", folder, run->program);
    void *library = dlopen(path, RTLD_NOW | RTLD_GLOBAL);
    if (!library)
        abend("%s", dlerror());
    if (dlsym(library, "DLITCBL"))
        return run_cobol(run, "DLITCBL");
    if (dlsym(library, run->program))
        return run_cobol(run, run->program);
    int (*begin)(int, char **) = (int (*)(int, char **))dlsym(library, "main");
    if (!begin)
        abend("%s has no entry DLITCBL, %s or main", path, run->program);
    char *words[] = {path, NULL};
    list_pcbs(run, 0);
    return begin(1, words);
}

int main(int count, char **words)
{
    struct run run = {0};

    read_words(count, words, &run);
    find_files(&run);
    trace_into(run.deck, run.answers);
    start_server(&run);
    atexit(at_end);
    return run_program(&run);
}
