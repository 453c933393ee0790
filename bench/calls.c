/* The calls of the benchmark as prepared statements of SQLite, in one transaction: reads a deck, and prints a line for each row that is found.
 * Usage: calls DATABASE DECK. The deck is one that shapes.py writes: of the calls of one PCB, with keys in their places. */
#include <sqlite3.h>
#include <stdio.h>
#include <stdlib.h>
#include <string.h>

enum { WIDTH = 300, MOST = 6 };

/* A call of the deck: its arguments' types and the values behind their operators, NULL where they have none. */
struct call {
    char function[5], area[WIDTH], lines[MOST][WIDTH];
    char *types[MOST], *values[MOST];
    int repeat, arguments;
};

static sqlite3 *database;

static void must(int code) {
    if (code != SQLITE_OK && code != SQLITE_DONE && code != SQLITE_ROW) {
        fprintf(stderr, "%s\n", sqlite3_errmsg(database));
        exit(1);
    }
}

static sqlite3_stmt *prepared(const char *text) {
    sqlite3_stmt *statement;
    must(sqlite3_prepare_v2(database, text, -1, &statement, NULL));
    return statement;
}

static void bind(sqlite3_stmt *statement, int place, const char *text) {
    must(sqlite3_bind_text(statement, place, text, -1, SQLITE_TRANSIENT));
}

/* Runs a statement, and prints its rows. */
static void run(sqlite3_stmt *statement) {
    int columns = sqlite3_column_count(statement);
    while (sqlite3_step(statement) == SQLITE_ROW) {
        for (int i = 0; i < columns; i++) fputs((const char *)sqlite3_column_text(statement, i), stdout);
        putchar('\n');
    }
    must(sqlite3_reset(statement));
}

/* Runs a statement with these values. */
static void run_with(sqlite3_stmt *statement, int count, char *values[]) {
    for (int i = 0; i < count; i++) must(sqlite3_bind_text(statement, i + 1, values[i], -1, SQLITE_STATIC));
    run(statement);
}

/* All rows in hierarchic sequence. */
static void scan(void) {
    sqlite3_stmt *courses = prepared("select num, name from course order by num");
    sqlite3_stmt *classes = prepared("select ed, data from class where num = ? order by ed");
    sqlite3_stmt *students = prepared("select sname, grade from stud where num = ? and ed = ? order by sname");
    sqlite3_stmt *books = prepared("select title from book where num = ? order by place");
    while (sqlite3_step(courses) == SQLITE_ROW) {
        const char *number = (const char *)sqlite3_column_text(courses, 0);
        printf("%s%s\n", number, sqlite3_column_text(courses, 1));
        bind(classes, 1, number);
        bind(students, 1, number);
        bind(books, 1, number);
        while (sqlite3_step(classes) == SQLITE_ROW) {
            const char *edition = (const char *)sqlite3_column_text(classes, 0);
            printf("%s%s\n", edition, sqlite3_column_text(classes, 1));
            bind(students, 2, edition);
            run(students);
        }
        must(sqlite3_reset(classes));
        run(books);
    }
}

/* The dependents of a course. */
static void below(char *number) {
    static sqlite3_stmt *students, *books;
    if (students == NULL) {
        students = prepared("select ed, sname, grade from stud where num = ? order by ed, sname");
        books = prepared("select title from book where num = ? order by place");
    }
    run_with(students, 1, &number);
    run_with(books, 1, &number);
}

/* What a call does to the rows of the last argument's type. */
struct work {
    const char *type;
    int keys;
    const char *get, *insert, *replace, *delete[3];
    sqlite3_stmt *statements[6];
};

static struct work works[] = {
    {"COURSE", 1, "select name from course where num = ?", "insert into course values (substr(?1, 1, 7), substr(?1, 8))",
     "update course set name = substr(?2, 8) where num = ?1",
     {"delete from stud where num = ?", "delete from class where num = ?", "delete from course where num = ?"}, {0}},
    {"CLASS", 2, "select data from class where num = ? and ed = ?", NULL, NULL,
     {"delete from stud where num = ? and ed = ?", "delete from class where num = ? and ed = ?", NULL}, {0}},
    {"STUD", 3, "select grade from stud where num = ? and ed = ? and sname = ?", "insert into stud values (?1, ?2, substr(?3, 1, 4), substr(?3, 5))",
     "update stud set grade = substr(?4, 5) where num = ?1 and ed = ?2 and sname = ?3", {NULL, NULL, NULL}, {0}},
    {"BOOK", 1, "select title from book where num = ? order by place desc limit 1",
     "insert into book values (?1, (select coalesce(max(place), 0) + 1 from book where num = ?1), ?2)",
     "update book set title = ?2 where num = ?1 and place = (select max(place) from book where num = ?1)",
     {"delete from book where num = ?1 and place = (select max(place) from book where num = ?1)", NULL, NULL}, {0}},
};

static struct work *work_of(const char *type) {
    for (size_t i = 0; i < sizeof works / sizeof *works; i++)
        if (!strncmp(type, works[i].type, strlen(works[i].type))) return &works[i];
    exit(64);
}

/* The statement of a text, which is prepared at its first call. */
static sqlite3_stmt *statement_of(struct work *work, int place, const char *text) {
    if (work->statements[place] == NULL) work->statements[place] = prepared(text);
    return work->statements[place];
}

/* Finds the type and the value of the argument on a line. */
static void read_argument(struct call *call, char *line) {
    char *bracket = strchr(line, '(');
    call->types[call->arguments] = line;
    call->values[call->arguments] = NULL;
    if (bracket != NULL) {
        bracket[strcspn(bracket, ")")] = 0;
        call->values[call->arguments] = bracket + 11;
    }
    call->arguments++;
}

/* Reads the call whose first line is in hand, and the first line behind it; says whether there is one. */
static int read_call(FILE *deck, char *line, struct call *call) {
    int have;
    char count[5] = "";
    line[strcspn(line, "\n")] = 0;
    memcpy(count, line + 1, 4);
    call->repeat = atoi(count);
    call->arguments = 0;
    call->area[0] = 0;
    snprintf(call->function, sizeof call->function, "%-4.4s", line + 6);
    if (strlen(line) > 11) read_argument(call, strcpy(call->lines[0], line + 11));
    while ((have = fgets(line, WIDTH, deck) != NULL) && (line[0] == 'C' || line[0] == 'D')) {
        line[strcspn(line, "\n")] = 0;
        if (line[0] == 'C') read_argument(call, strcpy(call->lines[call->arguments], line + 11));
        else strcpy(call->area, line + 1);
    }
    return have;
}

int main(int count, char *words[]) {
    char line[WIDTH];
    static struct call call, held;
    if (count != 3) return 64;
    must(sqlite3_open(words[1], &database));
    FILE *deck = fopen(words[2], "r");
    if (deck == NULL) return 3;
    must(sqlite3_exec(database, "begin", NULL, NULL, NULL));
    int have = fgets(line, sizeof line, deck) != NULL;
    while (have) {
        have = read_call(deck, line, &call);
        struct call *own = !strcmp(call.function, "REPL") || !strcmp(call.function, "DLET") ? &held : &call;
        if (!strcmp(call.function, "GN  ")) {
            if (call.repeat > 1000) { scan(); break; }
            continue;
        }
        if (!strcmp(call.function, "GNP ")) {
            below(held.values[0]);
            continue;
        }
        if (own->arguments == 0) return 64;
        struct work *work = work_of(own->types[own->arguments - 1]);
        char *values[MOST];
        memcpy(values, own->values, sizeof values);
        if (!strcmp(call.function, "ISRT")) {
            values[own->arguments - 1] = call.area;
            run_with(statement_of(work, 1, work->insert), own->arguments, values);
        } else if (!strcmp(call.function, "REPL")) {
            values[work->keys] = call.area;
            run_with(statement_of(work, 2, work->replace), work->keys + 1, values);
        } else if (!strcmp(call.function, "DLET")) {
            for (int i = 0; i < 3 && work->delete[i] != NULL; i++) run_with(statement_of(work, 3 + i, work->delete[i]), work->keys, values);
        } else {
            run_with(statement_of(work, 0, work->get), work->keys, values);
            memcpy(&held, &call, sizeof held);
            for (int i = 0; i < held.arguments; i++)
                if (call.values[i] != NULL) held.values[i] = held.lines[i] + (call.values[i] - call.lines[i]);
            for (int i = 0; i < held.arguments; i++) held.types[i] = held.lines[i];
        }
    }
    must(sqlite3_exec(database, "commit", NULL, NULL, NULL));
    return 0;
}
