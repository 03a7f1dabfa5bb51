/* SQLite over a database in memory. It runs one SQL statement a line and prints the rows that it
   gives, with | between their values.

   in_euros(SUM, CURRENCY) is a function of ours that statements may call. It forgets that a
   currency may be unknown, and reads at a null pointer then. That may be in the middle of an UPDATE
   in an open transaction, when some rows are changed already. Under a rescue point at run such a
   statement is answered with an error. What it had changed is taken back, and the transaction is as
   open as it was. */
#include <stdio.h>
#include <string.h>
#include "build/amalgamation/sqlite3.h"

enum { RESCUED = -1 };                  /* as points.toml has it; SQLite's codes are from 0 on */

static const struct rate { const char *currency; double euros; } rates[] = {
    { "EUR", 1 }, { "USD", 0.75 }, { "GBP", 1.25 }
};

/* Null where the currency is unknown. */
static const struct rate *rate_of(const char *currency)
{
    for (unsigned i = 0; i < sizeof rates / sizeof *rates; i++)
        if (!strcmp(rates[i].currency, currency))
            return &rates[i];
    return NULL;
}

static void in_euros(sqlite3_context *context, int count, sqlite3_value **values)
{
    const char *currency = (const char *)sqlite3_value_text(values[1]);
    (void)count;
    sqlite3_result_double(context, sqlite3_value_double(values[0]) * rate_of(currency)->euros);
}

static void print_row(sqlite3_stmt *statement)
{
    for (int i = 0; i < sqlite3_column_count(statement); i++) {
        const char *value = (const char *)sqlite3_column_text(statement, i);
        printf("%s%s", i ? "|" : "", value ? value : "null");
    }
    printf("\n");
}

/* The rescue point. What it prints stays in the stream's buffer, so that a rescue takes it back.
   A code of SQLite's: SQLITE_OK where the statement is done. `noipa` keeps the function whole: its
   calls stay calls, and its caller counts on nothing but its declaration. */
__attribute__((noipa)) int run(sqlite3 *database, const char *sql)
{
    sqlite3_stmt *statement;
    int code = sqlite3_prepare_v2(database, sql, -1, &statement, NULL);
    if (code != SQLITE_OK)
        return code;
    while (sqlite3_step(statement) == SQLITE_ROW)
        print_row(statement);
    return sqlite3_finalize(statement);
}

int main(void)
{
    char line[400];
    sqlite3 *database;
    if (sqlite3_open(":memory:", &database) != SQLITE_OK)
        return 1;
    sqlite3_create_function(database, "in_euros", 2, SQLITE_UTF8, NULL, in_euros, NULL, NULL);
    while (fgets(line, sizeof line, stdin)) {
        int code = run(database, line);
        if (code == RESCUED)
            printf("fault: the statement is taken back\n");
        else if (code != SQLITE_OK)
            printf("error: %s\n", sqlite3_errmsg(database));
        fflush(stdout);
    }
    return 0;
}
