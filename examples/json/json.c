/* A shop over cJSON 1.7.15. It answers one request a line; request and goods are JSON objects:

       {"add": NAME, "price": P, "count": C}     NAME comes into the stock
       {"sell": NAME, "count": C}                C pieces are sold; the answer is what they cost
       {"rename": NAME, "to": OTHER}             NAME is called OTHER
       {"show": NAME}                            the goods as they stand in the stock
       {"till": true}                            what was sold for, and how often goods were renamed

   A request that handle knows to be wrong leaves by longjmp from wherever that is seen, and is
   answered with the reason. handle doesn't look whether OTHER is a text. cJSON_SetValuestring takes
   a null pointer then and reads at it: the fault published as CVE-2024-31755. By that time half of
   the answer has been printed, the counter of renames is up, and the parsed request is on the heap.
   Under a rescue point at handle such a request is answered with an error, and all of that is taken
   back: the line of each request that has no answer says how much larger the heap became. A sale that
   leaves a part of a piece is a mistake that an assertion finds, when the sale has been made: it
   aborts, which is a fault like the others. The assertion's line is on stderr by then, and stays. */
#include <assert.h>
#include <malloc.h>
#include <setjmp.h>
#include <stdio.h>
#include <string.h>
#include "source/cJSON.h"

enum { REFUSED = -2 };                  /* -1 is the rescue point's, in points.toml */

static cJSON *stock;                    /* an array of goods */
static double till;
static int renames;

static cJSON *request;                  /* the one that is handled, while it is */
static jmp_buf refusal;
static const char *reason;

/* Ends the handling of the request. */
static void refuse(const char *why)
{
    reason = why;
    longjmp(refusal, 1);
}

/* The request's text or number of this name. */

static const char *text(const char *name)
{
    const char *value = cJSON_GetStringValue(cJSON_GetObjectItem(request, name));
    if (!value)
        refuse("a text is wanted");
    return value;
}

static double number(const char *name)
{
    cJSON *value = cJSON_GetObjectItem(request, name);
    if (!cJSON_IsNumber(value) || value->valuedouble < 0)
        refuse("a number is wanted");
    return value->valuedouble;
}

/* The goods of this name, or a null pointer. */
static cJSON *find(const char *name)
{
    cJSON *goods;
    cJSON_ArrayForEach(goods, stock)
        if (!strcmp(cJSON_GetStringValue(cJSON_GetObjectItem(goods, "name")), name))
            return goods;
    return NULL;
}

static cJSON *known(const char *name)
{
    cJSON *goods = find(name);
    if (!goods)
        refuse("no such goods");
    return goods;
}

static void add(void)
{
    const char *name = text("add");
    double price = number("price"), count = number("count");
    if (find(name))
        refuse("they are there");
    cJSON *goods = cJSON_CreateObject();
    cJSON_AddStringToObject(goods, "name", name);
    cJSON_AddNumberToObject(goods, "price", price);
    cJSON_AddNumberToObject(goods, "count", count);
    cJSON_AddItemToArray(stock, goods);
    printf("%g of %s at %.2f", count, name, price);
}

static void sell(void)
{
    const char *name = text("sell");
    cJSON *goods = known(name);
    cJSON *left = cJSON_GetObjectItem(goods, "count");
    double count = number("count");
    double price = cJSON_GetNumberValue(cJSON_GetObjectItem(goods, "price"));
    if (left->valuedouble < count)
        refuse("too few");
    cJSON_SetNumberValue(left, left->valuedouble - count);
    till += count * price;
    assert(left->valuedouble == (long)left->valuedouble);
    printf("%g of %s for %.2f", count, name, count * price);
}

static void rename_goods(void)
{
    const char *name = text("rename");
    cJSON *goods = known(name);
    cJSON *other = cJSON_GetObjectItem(request, "to");
    renames++;
    printf("%s is now ", name);
    cJSON_SetValuestring(cJSON_GetObjectItem(goods, "name"), cJSON_GetStringValue(other));
    printf("%s", cJSON_GetStringValue(other));
}

static void show(void)
{
    char *printed = cJSON_PrintUnformatted(known(text("show")));
    printf("%s", printed);
    cJSON_free(printed);
}

static void answer(void)
{
    if (cJSON_HasObjectItem(request, "add"))
        add();
    else if (cJSON_HasObjectItem(request, "sell"))
        sell();
    else if (cJSON_HasObjectItem(request, "rename"))
        rename_goods();
    else if (cJSON_HasObjectItem(request, "show"))
        show();
    else if (cJSON_HasObjectItem(request, "till"))
        printf("%.2f in the till, %d renamed", till, renames);
    else
        refuse("unknown");
}

/* Reads the request and answers it: 0, or REFUSED. */
static int judge(const char *line)
{
    if (setjmp(refusal))
        return REFUSED;
    request = cJSON_Parse(line);
    if (!request)
        refuse("no JSON");
    answer();
    return 0;
}

/* The rescue point. What it prints stays in the stream's buffer, so that a rescue takes it back.
   `noipa` keeps the function whole: its calls stay calls, and its caller counts on nothing but its
   declaration. */
__attribute__((noipa)) int handle(const char *line)
{
    int outcome = judge(line);
    cJSON_Delete(request);
    request = NULL;
    return outcome;
}

/* How many bytes malloc has handed out. */
static long heap_in_use(void)
{
    return mallinfo().uordblks;
}

static void tell(int outcome, long growth)
{
    if (outcome == REFUSED)
        printf("refused: %s, heap +%ld", reason, growth);
    else if (outcome < 0)
        printf("error, heap +%ld", growth);
    printf("\n");
    fflush(stdout);
}

int main(void)
{
    char line[200];
    stock = cJSON_CreateArray();
    while (fgets(line, sizeof line, stdin)) {
        long before = heap_in_use();
        int outcome = handle(line);
        tell(outcome, heap_in_use() - before);
    }
    return 0;
}
