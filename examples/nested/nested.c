/* A shop. It answers one request a line:

       order C AxN AxN ..    customer C orders N pieces of article A, and so on; the answer is what
                             the order costs, and how many items were left out of it
       stock A               how many pieces of article A are left, and if it was never ordered
       orders                how many orders there are, and the size of the heap that holds them

   read_order reads an order and calls read_item for each item: a rescue point in a call of another
   one. They forget that a customer or an article may be missing (a null pointer), and that a number
   may be far past a table. A fault in read_item takes the item back, and read_order leaves it out
   of the order. A fault in read_order takes the whole order back, its items included. */
#include "../common/guest.h"
#include "../common/memory.h"
#include "../common/text.h"

/* What may be wrong with an order or an item; answers are negative. points.toml has the first
   three. */
enum { BROKEN = 1, MISSING = 2, OUTSIDE = 3, UNREADABLE = 4, PROBLEMS = 5 };

static const char *const problem_names[PROBLEMS] = {
    [BROKEN] = "broken", [MISSING] = "missing", [OUTSIDE] = "outside", [UNREADABLE] = "unreadable"
};

struct article { long price, stock; };
struct item { long article, pieces; struct item *next; };
struct order { long customer, sum, left_out[PROBLEMS]; struct item *items; struct order *next; };

enum { NUMBERS = 10 };                  /* of articles and of customers; few of them are there */

static struct article pens = { 2, 100 }, paper = { 5, 60 }, lamps = { 30, 4 };
static struct article *articles[NUMBERS] = { [1] = &pens, [2] = &paper, [3] = &lamps };
static char was_ordered[NUMBERS];       /* 1 for an article that is in an order */

static long anna, omar;                 /* what they owe */
static long *customers[NUMBERS] = { [1] = &anna, [2] = &omar };

static struct order *orders;            /* the latest first */
static long order_count;

/* The inner point: AxN goes from the stock into the order. 0, or what is wrong. `noipa` keeps the
   function whole: its calls stay calls, and its caller counts on nothing but its declaration. */
__attribute__((noipa)) long read_item(struct text text, struct order *order)
{
    long number, pieces;
    if (!take_number(&text, &number) || !take_word(&text, "x") || !take_number(&text, &pieces))
        return -UNREADABLE;
    was_ordered[number] = 1;            /* faults where the number is far past the table */
    struct item *item = take_block(sizeof *item);       /* null, a fault too, if none is left */
    *item = (struct item){ number, pieces, order->items };
    order->items = item;
    articles[number]->stock -= pieces;  /* faults where the article is missing */
    order->sum += pieces * articles[number]->price;
    return 0;
}

/* The outer point: C and the items. What the order costs, or what is wrong. */
__attribute__((noipa)) long read_order(struct text text)
{
    long customer;
    struct text name = take_item(&text);
    if (!take_number(&name, &customer))
        return -UNREADABLE;
    struct order *order = take_block(sizeof *order);
    *order = (struct order){ .customer = customer, .next = orders };
    orders = order;
    order_count++;
    while (text.at < text.end) {
        long answer = read_item(take_item(&text), order);
        if (answer < 0)
            order->left_out[-answer]++;
    }
    *customers[customer] += order->sum; /* faults where it is missing: the stock has gone by then */
    return order->sum;
}

static void add_problems(struct line *line, const struct order *order)
{
    for (int problem = 0; problem < PROBLEMS; problem++)
        if (order->left_out[problem]) {
            add_text(line, ", ");
            add_text(line, problem_names[problem]);
            add_text(line, " ");
            add_number(line, order->left_out[problem]);
        }
}

static void answer_order(struct line *line, struct text text)
{
    long answer = read_order(text);
    if (answer < 0) {
        add_text(line, "refused: ");
        add_text(line, problem_names[-answer]);
        return;
    }
    add_text(line, "costs ");
    add_number(line, answer);
    add_problems(line, orders);
}

static void answer_stock(struct line *line, struct text text)
{
    long number;
    if (!take_number(&text, &number) || number >= NUMBERS || !articles[number]) {
        add_text(line, "no such article");
        return;
    }
    add_number(line, articles[number]->stock);
    if (!was_ordered[number])
        add_text(line, ", never ordered");
}

static void answer_orders(struct line *line)
{
    add_number(line, order_count);
    add_text(line, " in ");
    add_number(line, heap_size());
    add_text(line, " bytes");
}

int main(void)
{
    char request[80];
    struct line line = { .length = 0 };
    for (;;) {
        long length = read_line(request, sizeof request);
        if (length < 0)
            return 0;
        struct text text = { request, request + length };
        if (take_word(&text, "orders"))
            answer_orders(&line);
        else if (take_word(&text, "order "))
            answer_order(&line, text);
        else if (take_word(&text, "stock "))
            answer_stock(&line, text);
        else
            add_text(&line, "unknown");
        put_line(&line);
    }
}
