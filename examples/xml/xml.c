/* Four threads over expat 2.5.0. A request is an XML document in one line; the answer says how many
   elements it has and how deep they lie, or what is wrong with it and where. Answers come in the
   order of the requests.

   expat of that release opens an entity within an entity by a call within a call, as deep as the
   document likes (CVE-2024-8176). A document of 600 entities, each in the next one, overflows the
   60 KiB of its thread's stack, which is a fault, in the middle of a parse. Under a rescue point at
   measure such a document is answered with an error. The parser is gone, as if it had never been
   made: the line of the request says how much larger the heap became. The other threads' documents
   are parsed on. */
#include <malloc.h>
#include <stdio.h>
#include <stdlib.h>
#include <string.h>
#include "../common/picolibc/heap.h"
#include "../common/thread.h"
#include "source/expat/lib/expat.h"

enum { THREADS = 4, SIZE = 20000 };
enum { RESCUED = -1 };                  /* as points.toml has it; expat's codes are from 0 on */

static struct lock input, output;       /* a stream has no lock of its own */
static struct condition answered;
static long read_count, answered_count;

/* What is found in a document. */
struct found { long elements, depth, deepest, column; };

static void begin_element(void *place, const char *name, const char **attributes)
{
    struct found *found = place;
    (void)name, (void)attributes;
    found->elements++;
    if (++found->depth > found->deepest)
        found->deepest = found->depth;
}

static void end_element(void *place, const char *name)
{
    struct found *found = place;
    (void)name;
    found->depth--;
}

/* The rescue point. A code of expat's: XML_ERROR_NONE where the document is well-formed. `noipa`
   keeps the function whole: its calls stay calls, and its caller counts on nothing but its
   declaration. */
__attribute__((noipa)) int measure(const char *document, struct found *found)
{
    XML_Parser parser = XML_ParserCreate(NULL);
    if (!parser)
        return XML_ERROR_NO_MEMORY;
    XML_SetHashSalt(parser, 1);
    XML_SetUserData(parser, found);
    XML_SetElementHandler(parser, begin_element, end_element);
    XML_Parse(parser, document, strlen(document), 1);
    int code = XML_GetErrorCode(parser);
    found->column = XML_GetCurrentColumnNumber(parser);
    XML_ParserFree(parser);
    return code;
}

/* The number of the document that comes next, from 0 on, or -1 where none is left. */
static long next_document(char *document)
{
    take(&input);
    long number = document && fgets(document, SIZE, stdin) ? read_count++ : -1;
    give(&input);
    return number;
}

/* Prints the answer when all earlier ones are printed. */
static void tell(long number, int code, const struct found *found, long growth)
{
    take(&output);
    while (answered_count != number)
        wait_for(&answered, &output);
    if (code == XML_ERROR_NONE)
        printf("elements %ld, depth %ld\n", found->elements, found->deepest);
    else if (code == RESCUED)
        printf("fault, heap +%ld\n", growth);
    else
        printf("error at column %ld: %s\n", found->column, XML_ErrorString(code));
    fflush(stdout);
    answered_count++;
    tell_all(&answered);
    give(&output);
}

/* A thread holds the heap round the call, since malloc may not wait in it. */
static void serve(void *unused)
{
    char *document = malloc(SIZE);
    long number;
    (void)unused;
    while ((number = next_document(document)) >= 0) {
        struct found found = { 0, 0, 0, 0 };
        hold_heap();
        long before = mallinfo().uordblks;
        int code = measure(document, &found);
        long growth = mallinfo().uordblks - before;
        release_heap();
        tell(number, code, &found, growth);
    }
    free(document);
}

int main(void)
{
    struct thread threads[THREADS];
    for (int i = 0; i < THREADS; i++)
        if (start(&threads[i], serve, NULL) < 0)
            return 1;
    for (int i = 0; i < THREADS; i++)
        join(&threads[i]);
    return 0;
}
