/* Lua 5.4.4 as a server. A request is a chunk of Lua in one line, or an expression; the answer is
   what it returns, with blanks between, or Lua's own error. One state serves all requests.

   Chunks may call three functions in C. They keep goods in a list of C's, beside Lua's state:

       add(NAME, COUNT)      so many pieces more; how many there are now
       take(NAME, COUNT)     so many pieces fewer; the same
       deepest(TABLE)        the keys on the way to what lies deepest in the table

   take forgets that goods may be unknown, and reads at a null pointer then. deepest forgets that a
   table may lie in itself, and calls itself until the stack overflows. And Lua doesn't look at
   compiled chunks before it runs them, so one that was tampered with faults in the library itself.
   Under a rescue point at handle such a request is answered with an error. Lua's state is as it was
   before the request, coroutines and the collector too, and so are the goods.

   pcall catches none of these, because Lua knows nothing of them. A chunk that runs too long is
   stopped by a hook of Lua's: a rescue point doesn't end a loop. */
#include <malloc.h>
#include <stdio.h>
#include <stdlib.h>
#include <string.h>
#include "source/src/lua.h"
#include "source/src/lauxlib.h"
#include "source/src/lualib.h"

enum { RESCUED = -1 };                  /* as points.toml has it; Lua's codes are from 0 on */
enum { LONGEST = 10000 };               /* a request may take so many instructions of Lua's */
enum { WAY = 1000 };                    /* room for the keys on a way; a longer one is cut */

struct goods { char name[16]; long count; struct goods *next; };

static struct goods *all_goods;

/* Null where they are unknown. */
static struct goods *find(const char *name)
{
    struct goods *goods = all_goods;
    while (goods && strcmp(goods->name, name))
        goods = goods->next;
    return goods;
}

static struct goods *new_goods(const char *name)
{
    struct goods *goods = calloc(1, sizeof *goods);
    strncpy(goods->name, name, sizeof goods->name - 1);
    goods->next = all_goods;
    return all_goods = goods;
}

static int add(lua_State *state)
{
    const char *name = luaL_checkstring(state, 1);
    long count = luaL_checkinteger(state, 2);
    struct goods *goods = find(name);
    if (!goods)
        goods = new_goods(name);
    lua_pushinteger(state, goods->count += count);
    return 1;
}

static int take(lua_State *state)
{
    struct goods *goods = find(luaL_checkstring(state, 1));
    lua_pushinteger(state, goods->count -= luaL_checkinteger(state, 2));
    return 1;
}

/* How deep tables lie in the value at this place of Lua's stack; the keys on the way there. */
static int deepest_at(lua_State *state, int place, char *way)
{
    char below[WAY];
    int most = 0;
    way[0] = '\0';
    if (!lua_istable(state, place))
        return 0;
    luaL_checkstack(state, 4, "too deep");
    for (lua_pushnil(state); lua_next(state, place); lua_pop(state, 1)) {
        int depth = 1 + deepest_at(state, lua_gettop(state), below);
        if (depth > most) {
            most = depth;
            if (snprintf(way, WAY, ".%s%s", luaL_tolstring(state, -2, NULL), below) >= WAY)
                strcpy(way + WAY - 4, "...");
            lua_pop(state, 1);
        }
    }
    return most;
}

static int deepest(lua_State *state)
{
    char way[WAY];
    lua_settop(state, 1);
    deepest_at(state, 1, way);
    lua_pushstring(state, way);
    return 1;
}

static void stop(lua_State *state, lua_Debug *where)
{
    (void)where;
    luaL_error(state, "it takes too long");
}

/* Runs the line as an expression, or else as a chunk; what it returns, as one text. */
static int evaluate(lua_State *state)
{
    const char *line = lua_touserdata(state, 1);
    const char *expression = lua_pushfstring(state, "return %s", line);
    if (luaL_loadbuffer(state, expression, strlen(expression), "=request") != LUA_OK
        && luaL_loadbuffer(state, line, strlen(line), "=request") != LUA_OK)
        return lua_error(state);
    lua_replace(state, 1);
    lua_settop(state, 1);
    lua_call(state, 0, LUA_MULTRET);
    int count = lua_gettop(state);
    for (int i = 1; i <= count; i++) {
        luaL_tolstring(state, i, NULL);
        lua_pushstring(state, i < count ? " " : "");
    }
    lua_concat(state, 2 * count);
    return 1;
}

/* The rescue point. What it prints stays in the stream's buffer, so that a rescue takes it back.
   A code of Lua's: LUA_OK where there was no error. `noipa` keeps the function whole: its calls stay
   calls, and its caller counts on nothing but its declaration. */
__attribute__((noipa)) int handle(lua_State *state, char *line)
{
    lua_sethook(state, stop, LUA_MASKCOUNT, LONGEST);
    lua_pushcfunction(state, evaluate);
    lua_pushlightuserdata(state, line);
    int code = lua_pcall(state, 1, 1, 0);
    const char *text = lua_tostring(state, -1);
    printf("%s%s\n", code == LUA_OK ? "" : "refused: ", text ? text : "without a text");
    lua_settop(state, 0);
    return code;
}

/* A state with those libraries of Lua's that need no system, and with the three functions. */
static lua_State *new_state(void)
{
    static const luaL_Reg libraries[] = {
        { LUA_GNAME, luaopen_base }, { LUA_COLIBNAME, luaopen_coroutine },
        { LUA_TABLIBNAME, luaopen_table }, { LUA_STRLIBNAME, luaopen_string },
        { LUA_MATHLIBNAME, luaopen_math }, { LUA_UTF8LIBNAME, luaopen_utf8 }
    };
    lua_State *state = luaL_newstate();
    if (!state)
        return NULL;
    for (unsigned i = 0; i < sizeof libraries / sizeof *libraries; i++)
        luaL_requiref(state, libraries[i].name, libraries[i].func, 1);
    lua_register(state, "add", add);
    lua_register(state, "take", take);
    lua_register(state, "deepest", deepest);
    lua_settop(state, 0);
    return state;
}

int main(void)
{
    char line[400];
    lua_State *state = new_state();
    if (!state)
        return 1;
    while (fgets(line, sizeof line, stdin)) {
        long before = mallinfo().uordblks;
        if (handle(state, line) == RESCUED)
            printf("fault, heap +%ld\n", mallinfo().uordblks - before);
        fflush(stdout);
    }
    return 0;
}
