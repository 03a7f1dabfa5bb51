/* How a guest gives up: by the instruction EBREAK, the fault `breakpoint`. A rescue point above takes
   the call back, and where there is none the run ends by that fault. assert comes here by abort,
   when it has put its line on stderr. */
#include <signal.h>
#include <stdlib.h>

void abort(void)
{
    __builtin_trap();
}

/* A signal is never caught, so each one that is raised ends the program. */

int raise(int number)
{
    (void)number;
    __builtin_trap();
}

_sig_func_ptr signal(int number, _sig_func_ptr handler)
{
    (void)number;
    (void)handler;
    return SIG_ERR;
}

/* The compiler calls these: where a function finds the bytes behind its array changed, and where a
   method is called that only a derived class has. */

void __stack_chk_fail(void)
{
    __builtin_trap();
}

void __cxa_pure_virtual(void)
{
    __builtin_trap();
}
