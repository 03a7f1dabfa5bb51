# How a guest with picolibc is made; packages gcc-riscv64-unknown-elf and picolibc-riscv64-unknown-elf.
# A guest's Makefile names the guest and its files, and includes this one:
#
#     GUEST = json
#     FILES = json.c source/cJSON.c
#     include ../common/picolibc/rules.mk
#
# FLAGS may hold more for the compiler. Files in source/ and the folders below it are other people's:
# they are made without warnings. The guest keeps its symbols, because a rescue file may name
# functions.

COMMON := $(patsubst %/,%,$(dir $(patsubst %/,%,$(dir $(lastword $(MAKEFILE_LIST))))))
CC = riscv64-unknown-elf-gcc
GLUE = $(addprefix picolibc/,start.S streams.c system.c no_clock.c traps.c locks.c own.c threads.c) \
    thread.c clone.S memory.c

# Atomic instructions are compiled in, but the library is taken that has none: there is none with
# both them and multiplication.
COMPILE = $(CC) --specs=picolibc.specs -march=rv64ima -mabi=lp64 -O2 -ffunction-sections \
    -fno-optimize-sibling-calls -I$(COMMON)/picolibc $(FLAGS)
LINK = $(CC) --specs=picolibc.specs -march=rv64im -mabi=lp64 -O2 -static -nostartfiles \
    -Wl,-e,_start -Wl,--defsym=__flash=0x10000,--defsym=__flash_size=4M \
    -Wl,--defsym=__ram=0x1000000,--defsym=__ram_size=16M,--defsym=__stack_size=0

OBJECTS = $(patsubst %,build/%.o,$(FILES) $(GLUE))

$(GUEST): $(OBJECTS)
	$(LINK) -o $@ $(OBJECTS) -lm

build/source/%.o: source/%
	@mkdir -p $(@D)
	$(COMPILE) -w -c -o $@ $<

build/%.o: %
	@mkdir -p $(@D)
	$(COMPILE) -Wall -Wextra -c -o $@ $<

build/%.o: $(COMMON)/%
	@mkdir -p $(@D)
	$(COMPILE) -Wall -Wextra -c -o $@ $<

$(OBJECTS): $(wildcard *.h $(COMMON)/*.h $(COMMON)/picolibc/*.h)

clean:
	rm -rf build $(GUEST)
