# The library for other processors, all from the one proved module. The repository's Makefile includes this file.
#   make library TARGET=..  target/TARGET/libspdm_responder.a, for one of TARGETS
#   make test-targets       those libraries on emulated processors; not part of the gate

TARGETS := x86_64-linux aarch64-linux armv7-linux cortex-m4 riscv32imc

# The kit's words for x86-64: code that the proofs say is never reached traps, and passes of clang's with known faults are left
# out. The one warning left out: that the module names another target.
TARGET_FLAGS := --no-default-config -ffunction-sections -fdata-sections -mllvm -trap-unreachable \
    -mllvm -no-trap-after-noreturn -mllvm -no-x86-call-frame-opt -mllvm -disable-machine-licm \
    -mllvm -disable-postra-machine-licm -mllvm -sink-common-insts=false -Werror -Wno-override-module
FLAGS_x86_64-linux := --target=x86_64-unknown-linux-gnu -march=x86-64 -O3 -fPIC
FLAGS_aarch64-linux := --target=aarch64-unknown-linux-gnu -march=armv8-a -mllvm -aarch64-load-store-renaming=false -O3 -fPIC
FLAGS_armv7-linux := --target=armv7-unknown-linux-gnueabihf -march=armv7-a -mfpu=vfpv3-d16 -mfloat-abi=hard -O3 -fPIC
FLAGS_cortex-m4 := --target=thumbv7em-none-eabi -mcpu=cortex-m4 -mfloat-abi=soft -Os
FLAGS_riscv32imc := --target=riscv32-unknown-elf -march=rv32imc -mabi=ilp32 -Os

# What stands in place of the processor that the module names at its functions. (-Os marks only what comes from C.)
MARK_cortex-m4 := optsize
MARK_riscv32imc := optsize
MODULE_CPU := "target-cpu"="x86-64"

.PHONY: library test-targets

ifneq ($(filter library,$(MAKECMDGOALS)),)
ifeq ($(filter $(TARGET),$(TARGETS)),)
$(error make library needs a TARGET, one of: $(TARGETS))
endif
library: target/$(TARGET)/libspdm_responder.a
endif

# The module as text, so that the marks of its functions can be changed.
target/module/spdm_responder.ll: $(RESPONDER_MODULE)
	targets/module --run clang --no-default-config -Xclang -disable-llvm-passes -S -emit-llvm -x ir $< -o $@
	@grep -q '^attributes .*$(MODULE_CPU)' $@ || \
	    { rm $@; echo 'the kit has changed: its module does not say $(MODULE_CPU)' >&2; exit 1; }

$(TARGETS:%=target/%/libspdm_responder.a): target/%/libspdm_responder.a: target/module/spdm_responder.ll targets.mk
	@mkdir -p $(@D)
	sed '/^attributes /s/$(MODULE_CPU)/$(MARK_$*)/' $< >$(@D)/spdm_responder.ll
	targets/module --run clang $(FLAGS_$*) $(TARGET_FLAGS) -c -x ir $(@D)/spdm_responder.ll -o $(@D)/spdm_responder.o
	rm -f $@
	targets/module --run llvm-ar rcs $@ $(@D)/spdm_responder.o

test-targets: $(TARGETS:%=target/%/libspdm_responder.a)
	targets/test
