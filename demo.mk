# The C demonstration and the fuzz driver. The repository's Makefile includes this file.
#   make demo         prove and build the library if needed, build the demonstration and run it
#   make demo-image   the demonstration's box as the bench's lines, made into its image by make_image
#   make host-example a host that signs, built, questioned and its signature verified
#   make bench-tools  bench/make-image and bench/image-info on good and bad lines
#   make linked-names what the archive calls is what docs/HOST.md says, and no more
#   make fuzz         the demonstration under the sanitizers, then FUZZ_SECONDS of libFuzzer, which sees the library's
#                     own code; without clang's runtime, FUZZ_INPUTS inputs of the driver
#   make fuzz-short   FUZZ_SHORT_INPUTS inputs, always the same ones, in a few seconds

RESPONDER_LIB ?= target/staticlib/libspdm_responder.a
RESPONDER_INCLUDE ?= include
HOST_OUT := target/host
FUZZ_CLANG ?= clang
FUZZ_SECONDS ?= 60
FUZZ_INPUTS ?= 50000
FUZZ_SHORT_INPUTS ?= 2000
FUZZ_SEED ?= 1

HOST_WARNINGS := -Wall -Wextra -Werror
HOST_FLAGS := -std=c11 -O2 $(HOST_WARNINGS) -I$(RESPONDER_INCLUDE)
FUZZ_FLAGS := -std=c11 -O1 -g $(HOST_WARNINGS) -I$(RESPONDER_INCLUDE) -Irust/plain_c
HOST_SOURCES := $(wildcard host/*.c)
HOST_OBJECTS := $(HOST_SOURCES:host/%.c=$(HOST_OUT)/%.o)
FUZZ_SOURCES := $(wildcard fuzz/*.c)
OPENSSL_PACKAGE := apt-get install -y libssl-dev

.PHONY: demo demo-image demo-sanitized host-example bench-tools linked-names fuzz fuzz-short fuzz-libfuzzer fuzz-driver openssl-headers

SOURCES := crates.txt $(shell find crates -name out -prune -o \( -name '*.rt' -o -name '*.antt' \) -print 2>/dev/null)

# $(call told,COMMAND,LOG): of rt's output a line a crate is shown; the prover's notes are in the log.
told = @mkdir -p target; { $(1) 2>&1; echo $$? >$(2).status; } | tee $(2) | grep --line-buffered '^rt: '; \
    test "$$(cat $(2).status)" = 0 || { tail -30 $(2); exit 1; }

# rt works in a crate's folder, in whose out/ it leaves what it makes, and proves only what has changed; their dates then stand for
# all sources. --cpu: code for every x86-64 processor, where the kit would take one with SSE4.2.
RESPONDER_MODULE := target/module/spdm_responder.bc
RESPONDER_RT := lib --cpu x86-64

target/staticlib/libspdm_responder.a: $(SOURCES)
	@echo "proving the library, some minutes the first time (notes: target/demo-proof.log)"
	$(call told,(cd crates/spdm_responder && rt $(RESPONDER_RT)),target/demo-proof.log)
	@mkdir -p $(@D)
	cp crates/spdm_responder/out/libspdm_responder.a $@

# The module that the archive was compiled from, for libFuzzer and for other processors.
$(RESPONDER_MODULE): target/staticlib/libspdm_responder.a targets/module
	@mkdir -p $(@D)
	$(call told,targets/module $@ $(RESPONDER_RT),target/module.log)

linked-names: $(RESPONDER_LIB)
	@names=$$(nm -u $< | awk '$$1 == "U" { print $$2 }' | sort -u | paste -sd ' '); \
	    test "$$names" = "memcpy memset" || { echo "$< calls: $$names" >&2; exit 1; }

$(HOST_OUT):
	mkdir -p $@

# Missing headers: as root the package is installed, else the command is said.
openssl-headers:
	@if ! echo '#include <openssl/evp.h>' | $(CC) -E -x c - >/dev/null 2>&1; then \
	    if [ "$$(id -u)" = 0 ]; then apt-get update && $(OPENSSL_PACKAGE); \
	    else echo "OpenSSL's headers are missing. Run: $(OPENSSL_PACKAGE)" >&2; exit 1; fi; \
	fi

$(HOST_OUT)/%.o: host/%.c $(wildcard host/*.h) $(RESPONDER_INCLUDE)/spdm_responder.h | $(HOST_OUT) openssl-headers
	$(CC) $(HOST_FLAGS) -c $< -o $@

$(HOST_OUT)/demo: $(HOST_OBJECTS) $(RESPONDER_LIB)
	$(CC) $(HOST_OBJECTS) $(RESPONDER_LIB) -lcrypto -o $@

demo: $(HOST_OUT)/demo
	$(HOST_OUT)/demo

# The bench's programs: rt builds a program to run it, here on nothing. Behind the archive, since one rt runs at a time.
MAKE_IMAGE := target/bin/make_image
IMAGE_INFO := target/bin/image_info

$(MAKE_IMAGE) $(IMAGE_INFO): target/bin/%: $(SOURCES) | $(RESPONDER_LIB)
	$(call told,(cd crates/$* && rt run </dev/null),target/$*-proof.log)
	@mkdir -p $(@D)
	cp crates/$*/out/$* $@

$(IMAGE_INFO): | $(MAKE_IMAGE)

bench-tools: $(MAKE_IMAGE) $(IMAGE_INFO)
	bench/test

$(HOST_OUT)/signing_host: host/examples/signing_host.c $(RESPONDER_INCLUDE)/spdm_responder.h $(RESPONDER_LIB) | $(HOST_OUT) openssl-headers
	$(CC) $(HOST_FLAGS) $< $(RESPONDER_LIB) -lcrypto -o $@

host-example: $(HOST_OUT)/signing_host $(MAKE_IMAGE)
	host/examples/test $<

demo-image: $(HOST_OUT)/demo $(MAKE_IMAGE)
	$(HOST_OUT)/demo --export $(HOST_OUT)/box.txt $(HOST_OUT)/box.img
	$(MAKE_IMAGE) <$(HOST_OUT)/box.txt | cmp - $(HOST_OUT)/box.img

SANITIZE := -fsanitize=address,undefined -fno-sanitize-recover=all

$(HOST_OUT)/demo-sanitized: $(HOST_SOURCES) $(wildcard host/*.h) $(RESPONDER_LIB) | $(HOST_OUT) openssl-headers
	$(CC) $(HOST_FLAGS) -g $(SANITIZE) $(HOST_SOURCES) $(RESPONDER_LIB) -lcrypto -o $@

demo-sanitized: $(HOST_OUT)/demo-sanitized
	$< >$(HOST_OUT)/demo.out || { tail -5 $(HOST_OUT)/demo.out; exit 1; }
	@tail -1 $(HOST_OUT)/demo.out
	$< --help >$(HOST_OUT)/demo.out
	$< --nonsense 2>$(HOST_OUT)/demo.out; test $$? = 2

# The plain responder, which the driver compares with.
PLAIN_LIB := rust/target/fuzz/libspdm_plain.a

$(PLAIN_LIB): $(wildcard rust/plain_c/*) rust/src/plain.rs rust/Cargo.toml
	$(CARGO) build -q --offline --profile fuzz --manifest-path rust/plain_c/Cargo.toml
	touch $@

FUZZ_NEEDS := $(FUZZ_SOURCES) $(wildcard fuzz/*.h) $(RESPONDER_INCLUDE)/spdm_responder.h $(PLAIN_LIB)

$(HOST_OUT)/fuzz-driver: $(FUZZ_NEEDS) $(RESPONDER_LIB) | $(HOST_OUT)
	$(CC) $(FUZZ_FLAGS) $(SANITIZE) $(FUZZ_SOURCES) $(RESPONDER_LIB) $(PLAIN_LIB) -o $@

# For libFuzzer the library is its proved module, instrumented, in place of the archive.
$(HOST_OUT)/spdm_responder.o: $(RESPONDER_MODULE) | $(HOST_OUT)
	targets/module --run clang -O1 -fPIC -fsanitize=fuzzer-no-link,address -mllvm -force-attribute=sanitize_address \
	    -c -x ir $< -o $@

$(HOST_OUT)/fuzz-libfuzzer: $(FUZZ_NEEDS) $(HOST_OUT)/spdm_responder.o
	$(FUZZ_CLANG) $(FUZZ_FLAGS) -DWITH_LIBFUZZER -fsanitize=fuzzer,address,undefined -fno-sanitize-recover=all \
	    $(FUZZ_SOURCES) $(HOST_OUT)/spdm_responder.o $(PLAIN_LIB) -o $@

fuzz-short: $(HOST_OUT)/fuzz-driver
	$< $(FUZZ_SHORT_INPUTS) $(FUZZ_SEED)

fuzz-driver: $(HOST_OUT)/fuzz-driver
	$< $(FUZZ_INPUTS) $(FUZZ_SEED)

fuzz-libfuzzer: $(HOST_OUT)/fuzz-libfuzzer
	mkdir -p $(HOST_OUT)/corpus
	$< -max_total_time=$(FUZZ_SECONDS) -max_len=1024 -timeout=20 -print_final_stats=1 \
	    -artifact_prefix=$(HOST_OUT)/ $(HOST_OUT)/corpus

HAS_LIBFUZZER = $(shell echo 'int LLVMFuzzerTestOneInput(void){return 0;}' | \
    $(FUZZ_CLANG) -fsanitize=fuzzer,address -x c - -o /dev/null 2>/dev/null && echo yes)

# Asked only when `make fuzz` is called: which of the two there is.
ifneq ($(filter fuzz,$(MAKECMDGOALS)),)
fuzz: demo-sanitized $(if $(HAS_LIBFUZZER),fuzz-libfuzzer,fuzz-driver)
endif
