# For whoever has a C compiler and no toolchain: the library, which c/build --dist compiles into c/out, and the program infer_label.
CC ?= cc
CFLAGS ?= -O1
PREFIX ?= /usr/local
WORDS = CC="$(CC)" CPPFLAGS="$(CPPFLAGS)" CFLAGS="$(CFLAGS)" LDFLAGS="$(LDFLAGS)"

infer_label: c/out/libinfer.a program/*.c program/*.h
	@$(MAKE) -C program OUT=../$@ CC="$(CC)" CFLAGS="$(CFLAGS) -Wno-error"

c/out/libinfer.a: always
	@$(WORDS) c/build --dist

test: infer_label
	@$(WORDS) .ci/uses --few

install: infer_label
	@$(WORDS) DESTDIR="$(DESTDIR)" c/install "$(PREFIX)"

clean:
	rm -f infer_label
	! grep -qs '^compiled: ' c/out/MADE || rm -f c/out/libinfer.a c/out/MADE

.PHONY: always test install clean
