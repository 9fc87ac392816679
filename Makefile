# This is for GNU make, which other systems call gmake.
# make           builds the libraries and the command of the assembly text in dist/, in OUT (packaging/out); CC is the
#                compiler
# make noisecat  builds noisecat, the command of the package for Go; needs Go
# make check     tries what was built, with a C compiler alone, in half a minute; RUN is what runs a program for
#                another machine, as qemu-aarch64
# make install   installs what was built: PREFIX (/usr/local), BINDIR, LIBDIR, INCLUDEDIR, MANDIR (PREFIX/bin, lib,
#                include, share/man), DESTDIR
# make uninstall removes what `make install` installs
# make prove     proves the library and the command from the sources, and compares what comes out with dist/; needs `rt`
# make web       puts the page, for any static server, into out/web
# make vectors   packs the test vectors and their runners into packaging/out
# make clean     removes what `make` built, and no proofs
# CI runs ./check. In a tree that can't be written, name another folder by OUT. The compiler is given CPPFLAGS, CFLAGS
# and LDFLAGS.
PREFIX ?= /usr/local
export CPPFLAGS CFLAGS LDFLAGS AR PREFIX BINDIR LIBDIR INCLUDEDIR MANDIR DESTDIR RUN

# (make's own AR is always `ar`; packaging/assemble asks CC for its own)
ifeq ($(origin AR),default)
unexport AR
endif

top := $(dir $(lastword $(MAKEFILE_LIST)))
OUT ?= $(top)packaging/out
ifneq (1 1,$(words $(OUT)) $(words $(MAKEFILE_LIST)))
$(error GNU make takes no folder whose name has a space: $(OUT))
endif

# What was built for another machine is installed and checked as it is, without another word on the compiler.
ifeq ($(origin CC),default)
CC := cc
ifeq (,$(filter-out install check,$(or $(MAKECMDGOALS),all)))
CC := $(or $(shell cat '$(OUT)/compiler' 2>/dev/null),cc)
endif
endif
export CC

# (before 4.4 make doesn't export variables to what it calls here)
shared := $(OUT)/$(or $(shell CC='$(CC)' $(top)packaging/link name 2>/dev/null),libnoise_c.so)
text := $(shell CC='$(CC)' $(top)packaging/assemble --text noise 2>/dev/null)
command := $(if $(text),$(OUT)/noise$(if $(findstring windows,$(text)),.exe))
every := $(top)include/noise.h $(addprefix $(top)packaging/,version assemble link sections.ld) \
	$(addprefix $(top)dist/,MANIFEST is-current) $(OUT)/compiler
built := $(addprefix $(OUT)/,compiler sections.a libnoise_c.a libnoise_c.so.* libnoise_c.*.dylib libnoise_c.dll.a \
	noise_c.dll noise noise.exe noisecat)

all: $(OUT)/libnoise_c.a $(shared) $(command)
	@$(if $(command),,echo "make: left out: noise: dist/ has no text of the command for the machine of $(CC)")

$(OUT)/compiler: FORCE
	@printf '%s' '$(CC)' | cmp -s - $@ || { mkdir -p $(OUT) && printf '%s' '$(CC)' >$@; } 2>/dev/null || \
		{ echo "make: $(OUT) can't be written: name another folder, as make OUT=/tmp/noise" >&2; exit 1; }

$(OUT)/sections.a: $(every) $(wildcard $(top)dist/noise_c_*.s) $(top)dist/noise_c.S
	$(top)packaging/assemble noise_c $@

$(OUT)/libnoise_c.a: $(OUT)/sections.a
	$(top)packaging/link static $< $@

$(shared): $(OUT)/libnoise_c.a
	$(top)packaging/link shared $< $@

$(OUT)/noise $(OUT)/noise.exe: $(every) $(wildcard $(top)dist/noise_[lmw]*.s) $(top)dist/noise.S $(top)dist/runtime.c
	$(top)packaging/assemble noise $@

noisecat:
	$(top)packaging/noisecat $(OUT)

install: all
	$(top)packaging/install $(OUT)

uninstall:
	$(top)packaging/install --uninstall $(OUT)

check: all
	$(top)packaging/check $(OUT)

prove:
	@$(top)dist/make --check

web:
	@$(top)web/build

clean:
	rm -f $(built)
	rm -rf $(top)packaging/out $(top)out/web

FORCE:

.PHONY: all noisecat install uninstall check prove web clean FORCE vectors

vectors:
	@$(top)packaging/vectors $(OUT)
