# SPDX-License-Identifier: Apache-2.0 OR MIT
#
# What rt proves and builds: out/TARGET/built-LEVEL.a, for each level. A change of this file proves anew, one of Makefile doesn't.
#
# chacha20_c is a static library only in a copy of the crates, which lies outside the tree, where the gate would refuse it. The copy
# has their text and what rt has proved of it, and as level.rt the level's own file of chacha20_c, where it has one. Left out are
# must-fail, and work on libraries that are whole.

LIBRARIES = poly1305 chacha_base chacha20 chacha20poly1305 secretstream sealed_file
CRATES = $(LIBRARIES) chacha20_c
SOURCES := $(sort $(shell find $(CRATES:%=../crates/%) \( -name out -o -name must-fail \) -prune -o -type f -print))
BUILT = $(LEVELS:%=$(OUT)/built-%.a)
# A tool and its version. One that isn't found keeps its line, so that a user without it can install.
quoted = '$(subst ','\'',$(1))'
line_of = $(call quoted,$(or $(if $(3),$(1): $(2)$(comma) $(3)),$(shell sed -n '/^$(1): /p' $(OUT)/$(4) 2> /dev/null),$(1): not found))
comma := ,
# Written only where it differs.
if_differs = $(shell printf '%s\n' $(1) | cmp -s - $(OUT)/$(2) || echo FORCE)

PROVED_WITH := $(call line_of,RT,$(RT),$(shell $(RT) version 2> /dev/null | head -n 1),proved-with) \
	$(call quoted,sources: $(SOURCES))
$(OUT)/proved-with: $(call if_differs,$(PROVED_WITH),proved-with) | $(OUT)
	@printf '%s\n' $(PROVED_WITH) > $@

# The libraries are proved in the tree, where their proofs stay. Levels after the first have little left to prove, for which more
# jobs would only load more. dash runs no EXIT trap on a signal, so signals have one of their own.
$(BUILT) &: $(SOURCES) $(OUT)/proved-with proved.mk
	@echo 'proving the libraries, in ../crates'; cd ../crates && for name in $(LIBRARIES); do (cd $$name && $(RT) lib) || exit; done
	@set -e; copy=$$(mktemp -d); crate=$$copy/crates/chacha20_c; trap 'rm -rf "$$copy"' EXIT; trap 'exit 1' HUP INT TERM; \
	tar -C .. --exclude=must-fail $(LIBRARIES:%=--exclude=crates/%/out/incremental) -cf - $(CRATES:%=crates/%) | tar -C "$$copy" -xf -; \
	for name in $(CRATES); do grep "^$$name:" ../crates.txt; done | sed 's/^chacha20_c:/chacha20_c staticlib:/' > "$$copy/crates.txt"; \
	jobs=; for level in $(LEVELS); do \
		from=../crates/chacha20_c/src/level; own=$${from}_$$(echo $$level | tr - _).rt; [ -f $$own ] || own=$$from.rt; \
		echo "proving and building for $$level"; cp $$own "$$crate/src/level.rt"; \
		(cd "$$crate" && $(RT) lib $$jobs --target $(TARGET) --cpu $$level); jobs='--jobs 1'; \
		cp "$$crate/out/libchacha20_c.a" $(OUT)/built-$$level.a; \
	done
