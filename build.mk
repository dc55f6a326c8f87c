# Proves each crate that debcheck stands on over those below it, side by side, and builds the program. ./debcheck calls this, with
#   kit      the folder of the toolchain
#   lanes    how many processors there are
#   left     how many crates are out of date
# What a library was proved to lies in its out/proved, beside a sum of all that its proof read: a file that is newer and the same proves nothing.
top := debcheck_program
program := crates/$(top)/out/$(top)
version := $(wildcard crates/$(top)/out/version)

# The crates of the longest chains, first those with the most to prove behind them: they begin first, and all others give way. More jobs than one take a third
# to a half more processor time, so only those have them for which all else would wait.
long := deb_relation number_sets deb_control deb_index sat_solve deb_health deb_groundwork deb_encode deb_verdict deb_causes deb_report work_draw debcheck $(top)
wide := deb_relation deb_report work_draw
widest := deb_index debcheck $(top)
jobs = $(if $(filter $(1),$(widest)),$(lanes),$(if $(filter $(1),$(wide)),$$((($(lanes) + 2) / 2)),1))

.ONESHELL:
.SHELLFLAGS := -euc
.DELETE_ON_ERROR:
.SUFFIXES:

# Each line of crates.txt is one word here, NAME:DEP,DEP.
comma := ,
lines := $(shell sed -n 's/\#.*//; s/^\([a-z0-9_]\+\)[^:]*: */\1:/p' crates.txt | tr ' ' ,)
name = $(firstword $(subst :, ,$(1)))
names := $(foreach it,$(lines),$(call name,$(it)))
$(foreach it,$(lines),$(eval uses_$(call name,$(it)) := $(subst $(comma), ,$(word 2,$(subst :, ,$(it))))))
# The crates of this repository that one stands on, and the sums of some.
own = $(filter $(names),$(uses_$(1)))
below = $(or $(below_$(1)),$(eval below_$(1) := $(sort $(foreach it,$(call own,$(1)),$(it) $(call below,$(it)))))$(below_$(1)))
sums = $(1:%=crates/%/out/proved/sum)

below_top := $(call below,$(top))
libraries := $(filter $(below_top),$(long)) $(filter-out $(long),$(below_top))
# (a folder is newer where a file of it is gone)
is_source := \( -name out -o -name must-fail \) -prune -o \( -type d -o -name '*.rt' -o -name '*.antt' \)
files := $(shell find $(libraries:%=crates/%) crates/$(top) $(is_source) -print)
files_of = $(filter crates/$(1)/%,$(files))

$(program): $(call sums,$(libraries)) $(call files_of,$(top)) crates.txt $(version)
$(foreach it,$(libraries),$(eval $(call sums,$(it)): $(call sums,$(call own,$(it))) $(call files_of,$(it)) crates.txt $(version)))
# A sum that is missing makes nothing anew where the program is newer than all files, as behind rt ci, which makes the program, too.
.SECONDARY: $(call sums,$(libraries))

# What a recipe begins with: it ends here where all is as it was, and else leaves the sum behind, as old as the reading of the files.
crate = $(or $*,$(top))
made = crates/$(crate)/out/proved
define begin
crate=$(crate)
sum=$$({
    cat /dev/null $(version) $(call sums,$(call own,$(crate)))
    grep '^$(crate)[ :]' crates.txt
    find crates/$(crate) $(is_source) -type f -exec sha256sum {} + | sort
} | sha256sum)
if [ -e $@ ] && [ "$$sum" = "$$(cat $(made)/sum 2>/dev/null)" ]; then touch $@; exit; fi
if [ -t 2 ]; then echo >>$(program).begun; echo "debcheck: proving $(crate), $$(wc -l <$(program).begun) of $(left)" >&2; fi
rm -rf $(made)
mkdir -p $(made)
echo "$$sum" >$(made)/read
endef

# Runs a command in the folder of the crate, and shows what it says where it fails.
quietly = $(1) >>out/proved/log 2>&1 || { cat out/proved/log >&2; exit 1; }
# The folder that has a library.
from = $(if $(filter $(1),$(names)),../$(1)/out/proved,"$(kit)"/rlibs)
# Proves the crate; the words behind say what of it is read and what is made.
define prove
cd crates/$(crate)
$(call quietly,nice -n $(if $(filter $(crate),$(long)),0,10) "$(kit)/bin/rattle" build --crate-name $(crate) $(1) \
    $(foreach it,std $(uses_$(crate)),--extern $(it)=$(call from,$(it))/$(it).rlib) $(foreach it,std $(call below,$(crate)),-L dependency=$(call from,$(it))) \
    --links $(crate)= --jobs $(call jobs,$(crate)) --antt-project "$(kit)/rattle/logic/antt-project.json" --logic-built "$(kit)/logic_built")
endef

$(call sums,$(libraries)): crates/%/out/proved/sum:
	$(begin)
	$(call prove,src/lib.rt --statements -o out/proved/$(crate).rlib)
	mv out/proved/read out/proved/sum

$(program):
	$(begin)
	$(call prove,src/main.rt --backend llvm --toolchain "$(kit)/toolchain" -o out/$(top).o)
	$(call quietly,"$(kit)/bin/rattle-link" --target x86_64-unknown-linux-gnu --toolchain "$(kit)/toolchain" -o out/$(top) out/$(top).o \
	    "$(kit)/c/libos_c.a" "$(kit)/c/liblibc_c.a")
	touch -r out/proved/read out/$(top)
	mv out/proved/read out/proved/sum
