# What the README names. `rt` is the toolchain's command.
SCRIPT ?= examples/four_nodes.scp
KILLS ?= 200

.PHONY: run quick build test check try network kills bench wrong-bodies pages

# prints the report of the first script, on an unproved build of the small program, in some two minutes the first time
run:
	@scripts/run

# leaves the programs unproved as out/unproved/bowls and out/unproved/scp_line, in some minutes for each
quick:
	@scripts/quick

# proves and builds what the programs stand on, and leaves them as out/bowls and out/scp_line
build:
	@scripts/build

# the whole gate: every proof, the tests, the edits that aren't on record and an eighth of the others, then every script under examples/ against its
# stored report, and the calls of examples/*.calls; with ANEW=1 all is proved, whatever this machine has kept
test:
	@scripts/gate $(if $(ANEW),--anew)

# what an edit needs: every crate, lowest first, over what earlier checks kept
check:
	@rt all check

# runs a script unproved, or each of a folder: make try SCRIPT=FILE (on what make quick left, where that is newer than the sources)
try:
	@scripts/run $(SCRIPT)

# runs four nodes as processes over loopback, kills one and brings it back: on out/bowls, or else on an unproved build
network:
	@scripts/network show

# kills 200 hosts with their nodes at random moments, in some minutes: make kills KILLS=1000
kills:
	@KILLS=$(KILLS) scripts/network kills

# the wrong bodies that the gate doesn't try, of all crates or of some: make wrong-bodies CRATE="scp_kv scp_wire"; with ALL=1 all those of the gate,
# whatever their record says, where `rt ci` ran: it is written anew
wrong-bodies:
	@$(if $(ALL),scripts/check_refused --all,scripts/wrong-bodies) $(CRATE)

# counts, growth and memory of each workload
bench:
	@scripts/bench

# writes the definitions and the promises from the source, into out/pages, in some seconds: believe.html first (docs/BELIEVE.md)
pages:
	@scripts/definitions
