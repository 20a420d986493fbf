# make demo   prove what is needed, then seal, print and open packets, and tell the story of an update
# make sweep  prove what is needed, then cut the power of a board at each of 121,992 storing steps, and tell what it says
# make test   the gate: programs that must not build, rt ci, what the programs print, refuse and do when a write fails; its last line is rt ci's,
#             'N passed, 0 failed'
# make speed  prove what is needed, then measure opening beside mbedTLS and OpenSSL, and the board's calls (docs/SPEED.md); not in the gate
# make times  prove each crate from nothing, one after the other, and tell the seconds of each (docs/SPEED.md); not in the gate
.PHONY: demo sweep test speed times

# any packet that pack packs
packet = data ccm 000102030405060708090A0B0C0D0E0F 01000000000000000000000000010000 7 1 1 0x4400 00

demo:
	@echo "Proving the programs pack and demo and what they stand on (from nothing, some minutes) .."
	@sh tests/build.sh pack $(packet)
	@sh tests/build.sh demo
	@sh tests/demo.sh

sweep:
	@echo "Proving the program sweep and what it stands on (from nothing, some minutes) .."
	@sh tests/build.sh sweep 60479
	@crates/sweep/out/sweep

test:
	sh tests/expected.sh
	sh tests/unsaid.sh
	sh tests/refused.sh
	sh tests/gate.sh

speed:
	@echo "Proving the program speed and what it stands on (from nothing, some minutes) .."
	@sh speed/run.sh

times:
	@sh speed/times.sh
