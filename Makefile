# make demo: shows a snapshot of a small run, then builds the program without proving it, and runs the sample job.
# make hop: proves and builds the program, and leaves it as ./hop.
# make test: the gate over the whole repository, and then the checks over the real program, which is the one that the
# gate proved and built; make hop would prove all of it once more, in a place of its own.

.PHONY: demo test hop

# `rt try` builds and runs it in a folder of its own, which it then removes with the files.
demo:
	@echo "First a small run over folders in memory: its snapshot of half the input, its part and its trace."
	@echo "Then hop itself counts the words of crates/hop_main/data/in.txt, with two workers and two reducers, by the"
	@echo "fault script beside it: its first attempt of split 0 fails, and reducer 1 restarts. About four minutes."
	@echo "Not proved by this command: make test proves all, in an hour and a half on four processors."
	cd crates/hop_demo && rt try
	cd crates/hop_main && rt try --data in.txt=data/in.txt --data script=data/script -- run wc in.txt --reducers 2 --split 1 --marks 5000 --script script
	@echo "Attempts beyond the number of splits were tried again; what was pulled was lost by a restart and fetched from"
	@echo "the workers' spills. The files went with the folder of that run: README, under Use, shows what they hold."
	@echo "make hop proves the program, some half an hour, and leaves it as ./hop."

# `rt run` proves the program, builds it and runs it; with no words it answers that they are not
# understood, so what counts here is that the program stands there afterwards.
hop:
	rm -f crates/hop_main/out/hop_main
	cd crates/hop_main && { rt run >out.log 2>&1 </dev/null || true; } && { test -x out/hop_main || { cat out.log; exit 1; }; }
	rm -f crates/hop_main/out.log
	cp crates/hop_main/out/hop_main hop

test:
	rm -f crates/hop_main/out/hop_main
	rt ci
	if test -x crates/hop_main/out/hop_main; then cp crates/hop_main/out/hop_main hop; else $(MAKE) hop; fi
	sh tests/cli.sh ./hop
