# `make demo` runs the worked task; `make test` is the gate; `make bench` times reading.
.PHONY: demo test bench

demo:
	tools/build
	target/bin/odfcopy 4800 crates/odfcopy/data/delivery.4800 disk target/delivery.disk
	target/bin/odfcopy disk target/delivery.disk 1200 target/delivery.1200
	target/bin/odfpick 1200 orbit 5 < target/delivery.1200
	target/bin/odflist < target/delivery.disk

test:
	.ci/run

bench:
	tools/build
	gcc -Wall -O2 -o target/bench bench/bench.c bench/reader.c target/staticlib/libcapi.a
	target/bench
