.PHONY: play print origins phone check

play:
	cd crates/play && rt run < stdin

print:
	cd crates/sheet_printer && rt run < stdin

origins:
	cd crates/origin_printer && rt run < stdin

phone:
	cd crates/phone && rt lib
	mkdir -p target/staticlib
	cp crates/phone/out/libphone.a target/staticlib/libphone.a

check:
	.ci/run
