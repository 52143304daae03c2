# make              proves and builds the program target/bin/chart and the library target/staticlib/libchart_c.a, which is
#                   the static library of the crate chart_c_c
# make test         runs the gate: every proof and every test
# make install      puts the header, the library, its pkg-config file and the program under PREFIX (and DESTDIR before it)
# make uninstall    takes them away again
# make FAN.html     the page of FAN.chart.txt, with everything that it needs
# make examples     the examples' chart files and pictures and the fan's page, from their texts and their listings, which
#                   tests/recorded makes

PREFIX = /usr/local
DESTDIR =
header = crates/chart_c/include/mirtalughe.h
version = $(shell sed -n 's/^\#define MIRTALUGHE_VERSION "\(.*\)"/\1/p' $(header))
to = $(DESTDIR)$(PREFIX)
installed = include/mirtalughe.h lib/libmirtalughe.a lib/pkgconfig/mirtalughe.pc bin/chart
fan = examples/booster_fan
line = examples/folded_line
sources = crates.txt $(shell find crates -name out -prune -o '(' -name '*.rt' -o -name '*.antt' ')' -print)
program = target/bin/chart
library = target/staticlib/libchart_c.a

all: $(program) $(library)

$(program): $(sources)
	cd crates/chart && rt run < /dev/null
	install -D -m 755 crates/chart/out/chart $@

$(library): $(sources)
	cd crates/chart_c_c && rt lib
	install -D -m 644 crates/chart_c_c/out/libchart_c_c.a $@

test:
	bash .ci/run

install: all
	install -d $(to)/include $(to)/lib/pkgconfig $(to)/bin
	install -m 644 $(header) $(to)/include/mirtalughe.h
	install -m 644 $(library) $(to)/lib/libmirtalughe.a
	sed 's|@PREFIX@|$(PREFIX)|; s|@VERSION@|$(version)|' bindings/c/mirtalughe.pc.in > $(to)/lib/pkgconfig/mirtalughe.pc
	chmod 644 $(to)/lib/pkgconfig/mirtalughe.pc
	install -m 755 $(program) $(to)/bin/chart

uninstall:
	cd $(to) && rm -f $(installed)

%.html: %.chart.txt $(program)
	tools/chart.py page $< $@

examples: $(program)
	tools/chart.py encode $(fan).chart.txt $(fan).chart
	tools/chart.py draw $(fan).chart.txt $(fan).listing.txt $(fan).svg
	tools/chart.py page $(fan).chart.txt $(fan).html
	tools/chart.py encode $(line).chart.txt $(line).chart
	tools/chart.py draw $(line).chart.txt $(line).listing.txt $(line).svg

.PHONY: all test install uninstall examples
