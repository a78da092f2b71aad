# What people type. Each target calls a script, which says at its top what it does; those prove and build what is missing or older
# than a source.
PREFIX = /usr/local
export DESTDIR

.PHONY: all test library page package install uninstall
# proves and builds the program
all:
	@./mvtgate --version
# all proofs and tests
test:
	@.ci/run
# the C library, in bindings/c/out
library:
	@tools/library
# the page, in web/out
page:
	@tools/page
# the packages, in out/packages
package:
	@tools/package
# below PREFIX, which is an absolute path; with DESTDIR in that folder
install:
	@tools/install '$(PREFIX)'
uninstall:
	@tools/install --uninstall '$(PREFIX)'
