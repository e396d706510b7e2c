# Passes each target to c/Makefile, whose first lines list them: make install, make deb-zonetext, make release
# VERSION=x.y.z. make test runs ./test.
all:
	@$(MAKE) --no-print-directory -C c all

test:
	./test

%:
	@$(MAKE) --no-print-directory -C c $@

Makefile: ;

.PHONY: all test
