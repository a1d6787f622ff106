#: make install [PREFIX=/usr/local] [LIBDIR=lib] [DESTDIR=]  installs program, libraries, headers, manual pages, documents
#: make uninstall [PREFIX=/usr/local] [DESTDIR=]             takes away what an install put there
#: make -C share/dmclock/nbd install                         builds the nbdkit filter, and puts it where nbdkit looks for it
#: make -C share/dmclock/nginx install                       builds the module for nginx, and puts it where nginx looks for it
#: make -C share/dmclock/nginx try                           sends a request through a front and a node that have it
#: INSTALL has the rest.
help:
	@sed -n 's/^#: //p' Makefile

install:
	./install.sh install .

uninstall:
	./install.sh uninstall

.PHONY: help install uninstall
