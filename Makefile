# make install PREFIX=FOLDER [DESTDIR=FOLDER]: the headers, the archives with their origins, the C driver's sources, a pkg-config file, a
# configuration for packages of Rust, and the licence. host/archives makes the archives, which takes rt, unless those in
# target/staticlib are of these sources. Where XHCI_DEVICE_LIB_DIR names a folder, its archives are installed, if they are of these
# sources; XHCI_DEVICE_LIB_UNCHECKED=1 takes any. make uninstall, with the same names, takes all that away.

PREFIX ?= /usr/local

prefix := $(abspath $(PREFIX))
tree := $(DESTDIR)$(prefix)
version := $(shell sed -n 's/^.define XHCI_DEVICE_VERSION "\(.*\)"/\1/p' host/include/xhci_device.h)
driver := $(wildcard host/c/xhci_device_*)
folder := $(or $(XHCI_DEVICE_LIB_DIR),target/staticlib)
names := -e 's|@PREFIX@|$(prefix)|' -e 's|@VERSION@|$(version)|'
libraries := $(addprefix $(folder)/lib, xhci_device xhci_functions)

.PHONY: archives install uninstall

archives:
ifndef XHCI_DEVICE_LIB_DIR
	host/archives --if-old
else ifndef XHCI_DEVICE_LIB_UNCHECKED
	host/archives --check '$(folder)'
endif

install: archives
	install -d '$(tree)/include' '$(tree)/lib/pkgconfig' '$(tree)/share/xhci_device' '$(tree)/share/doc/xhci_device'
	install -m 644 $(addsuffix .a, $(libraries)) $(wildcard $(addsuffix .origin, $(libraries))) '$(tree)/lib'
	install -m 644 host/include/xhci_device.h host/include/xhci_device_driver.h '$(tree)/include'
	install -m 644 $(driver) '$(tree)/share/xhci_device'
	install -m 644 LICENSE NOTICE '$(tree)/share/doc/xhci_device'
	sed $(names) host/installed/xhci_device.pc > '$(tree)/lib/pkgconfig/xhci_device.pc'
	sed $(names) host/installed/config.toml > '$(tree)/share/xhci_device/config.toml'

uninstall:
	rm -f $(patsubst %, '$(tree)/%', include/xhci_device.h include/xhci_device_driver.h lib/libxhci_device.a lib/libxhci_device.origin \
	    lib/libxhci_functions.a lib/libxhci_functions.origin lib/pkgconfig/xhci_device.pc)
	rm -rf '$(tree)/share/xhci_device' '$(tree)/share/doc/xhci_device'
