# Targets that install, package, and try what was installed and packaged. Included by the Makefile.

PREFIX  := /usr/local
DESTDIR :=
TREE     = $(DESTDIR)$(PREFIX)

# What a build makes: an artifact has all of it, and none is older than what it is made of.
PAGE  := built/lockreplay.html
BUILT := $(PROGRAM) $(TRACER) $(PAGE)

## install [PREFIX=] [DESTDIR=] | builds and installs programs, headers, C files and documents
install: $(BUILT)
	packaging/install.sh install '$(TREE)'

## install-built | installs what was built, whatever its time; PREFIX and DESTDIR as above
# Ignores times, for a clone into which built parts were copied: git gives all files new ones.
install-built:
	packaging/install.sh install '$(TREE)'

## uninstall | removes it again
uninstall:
	packaging/install.sh uninstall '$(TREE)'

## dist | a tarball of it, in dist/
dist: $(BUILT)
	packaging/dist.sh

## deb | a Debian package of it, in dist/
deb: $(BUILT)
	packaging/deb.sh

## crate | the Rust crate as `cargo package` and `cargo publish` take it, in out/crate
crate:
	rm -rf out/crate
	packaging/crate.sh out/crate

## release | source, tarball, package, site and SHA256SUMS, in dist/
release: $(BUILT)
	packaging/release.sh

# The page is the committed one: a forge publishes the site, and has no kit to build it.
SITE := out/site
## site | the documents as static HTML with search, and the page at its root, in out/site
site:
	@command -v sphinx-build > /dev/null && command -v mandoc > /dev/null || \
	    { echo 'make site needs furo, mandoc and python3-myst-parser of Debian' >&2; exit 1; }
	rm -rf '$(SITE)'
	read=$$(mktemp -d) && trap 'rm -rf "$$read"' EXIT && \
	    sphinx-build -q -W --keep-going -c packaging/site -d "$$read" . '$(SITE)'

## sheet | a page on schedules and reports, from the manual pages: out/sheet.html and out/sheet.pdf
sheet:
	mkdir -p out
	packaging/site/manuals.py out/sheet.html
	chromium --headless --no-sandbox --disable-gpu --no-pdf-header-footer \
	    --print-to-pdf=out/sheet.pdf out/sheet.html 2> /dev/null

$(PAGE): $(MODULE) VERSION docs/LOCKS.md $(wildcard page/build.mjs page/build/* built/why/* \
	page/src/*.* page/src/*/* examples/*.schedule examples/README.md)
	node page/build.mjs $(MODULE)

## release-checks | tests what is installed and packaged, and two hosts over ssh
release-checks: by-root $(BUILT)
	@tests/tools/needs.sh && tests/tools/needs.sh release
	$(PYTEST) $(SPREAD) -m 'root and not slow' tests/package

# Makes the artifacts, and the programs over what is proved, again in other roots: the same bytes.
## test-reproducible | makes the artifacts again under two Debians, and compares the bytes
test-reproducible: by-root $(BUILT)
	@tests/tools/needs.sh release
	$(PYTEST) tests/package/test_reproducible.py
