# The packages of a version: dist/ has a tarball, a package for Debian and their sums.

# Packs the proved program at the commit of a release. Before it proves anything, it refuses changes that aren't committed, and
# changes that CHANGELOG.md lists as unreleased: make dist OPTIONS=--unreleased packs those and marks the version.
.PHONY: dist
dist:
	packaging/dist.py --look $(OPTIONS)
	$(MAKE) build
	packaging/dist.py $(OPTIONS)

# Looks for mistakes in the package for Debian, and installs it, serves its first site, removes it and purges it, in a root of its own.
.PHONY: test-dist
test-dist:
	tests/package.py
