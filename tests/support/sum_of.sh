# Prints the sum of the sources of the folder repo, in other words than the launcher's: of the lines of sha256sum, by path and bytes.
(cd repo && find crates.txt HANDLES crates -type f ! -name '.*' ! -name '*~' | grep -v '/out/' | LC_ALL=C sort | xargs sha256sum | LC_ALL=C sort | sha256sum | cut -c 1-64)
