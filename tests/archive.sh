# Builds the archive for C and names it; to be sourced at the root of the repository.
make -s target/lib/libtender.a
archive=target/lib/libtender.a
