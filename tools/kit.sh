# Where the Rattle kit keeps its linker and C library, which are for x86-64: sourced, sets toolchain.
kit=${RATTLE_HOME:-$(dirname "$(dirname "$(readlink -f "$(command -v rt)")")")}
toolchain=$kit/toolchain
