# shellcheck shell=bash
# For scripts that need cargo: a plain shell's PATH may lack the folder where rustup puts it.
home=${HOME:-$(getent passwd "$(id -u)" | cut -d: -f6)}
export PATH="$PATH:${CARGO_HOME:-$home/.cargo}/bin"
