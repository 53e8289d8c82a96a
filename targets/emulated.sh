# shellcheck shell=bash
# For scripts that build programs for a target and run them there: x86_64 on this machine, the others under emulation. `root` is the repository's.
# shellcheck disable=SC2034,SC2154 # the scripts use what is set here and set root
emulated="aarch64 cortex-m4 cortex-m0plus"
emulation_needs="cc aarch64-linux-gnu-gcc arm-none-eabi-gcc arm-none-eabi-objdump readelf qemu-aarch64 qemu-system-arm python3"
# shellcheck disable=SC2154
board_folder="$root/examples/cortex-m"

warnings=(-Wall -Wextra -Wpedantic -Wconversion -Werror)

# The linker script is the example's. A warning of the linker is an error.
board_flags() { # BOARD CPU
    echo "-mcpu=$2 -mthumb -mfloat-abi=soft -ffunction-sections -fdata-sections -nostartfiles -L $board_folder -T $board_folder/$1.ld" \
        "-Wl,--gc-sections -Wl,--fatal-warnings -Wl,-z,noexecstack"
}

compiler_of() { # TARGET: the compiler and what it needs to know of the target
    case $1 in
    x86_64) echo "cc" ;;
    aarch64) echo "aarch64-linux-gnu-gcc -static" ;;
    cortex-m4) echo "arm-none-eabi-gcc $(board_flags mps2-an386 cortex-m4)" ;;
    cortex-m0plus) echo "arm-none-eabi-gcc $(board_flags microbit cortex-m0)" ;;
    *) echo "no target $1" >&2; return 1 ;;
    esac
}

# compile TARGET PROGRAM SOURCE-OR-FLAG ..: on a board with start-up code and what newlib asks for. Debian's newlib has two names for a number of
# 64 bits, of which one flag chooses the one that its PRIu64 prints.
compile() {
    local target=$1 program=$2 compiler
    shift 2
    read -ra compiler <<<"$(compiler_of "$target")"
    case $target in
    cortex-*) set -- "$@" -D__int64_t_defined=1 -I "$board_folder" "$board_folder/start.c" "$board_folder/semihosting.c" "$root/targets/newlib.c" ;;
    esac
    "${compiler[@]}" -std=c11 -O2 "${warnings[@]}" -I "$root/include" -I "$root/examples/firmware" "$@" -o "$program"
}

archive_of() { # TARGET
    echo "$root/target/targets/$1/libgauge.a"
}

on_board() { # BOARD PROGRAM [QEMU-ARGUMENT ..]
    timeout "${LIMIT:-300}" qemu-system-arm -M "$1" -display none -monitor none -serial none -chardev stdio,id=console \
        -semihosting-config "enable=on,target=native,chardev=console${ARGUMENT:+,arg=program,arg=$ARGUMENT}" -kernel "$2" "${@:3}"
}

# run_on TARGET PROGRAM: runs it in the folder where it lies, with its standard output in `output` there.
run_on() {
    (
        cd "$(dirname "$2")" || exit
        rm -f output
        case $1 in
        x86_64) "$2" >output ;;
        aarch64) timeout 300 qemu-aarch64 "$2" >output ;;
        cortex-m4) on_board mps2-an386 "$2" >&2 </dev/null ;;
        cortex-m0plus) on_board microbit "$2" >&2 </dev/null ;;
        esac
    )
}
