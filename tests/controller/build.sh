# Sourced by run and figures: finds what is needed, has the library made by tools/controller, and builds images.
# Everything goes to target/controller.
here=$(cd "$(dirname "${BASH_SOURCE[0]}")" && pwd)
root=$(cd "$here/../.." && pwd)
out=$root/target/controller
calls='tonekit_check_pack tonekit_check_query tonekit_check_sheet tonekit_write_shape tonekit_write_sheet tonekit_judge tonekit_judge_sheet'
export PYTHONDONTWRITEBYTECODE=1
ulimit -c 0
mkdir -p "$out"
touch "$out/began"

# Stops unless these commands are there, and names the Debian package of each that is not.
need() {
    local missing=() pair
    command -v rt >/dev/null || { echo "rt, the Rattle toolchain, is missing" >&2; exit 2; }
    for pair in gcc:gcc python3:python3 arm-none-eabi-gcc:gcc-arm-none-eabi qemu-system-arm:qemu-system-arm; do
        command -v "${pair%%:*}" >/dev/null || missing+=("${pair#*:}")
    done
    if command -v arm-none-eabi-gcc >/dev/null; then
        [ -f "$(arm-none-eabi-gcc -mcpu=cortex-m0 -mthumb -print-file-name=libc_nano.a)" ] || missing+=(libnewlib-arm-none-eabi)
    fi
    if [ ${#missing[@]} -gt 0 ]; then
        echo "missing, by Debian's names of the packages: ${missing[*]}" >&2
        exit 2
    fi
}

# library CORE LEVEL [WORDS..]: the archive as a firmware links it, with more words for clang; prints its name. tools/controller
# makes it, once in a run; at -O3 with no more words it is the one in target/controller.
library() {
    local core=$1 level=$2 folder=$out
    shift 2
    [ "$level" = O3 ] || folder=$out/$level
    [ $# -eq 0 ] || folder=$out/other
    if [ ! "$folder/$core/libtonekit_c.a" -nt "$out/began" ]; then
        "$root/tools/controller" -o "$folder" "-$level" "$core" -- "$@" >/dev/null || return 1
    fi
    echo "$folder/$core/libtonekit_c.a"
}

# image NAME CPU RAM STACK SPARE ARENA LIBGCC FILES..: links files with the start-up; prints the image's name.
image() {
    local name=$out/$1.elf cpu=$2 ram=$3 stack=$4 spare=$5 arena=$6 libgcc=$7
    arm-none-eabi-cpp -P -DRAM_SIZE="$ram" -DSTACK_SIZE="$stack" -DSPARE="$spare" "$here/link.ld" >"$out/$1.ld"
    shift 7
    arm-none-eabi-gcc -mcpu="$cpu" -mthumb -mfloat-abi=soft -std=c99 -Os -Wall -Wextra -ffreestanding -ffunction-sections \
        -fdata-sections -DARENA="$arena" -I"$root/include" -I"$here" -nostdlib -Wl,--gc-sections,--no-warn-execstack -T "${name%.elf}.ld" \
        "$here/start.c" "$@" -lc_nano "$libgcc" -o "$name"
    echo "$name"
}

# The x86-64 program of a source, and of libraries; x86_64 is the library of the same module for it.
x86_64=$out/x86-64/libtonekit_c.a
host() {
    gcc -std=c99 -O2 -Wall -Wextra -DARENA=24576 -I"$root/include" -I"$here" "$here/host.c" "$@"
}

# libgcc CPU: the soft-float library as it comes with the compiler.
libgcc() { arm-none-eabi-gcc -mcpu="$1" -mthumb -mfloat-abi=soft -print-libgcc-file-name; }

# emulate BOARD IMAGE FOLDER [WORDS..]: runs an image whose files are in a folder.
emulate() {
    local board=$1 image=$2 folder=$3
    shift 3
    (cd "$folder" && qemu-system-arm -M "$board" -kernel "$image" -semihosting-config enable=on,target=native -display none \
        -serial none -monitor none "$@") >"$folder/said" 2>&1
}
