# shellcheck shell=bash disable=SC2154
# How scripts/host builds the program: what the system needs to make an attack on a mistake in it harder.
if command -v readelf >/dev/null; then
    file=${program##* }
    readelf -W --file-header --program-headers --dynamic --dyn-syms "$file" >elf
    check "the program can be loaded anywhere (PIE)" grep -q '(FLAGS_1).*\bPIE\b' elf
    check "all addresses are bound at the start (BIND_NOW)" grep -q '(FLAGS).*BIND_NOW' elf
    check "what is bound can't be written afterwards (RELRO)" grep -q '^ *GNU_RELRO ' elf
    check "the stack can't be executed" grep -q '^ *GNU_STACK .* RW  *0x' elf
    check "a smashed stack ends the program (stack protector)" grep -q ' __stack_chk_fail\b' elf
    # Builds with sanitizers are without it: see scripts/host.
    grep -q ' __asan_init\b' elf ||
        check "the C library checks lengths (FORTIFY)" grep -q ' __[a-z]*printf_chk\b' elf
else
    echo "not run: how aspenbox is built (no readelf)"
fi
