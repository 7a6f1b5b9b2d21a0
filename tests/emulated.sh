# shellcheck shell=sh
# Sourced by the scripts of tests that run programs for x86-64, maybe under an emulator. That does `rep movsb` byte by byte, ten times as
# slowly as the other ways to copy that the C library has.
export GLIBC_TUNABLES=glibc.cpu.x86_rep_movsb_threshold=100000000:glibc.cpu.x86_rep_stosb_threshold=100000000
