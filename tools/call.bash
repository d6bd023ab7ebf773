# What the script nfp and the installed command share: the environment of the program, and the tools that are commands of nfp.
# It is sourced, and defines functions alone.

# The tools that `nfp WORD` finds, each a program in Python of this name.
readonly tool_commands=(explain report-to-csv report-to-html plan-to-dot plan-to-graph chains-apart send-flows)

is_tool() { # WORD
    local tool
    for tool in "${tool_commands[@]}"; do
        [[ $1 != "$tool" ]] || return 0
    done
    return 1
}

# Ends with status 71 where Python is missing. A tool that calls the program calls COMMAND.
call_tool() { # COMMAND FOLDER TOOL WORD..
    local command=$1 folder=$2 tool=$3
    shift 3
    if ! command -v python3 >/dev/null || ! python3 -c 'import sys; sys.exit(sys.version_info < (3, 10))'; then
        printf 'nfp: %s is written in Python and needs python3, version 3.10 or later, on PATH\n' "$tool" >&2
        exit 71
    fi
    export NFP_PROGRAM=$command
    exec python3 -B "$folder/$tool" "$@"
}

call_program() { # PROGRAM WORD..
    # On a terminal a long run shows its progress. NFP_PROGRESS=0 turns that off.
    if [[ -z ${NFP_PROGRESS+set} && -t 2 && ${TERM:-dumb} != dumb ]]; then
        export NFP_PROGRESS=1
    fi
    # The C library keeps freed pieces of each size for the next packet. With room for the pieces of a burst, a packet through a chain costs up
    # to a tenth less, for at most 2 to 3 MiB of memory. Up to 64 MiB that a burst freed stay with the program for the next burst. A list of more
    # than 1 MiB is mapped by itself, so that one that grows, as those of flows do, leaves no hole. All threads take memory from one arena: an
    # arena for each would take 64 MiB of addresses, which a limit on addresses counts. A setting of the user's own is kept.
    export GLIBC_TUNABLES=${GLIBC_TUNABLES-glibc.malloc.arena_max=1:glibc.malloc.tcache_count=2000:glibc.malloc.trim_threshold=67108864:glibc.malloc.mmap_threshold=1048576}
    # Each thread has a stack of this many KiB, and needs less than a fifth of it.
    ulimit -S -s 256 2>/dev/null || :
    # Past a limit on the size of files a write fails then, and the program says which file, in place of a signal that ends it.
    trap '' XFSZ
    exec "$@"
}
