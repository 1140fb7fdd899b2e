# What ./limpet and the scripts of bench/, reader/ and tests/ share. They source it from the root of the repository.

built=target/c
reader=target/reader/limpet-reader
card_program=target/reader/limpet-card
plain_card=bench/plain_card.c # takes the library's place where a program is built with library=$plain_card
strict=(-Wall -Wextra -pedantic -Werror -Iinclude)
# For programs that hold keys and PINs: an overrun buffer ends them, and nothing that they call through can be written.
hardened=(-O2 -fstack-protector-strong -U_FORTIFY_SOURCE -D_FORTIFY_SOURCE=2 "-Wl,-z,relro,-z,now")

source tools/x86/module.sh

# The programs in C and the library that they are linked with are for $native. Here are the compilers, and the Debian packages with them and
# with what watches a program at work. x86 PROGRAM ARGUMENT... runs such a program, and one that rt has built. Where that is x86-64 and
# the machine is not, it is emulated, and nothing can watch what it does to memory; its instructions can be counted.
library=target/library/$native/liblimpetnook.a
emulated=no
cc=gcc cxx=g++
for_c=(gcc libc6-dev) for_cxx=(g++) to_watch=(valgrind)
if [ "$(uname -m)" = x86_64 ]; then
    x86() { "$@"; }
else
    x86() { tools/x86/run "$@"; }
    if [ $native = x86_64-linux ]; then
        emulated=yes
        cc=x86_64-linux-gnu-gcc cxx=x86_64-linux-gnu-g++
        for_c=(gcc-x86-64-linux-gnu libc6-dev-amd64-cross) for_cxx=(g++-x86-64-linux-gnu) to_watch=()
        built=target/for-x86 reader=target/for-x86/limpet-reader card_program=target/for-x86/limpet-card
    fi
fi

# How a program is built that watches itself. Where x86-64 is emulated there is no address sanitizer for it.
sanitizers=(-O1 -g -fsanitize=undefined -fno-sanitize-recover=all)
[ $emulated = yes ] || sanitizers+=(-fsanitize=address)

# The Debian packages for the other processors: compilers and emulators for Linux, and those for a board without an operating system.
for_others=(gcc-arm-linux-gnueabihf libc6-dev-armhf-cross gcc-riscv64-linux-gnu libc6-dev-riscv64-cross qemu-user)
if [ "$(uname -m)" = x86_64 ]; then
    for_others+=(gcc-aarch64-linux-gnu libc6-dev-arm64-cross)
else
    for_others+=(gcc-x86-64-linux-gnu libc6-dev-amd64-cross)
fi
for_board=(gcc-arm-none-eabi libnewlib-arm-none-eabi qemu-system-arm)

# has PACKAGE: whether what is used here of that Debian package is there.
has() {
    case $1 in
    chromium | clang | debootstrap | gcc | g++ | openssl | pcscd | python3 | valgrind) command -v "$1" ;;
    binutils-aarch64-linux-gnu | binutils-arm-none-eabi) command -v "${1#binutils-}-objdump" ;;
    gcc-x86-64-linux-gnu | g++-x86-64-linux-gnu) command -v "x86_64-linux-gnu-${1%%-*}" ;;
    gcc-aarch64-linux-gnu | gcc-arm-linux-gnueabihf | gcc-riscv64-linux-gnu | gcc-arm-none-eabi) command -v "${1#gcc-}-gcc" ;;
    libc6-dev) gcc -E -include stdio.h -x c /dev/null ;;
    libclang-rt-dev) test -e "$(clang -print-runtime-dir)/libclang_rt.fuzzer-$(uname -m).a" ;;
    libc6-dev-amd64-cross) x86_64-linux-gnu-gcc -E -include stdio.h -x c /dev/null ;;
    libc6-dev-arm64-cross) aarch64-linux-gnu-gcc -E -include stdio.h -x c /dev/null ;;
    libc6-dev-armhf-cross) arm-linux-gnueabihf-gcc -E -include stdio.h -x c /dev/null ;;
    libc6-dev-riscv64-cross) riscv64-linux-gnu-gcc -E -include stdio.h -x c /dev/null ;;
    libnewlib-arm-none-eabi) arm-none-eabi-gcc --specs=rdimon.specs -E -include stdio.h -x c /dev/null ;;
    libbearssl-dev) gcc -E -include bearssl.h -x c /dev/null ;;
    libssl-dev) gcc -E -include openssl/evp.h -x c /dev/null ;;
    opensc) command -v opensc-tool ;;
    pcsc-tools) command -v scriptor && command -v ATR_analysis ;;
    qemu-system-arm) command -v qemu-system-arm ;;
    qemu-user) command -v qemu-arm ;;
    qemu-user-static) command -v qemu-aarch64-static ;;
    vsmartcard-vpcd) test -e /usr/lib/pcsc/drivers/serial/libifdvpcd.so ;;
    *) return 1 ;;
    esac >/dev/null 2>&1
}

# need PACKAGE...: installs those that are missing, and otherwise asks nothing of the machine.
need() {
    local package missing=()
    for package; do
        has "$package" || [[ " ${missing[*]} " == *" $package "* ]] || missing+=("$package")
    done
    if ((${#missing[@]} > 0)); then
        echo "installing ${missing[*]}" >&2
        export DEBIAN_FRONTEND=noninteractive
        apt-get update -qq >&2 || true
        if ! apt-get install -y -qq --no-install-recommends "${missing[@]}" >&2; then
            echo "these Debian packages are needed, and could not be installed: ${missing[*]}" >&2
            return 1
        fi
    fi
}

# alone COMMAND...: becomes that command, in a network of its own, which has loopback alone, and with a /run/pcscd of its own: pcscd, its
# socket and vpcd's port are one to a machine. Only root may, and not everywhere. is_alone says whether it has become so.
alone() {
    # What brings loopback up: SIOCSIFFLAGS with IFF_UP.
    local up='import fcntl, socket, struct; fcntl.ioctl(socket.socket(), 0x8914, struct.pack("16sh22x", b"lo", 1))'
    exec unshare --mount --net bash -euc '
        python3 -c "$0"
        mkdir -p /run/pcscd
        mount -t tmpfs tmpfs /run/pcscd
        ALONE_IN=$(readlink /proc/self/ns/net) exec "$@"' "$up" "$@"
}
is_alone() { [ "${ALONE_IN-}" = "$(readlink /proc/self/ns/net)" ]; }

# cites CRATE: what the crate's line of crates.txt names.
cites() {
    local name cited
    while IFS=: read -r name cited; do
        [ "${name%% *}" != "$1" ] || echo "$cited" # a library for C has the word staticlib behind its name
    done <crates.txt
}

# cited_by CRATE: has `crates` be those of this repository that the crate rests on, each behind those that it rests on itself, and then the
# crate. In that order rt proves them.
cited_by() {
    crates=()
    add_cited "$1"
}
add_cited() {
    local crate
    for crate in $(cites "$1"); do
        # the others are the kit's
        [ ! -d "crates/$crate" ] || [[ " ${crates[*]} " == *" $crate "* ]] || add_cited "$crate"
    done
    crates+=("$1")
}

# find_files TEST...: what `find` finds among crates.txt and the files of `crates`, but for must-fail edits and what rt makes.
find_files() {
    find crates.txt "${crates[@]/#/crates/}" -regex 'crates/[^/]*/\(out\|must-fail\)' -prune -o -type f "$@"
}

# is_old FILE CRATE: whether FILE, which rt builds of the crate, is missing or older than what it is proved and built from.
is_old() {
    local crates
    cited_by "$2"
    [ ! -e "$1" ] || [ -n "$(find_files -newer "$1" -print -quit)" ]
}

# may_build WHO: whether the user can write where rt and the scripts do; where not, WHO says that something is to be built there.
may_build() {
    local folder
    for folder in target target/reader crates/*; do
        if ! mkdir -p "$folder" 2>/dev/null || [ ! -w "$folder" ]; then
            [[ $folder == crates/* ]] || folder=target
            echo "$1: it is not built, and $(id -un) cannot write $PWD/$folder to build it; somebody who can is to run it once" >&2
            return 1
        fi
    done
}

# logged WHO CRATE LOG COMMAND...: runs a command that has rt prove CRATE, and no second one beside it, which would build the same again.
# What it prints goes to LOG. WHO tells of each crate as it is begun and proved and, where the command fails, the errors in LOG.
# The exit status is the command's.
logged() {
    local who=$1 log=$3 crates status=0
    cited_by "$2"
    shift 3
    mkdir -p "${log%/*}" || return
    {
        flock -n 9 || { echo "$who: waiting for another build to end" >&2 && flock 9; }
        touch target/build.lock
        (watched "$@") || status=$?
    } 9>>target/build.lock
    if ((status != 0)); then
        { grep -aEm 8 '(^|: )(fatal )?error\b|^E: ' "$log" || tail -n 10 "$log"; } | cut -c 1-500 >&2
    fi
    return "$status"
}

# watched COMMAND...: for logged, in a shell of its own. The command is a process group of its own, and has not the lock, which it might
# leave to what it starts. Where this shell is ended, or the one that waits for it, it ends that group, and has the lock until then.
watched() {
    local build ended parent
    local -A last=()
    set -m # that is what makes a process group
    "$@" >"$log" 2>&1 </dev/null 9>&- &
    build=$!
    set +m
    trap 'kill -- "-$build"; wait "$build"' EXIT
    exec {ended}< <(exec tail --pid="$build" -s 0.2 -f /dev/null 9>&-)
    while read -r -t 1 -u "$ended" || (($? > 128)); do # a second has passed
        read -r _ _ _ parent _ </proc/self/stat
        ((parent == $$)) || exit 1
        tell_crates
    done
    trap - EXIT
    tell_crates
    wait "$build"
} >&2

# tell_crates: for watched, tells of crates that were begun or proved since it was asked last. rt passes over those that are proved already,
# and says nothing of them: they count as done when one behind them is begun.
tell_crates() {
    local said crate=none now place
    while read -r said; do
        now=proving
        [ "$said" = proved ] && now=proved || crate=$said
        for ((place = 0; place < ${#crates[@]}; place++)); do
            [ "${crates[place]}" != "$crate" ] || break
        done
        ((place < ${#crates[@]})) && [[ ! ${last[$crate]-} =~ ^($now|proved)$ ]] || continue
        last[$crate]=$now
        if [ $now = proved ]; then
            echo "$who: $crate proved, $((place + 1)) of ${#crates[@]} done"
        else
            echo "$who: proving $crate, $place of ${#crates[@]} done"
        fi
    done < <(sed -n 's/^rt: chose --jobs [0-9]* for \([a-z0-9_]*\)$/\1/p; s/^proving \([a-z0-9_]*\)$/\1/p; s/^logic=proved .*/proved/p' "$log")
}

# What the fronts say of a first build: seen on two cores of x86-64 and of Arm.
how_long="likely to take 5 to 10 minutes on two cores, once"

# built_before WHO LOG COMMAND...: for a front whose program is old: the command builds it, and what it needs of the library. Where that
# fails it is the end of the front.
built_before() {
    local who=$1 log=$PWD/$2
    shift 2
    may_build "$who" || exit 1
    if library_is_old; then
        echo "$who: proving and building the library; $how_long ($log)" >&2
    fi
    if ! logged "$who" $library_crate "$log" "$@"; then
        echo "$who: not built; $log has all that was said" >&2
        exit 1
    fi
}

library_is_old() { is_old $library $library_crate; }

# build_library: the prover makes it, which takes a while, so only where that is needed.
build_library() {
    library_is_old || return 0
    library_is_proved || prove_library || return
    write_library $native && touch $library
}

# sections FILE: the bytes of its code and of its constants, without tables for unwinding the stack. The file may be for any processor.
sections() {
    LC_ALL=C readelf -SW "$1" | sed -n 's/^ *\[ *[0-9]*\] \(\.[^ ]*\) .* [0-9a-f]\{6,\} \([0-9a-f]\{6,\}\) [0-9a-f][0-9a-f] .*/\1 \2/p' | {
        code=0 constants=0
        while read -r name size; do
            case $name in
            .text*) code=$((code + 16#$size)) ;;
            .rodata* | .srodata* | .data* | .sdata*) constants=$((constants + 16#$size)) ;;
            esac
        done
        echo $code $constants
    }
}

# promised CALL: the name under which the header says how much stack a call takes, and the number; on x86-64, or with `other` elsewhere.
promised() {
    local name=LIMPET_CARD_STACK
    case $1 in
    *aes128) name=LIMPET_AES128_STACK ;;
    *code) name=LIMPET_CODE_STACK ;;
    *text*) name=LIMPET_TEXT_STACK ;;
    esac
    echo $name "$(sed -n "s/^#define $name \([0-9]*\).*/\1/p" include/limpetnook.h | if [ "${2-}" = other ]; then tail -n 1; else head -n 1; fi)"
}

# needed_by FILE: the functions that it needs of others.
needed_by() {
    LC_ALL=C readelf -sW "$1" | awk '$7 == "UND" && $8 != "" { print $8 }' | sort -u
}

# take FUNCTION OBJECT: has OBJECT be what a program takes of $library that calls that function alone and is linked with --gc-sections.
take() {
    x86_64-linux-gnu-ld -r --gc-sections -u "$1" -e "$1" $library -o "$2" && x86_64-linux-gnu-strip --strip-unneeded "$2"
}

# called SCRIPT MOST WORD...: so begins a script of .ci, tests or bench that takes MOST words. -h or --help prints the comment at its
# head, and nothing is started. An option, or a word too many, is refused; a script that has options takes them before.
called() {
    local script=$1 most=$2
    shift 2
    case ${1-} in
    -h | --help)
        head_of "$script"
        exit 0
        ;;
    -?*) refuse "$script" "there is no option $1" ;;
    esac
    if (($# > most)); then
        refuse "$script" "there is no use for ${*:most + 1}"
    fi
}

# numbers SCRIPT WORD...: refuses the words of a script that are no numbers.
numbers() {
    local script=$1 word
    shift
    for word; do
        [[ $word =~ ^[0-9]{1,18}$ ]] || refuse "$script" "${word:-an empty word} is not a number of up to 18 digits"
    done
}

# head_of SCRIPT: the comment at its head, without the hashes.
head_of() {
    sed -n '2,/^[^#]/s/^# \{0,1\}//p' "${BASH_SOURCE[0]%/*}/../../$1"
}

# refuse SCRIPT REASON: ends a script that cannot be called so, and says how it can.
refuse() {
    printf '%s: %s\n%s\n%s --help explains it\n' "$1" "$2" "$(head_of "$1" | sed '/^$/,$d')" "$1" >&2
    exit 2
}

# usage_of SOURCE: the `usage` of a program in C, for which nothing has to be built.
usage_of() {
    sed -n '/^static const char usage\[\] =$/,/;$/s/^    "\(.*\)\\n";\{0,1\}$/\1/p' "$1" | cat # which fails where nothing can be written
}

# reader_is_old: whether there is no program of reader/, or one older than its code.
reader_is_old() {
    [ ! -e $reader ] || [ -n "$(find reader include $library -type f -newer $reader -print -quit)" ]
}

# build_reader [PROGRAM FLAG...]: the program of reader/, over $library, where it is old. With a name it is built under that one,
# with these flags and files more.
build_reader() {
    local program=${1:-$reader}
    if (($# > 0)) || reader_is_old; then
        need "${for_c[@]}" || return
        mkdir -p "$(dirname "$program")"
        $cc -std=c11 "${hardened[@]}" "${strict[@]}" "${@:2}" reader/*.c $library -o "$program"
    fi
}

# card_is_old: whether there is no program of tools/card, or one older than its code.
card_is_old() {
    [ ! -e $card_program ] || [ -n "$(find tools/cards reader include $library -type f -newer $card_program -print -quit)" ]
}

# build_card [PROGRAM FLAG...]: the program of tools/card, as build_reader does.
build_card() {
    local program=${1:-$card_program}
    if (($# > 0)) || card_is_old; then
        need "${for_c[@]}" || return
        mkdir -p "$(dirname "$program")"
        $cc -std=c11 "${hardened[@]}" "${strict[@]}" -Ireader "${@:2}" tools/cards/*.c reader/{card,lines,process,say,script,store}.c \
            $library -o "$program"
    fi
}

# stacks PROGRAM: of each kind of call the most bytes of stack that it took over all scripts of tests/scripts and a random one of 20,000
# lines, by a build of tests/c/stack.c. To be built with `to_count`: a function of C that is looked up in a call takes more than the call.
stacks() {
    { cat tests/scripts/*.script && python3 tests/model/generate.py 1 20000; } | x86 "$built/$1"
}

# build_program NAME FLAG...: builds $built/NAME, one of the programs in C of tests/c and bench, over $library. What follows a hyphen in
# the name tells builds of one program apart; NAME-faulty has tests/c/faults.c in between, NAME-leaky has tests/c/leaks.c, and NAME-plain
# has tests/c/plain_stores.c in the place of the two calls of R-10.
build_program() {
    local name=$1 sources watched=(tests/c/{watched,coded,aes_bytes,layout,lent}.c)
    shift
    case ${name%%-*} in
    inplace) sources=(tests/c/inplace.c "${watched[@]}" reader/lines.c) ;;
    refusals) sources=(tests/c/{refusals,spoiled,areas,groups,cards}.c "${watched[@]}") ;;
    texts) sources=(tests/c/texts.c "${watched[@]}") ;;
    codes) sources=(tests/c/{codes,by_openssl}.c) ;;
    middle) sources=(tests/c/{middle,by_openssl,groups,cards}.c "${watched[@]}") ;;
    cuts) sources=(tests/c/{cuts,stores,play,groups,cards}.c "${watched[@]}" reader/lines.c) ;;
    recovers) sources=(tests/c/{recovers,stores,groups,cards}.c "${watched[@]}") ;;
    outsider) sources=(tests/c/{outsider,asked,play,groups,cards}.c "${watched[@]}" reader/lines.c) ;;
    stack) sources=(tests/c/{stack,taken,play}.c reader/lines.c) ;;
    verifies) sources=(tests/c/{verifies,coded,aes_bytes}.c) ;;
    blocks | compare) sources=("tests/c/${name%%-*}.c") ;;
    calls) sources=(bench/{calls,measure}.c tests/c/play.c reader/lines.c) ;;
    notes) sources=(bench/{notes,given,measure}.c tests/c/{coded,aes_bytes}.c) ;;
    kinds) sources=(bench/{kinds,given}.c) ;;
    plain_script) sources=(bench/plain_script.c) ;;
    timed_texts) sources=(bench/{texts,plain_text,measure}.c tests/c/cards.c "${watched[@]}") ;;
    fuzz_texts) sources=(tests/c/{fuzz_texts,cards}.c "${watched[@]}" bench/{plain_text,measure}.c) ;;
    *) echo "there is no program $name" >&2 && return 1 ;;
    esac
    if [[ $name == *-faulty ]]; then
        sources+=(tests/c/faults.c)
        [[ " ${sources[*]} " == *" tests/c/coded.c "* ]] || sources+=(tests/c/{coded,aes_bytes,layout}.c)
        set -- "$@" -Wl,--wrap=limpet_issue,--wrap=limpet_command,--wrap=limpet_reset,--wrap=limpet_to_text,--wrap=limpet_from_text \
            -Wl,--wrap=limpet_text_to_new,--wrap=limpet_text_to_old,--wrap=limpet_code
    elif [[ $name == *-leaky ]]; then
        sources+=(tests/c/leaks.c)
        set -- "$@" -Wl,--wrap=limpet_command,--wrap=limpet_reset
    elif [[ $name == *-plain ]]; then
        sources+=(tests/c/plain_stores.c)
        set -- "$@" -Wl,--wrap=limpet_store,--wrap=limpet_stores,--wrap=limpet_recover
    fi
    set -- -std=c11 "$@" "${strict[@]}" -Ireader -Itests/c -DAES_BYTES=aes_bytes
    mkdir -p $built
    rm -f "$built/$name" # so that what is run is what was built now
    if [ -n "${work-}" ]; then
        compile_once "$@" || return
    fi
    $cc "$@" "${sources[@]}" "$library" -o "$built/$name"
}

# compile_once FLAG...: for build_program, compiles its sources, and has them be the objects. Programs of one script share many, and what
# it has compiled with the same flags is taken again.
compile_once() {
    local flag source flags=() objects=()
    for flag; do
        [[ $flag == -Wl,* ]] || flags+=("$flag")
    done
    local folder=$work/objects/$(cksum <<<"$cc ${flags[*]}" | tr ' ' -)
    mkdir -p "$folder"
    for source in "${sources[@]}"; do
        objects+=("$folder/${source//\//-}.o")
        [ -e "${objects[-1]}" ] || $cc "${flags[@]}" -c "$source" -o "${objects[-1]}" || return
    done
    sources=("${objects[@]}")
}

# How a program is built whose instructions are counted: at addresses of its own, and with no function of C looked up in a call.
to_count=(-no-pie "-Wl,-z,now")

# count_instructions FUNCTION PROGRAM ARGUMENT...: a line for each call of the function that the program makes: what it prints of the
# call, and how many instructions the call takes. They are counted by callgrind, or by the emulator where there is one. With
# within=CRATE::FUNCTION only those in that function and in what it calls; the emulator takes all functions of the crate.
count_instructions() {
    local function=$1 counts status=0
    shift
    counts=$(mktemp -d)
    if [ $emulated = no ]; then
        count_by_callgrind "$@" || status=$?
    else
        count_by_emulator "$@" || status=$?
    fi
    if ((status == 0)) && [ "$(wc -l <"$counts/calls")" = "$(wc -l <"$counts/totals")" ]; then
        paste -d ' ' "$counts/calls" "$counts/totals"
    else
        status=1
    fi
    rm -rf "$counts"
    return $status
}

# Callgrind writes a part with its own total after each call, and one at the end.
count_by_callgrind() {
    valgrind -q --tool=callgrind --callgrind-out-file="$counts/out" --combine-dumps=yes \
        --toggle-collect="${within:-$function}" --dump-after="$function" "$@" >"$counts/calls" || return
    sed -n 's/^totals: //p' "$counts/out" | sed '$d' >"$counts/totals"
}

# The emulator writes a line for each instruction that is run. QEMU_SINGLESTEP is what an older one calls it.
count_by_emulator() {
    local counting status=0
    mkfifo "$counts/run"
    python3 tests/machine/count.py ${within:+--within "${within%::*}::"} "$function" "$1" <"$counts/run" >"$counts/totals" &
    counting=$!
    QEMU_LOG=exec,nochain QEMU_ONE_INSN_PER_TB=1 QEMU_SINGLESTEP=1 QEMU_LOG_FILENAME=$counts/run x86 "$@" >"$counts/calls" || status=$?
    if ((status != 0)); then
        kill "$counting" 2>/dev/null || true # where no emulator was started it would wait for one
    fi
    wait "$counting" && return $status
}

passed=0
failed=0

# try NAME COMMAND...: a test that passes where the command succeeds.
try() {
    local name=$1
    shift
    if "$@"; then
        passed=$((passed + 1))
        echo "passed: $name"
    else
        failed=$((failed + 1))
        echo "FAILED: $name"
    fi
}

# quietly COMMAND...: shows what the command prints only where it fails. A script has a folder $work for this and for what follows.
quietly() {
    "$@" >"$work/log" 2>&1 || { cat "$work/log" && return 1; }
}

# agrees SCRIPT COMMAND...: the command prints on that script what the script program prints, and finds nothing wrong by itself.
agrees() {
    local script=$1
    shift
    x86 crates/script/out/script <"$script" >"$work/by-value" &&
        "$@" <"$script" >"$work/in-place" &&
        cmp "$work/by-value" "$work/in-place"
}

# beside PROGRAM COMMAND...: the command asks that program on file descriptor 3, and has its answers as standard input.
beside() {
    local program=$1
    shift
    [ -p "$work/asked" ] || mkfifo "$work/asked"
    "$program" <"$work/asked" | "$@" 3>"$work/asked"
}

# counted NAME COMMAND...: the cases of a program whose last line counts them are tests of the script. Where it breaks off before it has
# counted them, that is one that failed.
counted() {
    local output status=0 name=$1
    shift
    output=$("$@") || status=$?
    if [[ ${output##*$'\n'} =~ ^([0-9]+)" passed, "([0-9]+)" failed"$ ]] && ((status == (BASH_REMATCH[2] > 0))); then
        passed=$((passed + BASH_REMATCH[1]))
        failed=$((failed + BASH_REMATCH[2]))
        printf '%s\n' "${output%$'\n'*}"
    else
        failed=$((failed + 1))
        printf '%s\nFAILED: %s broke off with exit status %d\n' "$output" "$name" "$status"
    fi
}

# enough NAME PATTERN COUNT: the line of the counts that begins so tells of at least COUNT texts. Of many texts at least five in a hundred
# are what the pattern names, so that a library that refuses nearly all would not do.
enough() {
    local texts met
    read -r texts met < <(sed -nE "s/^$1: ([0-9]+)( texts)?,(.*) ([0-9]+) $2[,;].*/\\1 \\4/p" "$work/counts") || return
    ((texts >= $3 && (texts < 1000 || met * 20 >= texts)))
}

# texts_agree SEED COUNT CONVERTED COMMAND...: the command, tests/c/texts.c as it is built, finds that the library agrees with the model on
# the cases of that seed, which are as many as asked for.
texts_agree() {
    python3 tests/model/text_cases.py "${@:1:3}" | "${@:4}" | tee "$work/counts" || return
    enough "all texts" accepted "$2" && enough "to new" converted "$3" && enough "to old" converted "$3" &&
        enough "to old" "with a directory" "$3"
}

# left_out NAME: says so of a test that needs what watches a program at work.
left_out() {
    echo "left out, since nothing on $(uname -m) watches x86-64 code: $1"
}

# For benchmarks, before their figures.
tell_emulated() {
    if [ $emulated = yes ]; then
        echo "on $(uname -m) the programs for x86-64 are emulated: these figures are the emulator's, and say nothing of a processor"
    fi
}

# To be set as the EXIT trap: the last line counts, however the script ends. An end before `finished=yes` is a failure too.
finished=no
print_count() {
    if [ "$finished" != yes ]; then
        failed=$((failed + 1))
    fi
    echo "$passed passed, $failed failed"
    exit $((failed > 0))
}
