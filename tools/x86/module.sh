# The proved module that rattle hands to the kit's compiler: kept, and compiled for other processors too. common.sh sources it.

# What programs and library are for: the processor of this machine, or with for_x86=yes x86-64, as all is that rt builds.
native=$(uname -m)-linux
[ "${for_x86-no}" = no ] || native=x86_64-linux

# The module of the library is $modules/limpetnook.bc. Beside it are the words that rattle's compiler had, one to a line, the archive that it
# made, what all was made from, and what rattle said.
modules=target/library/module

# The crate that has the calls of the library for C.
library_crate=limpetnook_c

# toolchain: the folder of the kit's compiler.
toolchain() {
    local kit
    kit=$(tools/x86/kit) && echo "$kit/toolchain/bin"
}

# made_from CRATE: sums of all that a module of the crate is made from: the kit, and the files of the crate and of those that it rests on.
made_from() {
    local kit crates
    kit=$(tools/x86/kit) || return
    cited_by "$1"
    cat "$kit/KIT-ID" || return
    find_files -print0 | LC_ALL=C sort -z | xargs -0 sha256sum
}

# make_toolchain FOLDER: the kit's toolchain once more, but for its compiler. That one keeps its module and its words, as FOLDER/kept.bc and
# FOLDER/kept.words, and then compiles as ever.
make_toolchain() {
    local own part
    own=$(toolchain) || return
    mkdir -p "$1/bin"
    ln -s "${own%/bin}/lib" "$1"
    for part in "$own"/*; do
        [ "${part##*/}" = clang ] || ln -s "$part" "$1/bin"
    done
    cat >"$1/bin/clang" <<END
#!/bin/sh
for word; do
    case \$word in
    *.bc) cp "\$word" '$1/kept.bc' && printf '%s\\n' "\$@" >'$1/kept.words' || exit ;;
    esac
done
exec '$own/clang' "\$@"
END
    chmod +x "$1/bin/clang"
}

# are_proved CRATE...: whether rt has proved and built these libraries in this run of the gate, which $proved_since tells of.
are_proved() {
    local crate rlib
    [ -n "${proved_since-}" ] || return
    for crate; do
        rlib=crates/$crate/out/rlib/$crate.rlib
        [ "$rlib" -nt "$proved_since" ] && [ -e "$rlib/toolchain/mir.json" ] || return
    done
}

# prove_below CRATE: has rt prove and build the libraries that the crate rests on, where the gate's rt ci has not just done so.
prove_below() {
    local crates below crate done=' '
    cited_by "$1"
    below=("${crates[@]}")
    unset 'below[-1]'
    ! are_proved "${below[@]}" || return 0
    while ((${#below[@]} > 0)); do
        crate=${below[-1]}
        unset 'below[-1]'
        [[ $done != *" $crate "* ]] || continue
        (cd "crates/$crate" && rt lib) || return # and those below it
        cited_by "$crate"
        done+="${crates[*]} "
    done
}

# over_libraries CRATE COMMAND WORD...: runs that command of rattle on the crate, in the crate's folder, over the libraries that
# prove_below has. But for WORD... the words are those that rt has for it.
over_libraries() {
    local kit root=lib name crates words=()
    kit=$(tools/x86/kit) || return
    [ ! -e "crates/$1/src/main.rt" ] || root=main
    words=("$2" --crate-name "$1" "src/$root.rt" --extern "std=$kit/rlibs/std.rlib" -L "dependency=$kit/rlibs")
    for name in $(cites "$1"); do
        if [ -d "crates/$name" ]; then
            words+=(--extern "$name=../$name/out/rlib/$name.rlib")
        else
            words+=(--extern "$name=$kit/rlibs/$name.rlib")
        fi
    done
    cited_by "$1"
    unset 'crates[-1]'
    for name in "${crates[@]}"; do
        words+=(-L "dependency=../$name/out/rlib")
    done
    words+=(--antt-project "$kit/rattle/logic/antt-project.json" --logic-built "$kit/logic_built" --jobs 1 --links "$1=" "${@:3}")
    echo "proving $1"
    (cd "crates/$1" && "$kit/bin/rattle" "${words[@]}")
}

# build_calls: for prove_library, in its folder $work.
build_calls() {
    over_libraries $library_crate build --crate-type staticlib --cpu x86-64 --toolchain "$work/toolchain" --backend llvm -o "$work/built" 2>&1 |
        tee "$work/said"
}

# prove_library: has rattle prove and build the library for C, for every x86-64 processor, and keeps its module, as limpetnook.bc, and its
# archive, as limpetnook.a. Where that fails there is no module, and an earlier one is gone.
prove_library() (
    set -o pipefail
    kept=$modules/limpetnook
    work=$(mktemp -d) || return
    trap 'rm -rf "$work"' EXIT
    rm -f "$kept".*
    made_from $library_crate >"$work/from" && make_toolchain "$work/toolchain" && prove_below $library_crate || return
    build_calls || {
        # In a checkout where rt has kept work of its own, rt ci gives that back when it ends, in the place of what was built over here.
        [ -n "${proved_since-}" ] && proved_since='' && prove_below $library_crate && build_calls || return
    }
    if [ ! -e "$work/toolchain/kept.bc" ]; then
        echo "rattle has had no module of $library_crate compiled"
        return 1
    fi
    mkdir -p $modules && cp "$work/said" "$kept.said" && cp "$work/toolchain/kept.words" "$kept.words" &&
        install -m 644 "$work/toolchain/kept.bc" "$kept.bc" && install -m 644 "$work/built" "$kept.a" && cp "$work/from" "$kept.from"
)

# The processors that there is a library for.
targets=(x86_64-linux aarch64-linux armv7-linux riscv64-linux cortex-m33 cortex-m4)

# target_words TARGET: what tells the compiler of a processor. -meabi gnu: memcpy and memset have these names there too.
target_words() {
    case $1 in
    x86_64-linux) echo --target=x86_64-unknown-linux-gnu -march=x86-64 -fPIC -O3 ;;
    aarch64-linux) echo --target=aarch64-unknown-linux-gnu -march=armv8-a -fPIC -O2 ;;
    armv7-linux) echo --target=armv7a-unknown-linux-gnueabihf -march=armv7-a -mfpu=vfpv3-d16 -fPIC -O2 ;;
    riscv64-linux) echo --target=riscv64-unknown-linux-gnu -march=rv64gc -mabi=lp64d -fPIC -O2 ;;
    cortex-m33) echo --target=thumbv8m.main-none-eabi -mcpu=cortex-m33 -mfloat-abi=soft -meabi gnu -Os ;;
    cortex-m4) echo --target=thumbv7em-none-eabi -mcpu=cortex-m4 -mfloat-abi=soft -meabi gnu -Os ;;
    *) return 1 ;;
    esac
}

# target_edits TARGET EMPTY: how sed makes the module one for that processor; EMPTY is what the compiler makes there of no code at all. It
# has the processor's data layout and name; x86-64's go. A caller in C takes it that a small number that is returned fills a register: on Arm
# and RISC-V the function sees to that, on x86-64 the caller. For -Os the compiler marks each function of C that it reads. No call has a
# floating-point number, so where there is no operating system the library fits programs that pass those in either way.
target_edits() {
    [ "$1" != x86_64-linux ] || return 0 # as rattle has it
    grep '^target ' "$2" | sed 's/^\(target [a-z]*\).*/s|^\1 = .*|&|/'
    echo 's/ "target-cpu"="x86-64"//'
    echo '/^define internal /!s/^\(define [a-z ]*\)\(i8\|i16\) @/\1zeroext \2 @/'
    case $1 in
    riscv64-*) echo '/^define internal /!s/^\(define [a-z ]*\)i32 @/\1signext i32 @/' ;;
    cortex-*)
        echo 's/^\(attributes .*\) \("probe-stack"\)/\1 optsize \2/'
        echo '/^target triple/a module asm ".eabi_attribute Tag_ABI_VFP_args, 3"'
        ;;
    esac
}

# fits TARGET MODULE: whether target_edits has done all that to a module. Where the kit writes its modules otherwise it would have not. And a module that
# reads a pointer and what stands before it as one is not taken where pointers have 32 bits: the compiler would look for it in another place.
fits() {
    local lacks=
    [ "$1" != x86_64-linux ] || return 0
    ! grep -q x86 "$2" || lacks="has something of x86-64"
    ! grep -E '^define .*\b(i1|i8|i16) @' "$2" | grep -v '^define internal ' | grep -qv ' zeroext ' || lacks="returns a number that fills no register"
    case $1 in
    armv7-* | cortex-*) ! grep -E '(load|store) [^,]*[[{<][^]}>]*ptr' "$2" | grep -qvE '(load|store) \{ ptr, i64 \}' || lacks="keeps a pointer where x86-64 has it" ;;
    esac
    case $1 in
    riscv64-*) ! grep '^define .*\bi32 @' "$2" | grep -v '^define internal ' | grep -qv ' signext ' || lacks="returns a number that fills no register" ;;
    cortex-*) grep -q '^attributes .* optsize ' "$2" || lacks="is not marked for -Os" ;;
    esac
    if [ -n "$lacks" ]; then
        echo "$2 is not one for $1: it $lacks"
        return 1
    fi
}

# shown COMMAND...: prints a command, and runs it.
shown() {
    printf '%q ' "$@"
    echo
    "$@"
}

# compile_module TARGET FOLDER [WORD...]: has FOLDER/limpetnook.o be the kept module compiled for that processor: as rattle had it compiled,
# but for what target_words says, and with the words more. Lines for sed in $edits change the module too. The commands are printed.
compile_module() {
    local target=$1 folder=$2 clang word words given=() as_text=(--no-default-config -Werror -S -emit-llvm)
    shift 2
    clang=$(toolchain)/clang || return
    while IFS= read -r word; do
        case $word in
        --target=* | -march=* | -O? | -fPIC | --sysroot=* | -o | *.bc | *.o) ;;
        *) given+=("$word") ;;
        esac
    done <$modules/limpetnook.words
    read -ra words < <(target_words "$target")
    shown "$clang" --target=x86_64-unknown-linux-gnu "${as_text[@]}" -Xclang -disable-llvm-passes -x ir $modules/limpetnook.bc \
        -o "$folder/x86.ll" &&
        shown "$clang" "${words[@]}" "${as_text[@]}" -x c /dev/null -o "$folder/empty.ll" &&
        { target_edits "$target" "$folder/empty.ll" && echo "${edits-}"; } >"$folder/edits" &&
        shown cp "$folder/x86.ll" "$folder/module.ll" && shown sed -i -f "$folder/edits" "$folder/module.ll" && fits "$target" "$folder/module.ll" &&
        shown "$clang" "${words[@]}" "${given[@]}" "$folder/module.ll" -o "$folder/limpetnook.o" "$@"
}

# has_calls MODULE: whether the module has each call of the header, but for those that are left out, and nothing else to be linked.
has_calls() {
    diff <(sed -n "${without:+/text/d;} "'s/^[a-z0-9_]* \(limpet_[a-z0-9_]*\)(.*/\1/p' include/limpetnook.h | sort) \
        <(sed -n '/^define internal/d; s/^define [^@]*@"\{0,1\}\([^"(]*\).*/\1/p' "$1" | sort)
}

# library_commands TARGET FOLDER: for write_library. rattle's own archive is taken as it is, and has to be what the kept module gives.
library_commands() {
    local edits= ar
    ar=$(toolchain)/llvm-ar || return
    if [ -n "$without" ]; then # what only the calls of a text need goes with them
        edits='s/^define \(.*@limpet_\(to_text\|from_text\|text_to_new\|text_to_old\)(\)/define internal \1/'
    fi
    compile_module "$1" "$2" -fstack-usage && has_calls "$2/module.ll" || return
    if [ "$1$without" = x86_64-linux ]; then
        "$ar" p $modules/limpetnook.a | cmp "$2/limpetnook.o" - && shown cp $modules/limpetnook.a "$2/liblimpetnook.a"
    else
        shown "$ar" rcsD "$2/liblimpetnook.a" "$2/limpetnook.o"
    fi
}

# write_library TARGET: has target/library/TARGET$without/liblimpetnook.a be the proved library for that processor, where it is not yet.
# With without=-without-texts it has not the calls of a text. All that is said, with the commands, is in the file log beside it.
write_library() {
    local without=${without-} folder=target/library/$1${without-}
    { # not two at once
        flock 9
        [ -z "$(find "$folder/liblimpetnook.a" -newer $modules/limpetnook.from -newer tools/x86/module.sh 2>/dev/null)" ] || return 0
        echo "compiling the library for $1${without:+, without texts}" >&2
        rm -rf "$folder"
        mkdir -p "$folder"
        if ! library_commands "$1" "$folder" >"$folder/log" 2>&1; then
            rm -f "$folder/liblimpetnook.a"
            tail -n 20 "$folder/log" >&2
            echo "there is no library for $1; $folder/log has all that was said" >&2
            return 1
        fi
    } 9>>target/library/lock
}

# library_is_proved: whether nothing has changed since the module of the library was kept.
library_is_proved() {
    [ -e $modules/limpetnook.bc ] && made_from $library_crate | cmp -s $modules/limpetnook.from -
}

# prove_program CRATE: has rt prove, build and run the program, which has to print what its file stdout has. Else there is none.
prove_program() {
    local printed status=0
    printed=$(mktemp) || return
    if ! (cd "crates/$1" && rt run <stdin) >"$printed"; then
        cat "$printed"
        status=1
    elif ! cmp "$printed" "crates/$1/stdout"; then
        echo "error: the program does not print what crates/$1/stdout has"
        status=1
    fi
    rm -f "$printed"
    ((status == 0)) || rm -f "crates/$1/out/$1"
    return $status
}
