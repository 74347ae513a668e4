# Sourced by `run`, `.ci/run`, `.ci/quick`, `tests/run`, `tests/edits` and `bench/native-staticlib`, in the repository's
# folder: where the Rattle kit is, and how what is proved is built and had. The script that sources it has a function `die STATUS WORDS..`.

command -v rt >/dev/null || die 2 "rt, the Rattle kit's command, is not in the PATH"
guide=$(rt doc) || die 2 "rt doesn't say where the kit is"
home=${guide%/*}
tools=$home/toolchain
[ -x "$home/bin/rattle" ] && [ -d "$tools" ] || die 2 "the kit at $home has no compiler for this machine"

# note_proved BEGUN: notes what `rt ci` has just proved; BEGUN is a file that was written before it began. `rt ci` leaves each program in the out/ of its
# crate, and each library, but says nowhere what they were made from. So their sums are noted, and those of the kit's name and of every crate's files: as
# long as all are the same, what it left is as good as proved just now. Libraries that were there before it are put back by it, and are not noted.
note_proved() {
    mkdir -p target
    rm -f target/proved
    libraries=''
    for root in crates/*/src/lib.rt; do
        name=${root%/src/lib.rt}
        name=${name##*/}
        ! grep -q "^$name  *staticlib" crates.txt || continue
        if [ -n "$(find "crates/$name/out/rlib/$name.rlib" -maxdepth 0 -newer "$1" 2>/dev/null)" ]; then
            libraries="$libraries crates/$name/out/rlib/$name.rlib/format"
        else
            libraries=''
            break
        fi
    done
    {
        printf '%s\n' "$home/KIT-ID" crates.txt
        [ ! -e HANDLES ] || echo HANDLES
        find crates/*/src crates/*/specs crates/*/proofs -type f 2>/dev/null
        for root in crates/*/src/main.rt; do
            name=${root%/src/main.rt}
            name=${name##*/}
            [ ! -x "crates/$name/out/$name" ] || echo "crates/$name/out/$name"
        done
        # shellcheck disable=SC2086 # one word a file
        [ -z "$libraries" ] || printf '%s\n' $libraries
    } | tr '\n' '\0' | xargs -0 sha256sum >target/proved.new
    mv target/proved.new target/proved
}

is_proved() {
    [ -f target/proved ] && sha256sum --check --status target/proved 2>/dev/null
}

# Whether the libraries are those that the gate left. `rt` itself doesn't take them: it builds its own, over its own kept work.
are_left_by_gate() {
    is_proved && grep -q '/out/rlib/' target/proved
}

# words NAME: what `rattle` is told of a crate, a word a line: its root file, the libraries that it uses, and where theirs are.
words() {
    awk -v crate="$1" -v home="$home" -v crates="$PWD/crates" '
        { sub(/#.*/, ""); if (!sub(/:/, " ")) next; n = split($0, word, " "); from = 2; kind[word[1]] = ""
          if (word[2] == "staticlib") { kind[word[1]] = word[2]; from = 3 }
          for (k = from; k <= n; k++) uses[word[1], ++count[word[1]]] = word[k] }
        function say(text) { print text }
        function extern(name, dir) { say("--extern"); say(name "=" dir) }
        function look_in(dir) { say("-L"); say("dependency=" dir) }
        function below(name,    k, used) {
            for (k = 1; k <= count[name]; k++) {
                used = uses[name, k]
                if (used in kind && !(used in seen)) { seen[used]; look_in(crates "/" used "/out/rlib"); below(used) }
            }
        }
        END {
            if (!(crate in kind)) exit 1
            say("--crate-name"); say(crate)
            say((getline line < (crates "/" crate "/src/main.rt")) >= 0 ? "src/main.rt" : "src/lib.rt")
            extern("std", home "/rlibs/std.rlib"); look_in(home "/rlibs")
            for (k = 1; k <= count[crate]; k++) {
                used = uses[crate, k]
                extern(used, used in kind ? crates "/" used "/out/rlib/" used ".rlib" : home "/rlibs/" used ".rlib")
            }
            below(crate)
            say("--antt-project"); say(home "/rattle/logic/antt-project.json"); say("--logic-built"); say(home "/logic_built")
            if (kind[crate] != "") { say("--crate-type"); say(kind[crate]) }
        }' crates.txt
}

# built_libraries NAME: the libraries that a crate stands on are proved and built.
built_libraries() {
    are_left_by_gate || (cd "crates/$1" && rt lib)
}

# built_program NAME: the program is proved and built, and is crates/NAME/out/NAME. (`rt run` starts it too, over nothing.)
built_program() {
    is_proved || (cd "crates/$1" && rt run </dev/null >/dev/null)
}

# built_archive NAME: the static library is proved and built, and is crates/NAME/out/libNAME.a. `rt ci` proves it and builds none.
built_archive() {
    if are_left_by_gate; then
        (
            list=$(words "$1") || exit
            set -f
            IFS='
'
            # shellcheck disable=SC2086 # one word a line
            set -- "$1" $list
            name=$1
            shift
            cd "crates/$name" && "$home/bin/rattle" build "$@" --toolchain "$tools" --backend llvm -o "out/lib$name.a"
        )
    else
        (cd "crates/$1" && rt lib)
    fi
}
