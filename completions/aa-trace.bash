# Completion of aa-trace for bash. It needs nothing but bash itself.

# The options of a command, but for --help.
_aa_trace_options() {
    local choice='--profile --owner --for --define --override'
    case $1 in
    judge | match) echo '-v --verbose -q --quiet --json' ;;
    explain) echo "--flattened $choice --json" ;;
    any) echo '--each-rule --json' ;;
    diff) echo '--below --each-rule --json' ;;
    all | lint | audit) echo '--json' ;;
    import) echo "-v --verbose $choice --all --strict --account --map" ;;
    names) echo '-n --not-allowed -0 --null --verdict' ;;
    compile) echo '-v --verbose --depth' ;;
    check) echo '-v --verbose' ;;
    run | steps) echo '-v --verbose --capacity' ;;
    test) echo '-v --verbose --answers --capacity --json' ;;
    storm) echo '--sessions --opens --changes' ;;
    esac
}

# What may not be given together with an option, or again after it. --define may be given again.
_aa_trace_excluded() {
    case $1 in
    -v | --verbose) echo '-v --verbose' ;;
    -q | --quiet) echo '-q --quiet' ;;
    -n | --not-allowed) echo '-n --not-allowed' ;;
    -0 | --null) echo '-0 --null' ;;
    --owner | --for) echo '--owner --for' ;;
    --all) echo '--all --profile --map' ;;
    --profile | --map) echo "$1 --all" ;;
    --define) ;;
    *) echo "$1" ;;
    esac
}

# Whether an option takes a text or a number.
_aa_trace_takes_text() {
    [[ $1 == --@(capacity|depth|sessions|opens|changes|profile|owner|for|define|below|account|map) ]]
}

# What an option says that was given, perhaps several letters after one hyphen.
_aa_trace_note() {
    local letters=${1#-}
    if [[ $1 == --* ]]; then
        excluded+=" $(_aa_trace_excluded "$1")"
        _aa_trace_takes_text "$1" && is_text=yes
        return
    fi
    while [[ -n $letters ]]; do
        excluded+=" $(_aa_trace_excluded "-${letters:0:1}")"
        letters=${letters:1}
    done
}

# What the words before the cursor say: the command, how many arguments it has so far, which options can't be given any more, and
# whether options have ended. A redirection and its file are no words of the program.
_aa_trace_read_words() {
    local index word is_file='' is_text=''
    for ((index = 1; index < COMP_CWORD; index++)); do
        word=${COMP_WORDS[index]}
        if [[ -n $is_file ]]; then
            is_file=
        elif [[ $word == *[\<\>]* ]]; then
            is_file=yes
        elif [[ $word != *[!0-9]* && ${COMP_WORDS[index + 1]} == [\<\>]* ]]; then
            : # the 2 of 2>, which bash gives as a word of its own
        elif [[ -z $command ]]; then
            command=$word
        elif [[ $word == = ]]; then
            # A = is a word of its own, and so is what follows it: the rest of an option or of an argument.
            is_text=yes
        elif [[ -n $is_text ]]; then
            is_text=
        elif [[ -z $literal && $word == -- ]]; then
            literal=yes
        elif [[ -z $literal && $word == -?* ]]; then
            _aa_trace_note "$word"
        else
            ((arguments += 1))
        fi
    done
}

# The letters so far, and each letter that isn't among them put after them.
_aa_trace_letters() {
    local so_far=$1 letter
    [[ $so_far == *[!rwlkma]* ]] && return
    [[ -n $so_far ]] && COMPREPLY=("$so_far")
    for letter in r w l k m a; do
        [[ $so_far == *"$letter"* ]] || COMPREPLY+=("$so_far$letter")
    done
}

# Those of some options that can still be given.
_aa_trace_left() {
    local option left=
    for option in "$@"; do
        [[ " $excluded " == *" $option "* ]] || left+=" $option"
    done
    printf '%s' "$left"
}

# Those of some words that begin as the word at the cursor.
_aa_trace_words() {
    local IFS=$' \t\n'
    mapfile -t COMPREPLY < <(compgen -W "$1" -- "$2")
}

_aa_trace_files() {
    local file
    while IFS= read -r file; do
        COMPREPLY+=("$file")
    done < <(compgen -f -- "$1")
    # With this readline puts a slash after folders, and quotes what needs it. Outside of a completion it is an error.
    compopt -o filenames 2>/dev/null
}

# The text of an option.
_aa_trace_text() {
    case $1 in
    --owner) _aa_trace_words 'keep drop' "$2" ;;
    --for) _aa_trace_words 'owner others' "$2" ;;
    --account) _aa_trace_words 'changes all none' "$2" ;;
    --map) _aa_trace_files "$2" ;;
    esac
}

_aa_trace() {
    local cur=${COMP_WORDS[COMP_CWORD]} previous=${COMP_WORDS[COMP_CWORD - 1]}
    # A = between an option and its text is a word of its own.
    local before=${COMP_WORDS[COMP_CWORD > 1 ? COMP_CWORD - 2 : 0]}
    local command='' excluded='' literal='' arguments=0 options
    local commands='judge explain any all diff lint import names audit run test steps storm compile check match help'
    COMPREPLY=()
    if [[ $previous == *[\<\>]* ]]; then
        _aa_trace_files "$cur"
        return
    fi
    _aa_trace_read_words
    if [[ -n $command && -z $literal ]]; then
        if _aa_trace_takes_text "$previous"; then
            _aa_trace_text "$previous" "${cur#=}"
            return
        elif [[ $previous == = ]]; then
            _aa_trace_text "$before" "$cur"
            return
        fi
    fi
    [[ $cur == = ]] && return
    if [[ -z $literal && $cur == -* ]]; then
        case $command in
        '') _aa_trace_words '-h --help -V --version' "$cur" ;;
        help) ;;
        *)
            read -ra options < <(_aa_trace_options "$command")
            _aa_trace_words "-h --help $(_aa_trace_left "${options[@]}")" "$cur"
            ;;
        esac
        return
    fi
    case $command in
    '') _aa_trace_words "$commands" "$cur" ;;
    help) ((arguments == 0)) && _aa_trace_words "$commands" "$cur" ;;
    judge | explain | match | any | all | names)
        case $arguments in
        0) _aa_trace_letters "$cur" ;;
        # A name or a pattern begins with a slash. What is in the file system is often one.
        1)
            if [[ $command == names ]]; then
                _aa_trace_files "$cur"
            else
                case $cur in '' | [/~]* | [\"\']/*) _aa_trace_files "${cur:-/}" ;; esac
            fi
            ;;
        esac
        ;;
    audit) _aa_trace_files "$cur" ;;
    diff) ((arguments < 2)) && _aa_trace_files "$cur" ;;
    esac
}

complete -F _aa_trace aa-trace
