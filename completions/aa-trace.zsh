#compdef aa-trace
# Completion of aa-trace for zsh. It is installed as _aa-trace in a folder of $fpath.

# The letters so far, and each letter that isn't among them put after them.
_aa_trace_letters() {
    local letter
    local -a found
    [[ $PREFIX == *[^rwlkma]* ]] && return 1
    [[ -n $PREFIX ]] && found=($PREFIX)
    for letter in r w l k m a; do
        [[ $PREFIX == *$letter* ]] || found+=($PREFIX$letter)
    done
    compadd -S '' -a found
}

# A name or a pattern begins with a slash. What is in the file system is often one.
_aa_trace_absolute() {
    case $PREFIX in
    '') compadd -S '' / ;;
    [/~]* | [\"\']/*) _files ;;
    *) return 1 ;;
    esac
}

_aa_trace_commands() {
    local -a commands=(
        'judge:judge a name by a profile'
        'explain:judge a name by a profile, and say why'
        'any:find a name that a pattern matches and a profile allows'
        'all:test that a profile allows all names that a pattern matches'
        'diff:find the shortest names that only one of two profiles allows'
        'lint:find rules that decide nothing'
        'import:bring a flattened AppArmor profile into the language of this program'
        'names:print the names of a list that a profile allows'
        'audit:say what profiles say of the denials in a log'
        'run:run a script of tree changes, policies and opens'
        'test:compare the answers of a script with those that it expects'
        'steps:run a script of single events'
        'storm:open a file in threads during renames and new profiles'
        'compile:write the image of a profile'
        'check:test an image'
        'match:judge a name by an image'
        'help:print help'
    )
    _describe command commands
}

_aa_trace() {
    local state command=
    local -a verbose=('(-v --verbose)'{-v,--verbose}'[explain refusals on standard error]')
    local -a quiet=('(-q --quiet)'{-q,--quiet}'[print no verdict]')
    local -a json=('--json[write each answer as a JSON object]')
    local -a each_rule=('--each-rule[one name for each rule or pair of reasons]')
    local -a capacity=('--capacity=[how many entries the tree has room for]:number')
    local -a choice=(
        '(--all)--profile=[the profile of a flattened text]:full name'
        '(--for)--owner=[rules for owners]:what becomes of them:(keep drop)'
        '(--owner)--for=[whose verdicts the imported profile gives]:subject:(owner others)'
        '*--define=[a value of a variable]:VAR=VALUE'
        '--override[the values given replace those of the text]'
    )
    local -a perms=('1:permissions:_aa_trace_letters')
    local -a name=('2:name:_aa_trace_absolute')
    local -a pattern=('2:pattern:_aa_trace_absolute')
    local -a options

    _arguments -S -A '-*' '(- *)'{-h,--help}'[print help]' '(- *)'{-V,--version}'[print the version]' \
        '1:command:_aa_trace_commands' '*::argument:->arguments' && return
    [[ $state == arguments ]] || return 1
    command=$words[1]
    case $command in
    judge | match) options=($verbose $quiet $json $perms $name) ;;
    explain) options=('--flattened[import the profile from a flattened text]' $choice $json $perms $name) ;;
    any) options=($each_rule $json $perms $pattern) ;;
    all) options=($json $perms $pattern) ;;
    diff)
        options=(
            '--below=[only names that this path of a rule matches]:pattern' $each_rule $json
            '1:old profile:_files' '2:new profile:_files'
        )
        ;;
    lint) options=($json) ;;
    import)
        options=(
            $verbose $choice
            '(--profile --map)--all[each profile of the text]'
            '--strict[refuse a profile that is not exact for the chosen subject]'
            '--account=[what of the account is written]:what:(changes all none)'
            '(--all)--map=[write where each rule comes from]:file:_files'
        )
        ;;
    names)
        options=(
            '(-n --not-allowed)'{-n,--not-allowed}'[print the names that are not allowed]'
            '(-0 --null)'{-0,--null}'[names end with byte 0]'
            '--verdict[print each name with its verdict]'
            $perms '2:profile:_files'
        )
        ;;
    audit) options=($json '*:profile:_files') ;;
    run | steps) options=($verbose $capacity) ;;
    test) options=($verbose '--answers[print the answer of each command]' $capacity $json) ;;
    storm) options=('--sessions=[sessions]:number' '--opens=[opens of each session]:number' '--changes=[renames and profiles]:number') ;;
    compile) options=($verbose '--depth=[the number of defaults at which a byte is looked up]:number') ;;
    check) options=($verbose) ;;
    help)
        ((CURRENT == 2)) && _aa_trace_commands
        return
        ;;
    *) return 1 ;;
    esac
    _arguments -s -S '(- *)'{-h,--help}'[print help]' $options
}

_aa_trace "$@"
