# Completion of aa-trace for fish.

# Whether a word is an option that is followed by its text or number.
function __aa_trace_takes_text
    string match -qr -- '^--(capacity|depth|sessions|opens|changes|profile|owner|for|define|below|account|map)$' "$argv[1]"
end

# The command and its arguments so far, without options and their texts, a line each.
function __aa_trace_words
    set -l words (commandline -opc)
    set -l is_text
    set -l is_literal
    for word in $words[2..]
        if test -n "$is_text"
            set is_text
        else if test -n "$is_literal"; or not string match -q -- '-?*' $word
            printf '%s\n' $word
        else if test "$word" = --
            set is_literal yes
        else if __aa_trace_takes_text $word
            set is_text yes
        end
    end
end

# Whether there is no command yet, or only `help` and nothing after it.
function __aa_trace_needs_command
    set -l words (__aa_trace_words)
    test (count $words) -eq 0; or test "$words" = help
end

function __aa_trace_is_first
    test (count (__aa_trace_words)) -eq 0
end

# Whether the command is one of those before `--`, and none of the words after it was given.
function __aa_trace_offers
    set -l place (contains -i -- -- $argv)
    set -l words (__aa_trace_words)
    test (count $words) -gt 0; and contains -- $words[1] $argv[1..$place]; or return 1
    set -l given (commandline -opc)[2..]
    # The option whose text is at the cursor is still offered: fish asks for its texts by the same condition.
    if __aa_trace_takes_text $given[-1]
        set -e given[-1]
    end
    for word in (string replace -r '=.*' '' -- $given)
        # Letters may stand together after one hyphen.
        set -l options $word
        string match -qr -- '^-[^-]' $word; and set options -(string split '' (string sub -s 2 -- $word))
        for option in $options
            test "$option" != --; and contains -- $option $argv[$place..]; and return 1
        end
    end
    return 0
end

# Whether the command is one of those after the first word, and has as many arguments as that says.
function __aa_trace_takes
    set -l words (__aa_trace_words)
    test (count $words) -eq (math $argv[1] + 1); and contains -- $words[1] $argv[2..]
end

# The letters so far, and each letter that isn't among them put after them.
function __aa_trace_letters
    set -l so_far (commandline -ct)
    string match -qr '[^rwlkma]' -- $so_far; and return
    test -n "$so_far"; and echo $so_far
    for letter in r w l k m a
        string match -q -- "*$letter*" $so_far; or echo $so_far$letter
    end
end

# A name or a pattern begins with a slash. What is in the file system is often one.
function __aa_trace_absolute
    set -l so_far (commandline -ct)
    if test -z "$so_far"
        echo /
    else if string match -q -- '/*' $so_far
        __fish_complete_path $so_far
    end
end

complete -c aa-trace -f
complete -c aa-trace -s h -l help -d 'Print help'
complete -c aa-trace -n __aa_trace_is_first -s V -l version -d 'Print the version'

complete -c aa-trace -n __aa_trace_needs_command -a judge -d 'Judge a name by a profile'
complete -c aa-trace -n __aa_trace_needs_command -a explain -d 'Judge a name by a profile, and say why'
complete -c aa-trace -n __aa_trace_needs_command -a any -d 'Find a name that a pattern matches and a profile allows'
complete -c aa-trace -n __aa_trace_needs_command -a all -d 'Test that a profile allows all names that a pattern matches'
complete -c aa-trace -n __aa_trace_needs_command -a diff -d 'Find the shortest names that only one of two profiles allows'
complete -c aa-trace -n __aa_trace_needs_command -a lint -d 'Find rules that decide nothing'
complete -c aa-trace -n __aa_trace_needs_command -a import -d 'Bring a flattened AppArmor profile into this language'
complete -c aa-trace -n __aa_trace_needs_command -a names -d 'Print the names of a list that a profile allows'
complete -c aa-trace -n __aa_trace_needs_command -a audit -d 'Say what profiles say of the denials in a log'
complete -c aa-trace -n __aa_trace_needs_command -a run -d 'Run a script of tree changes, policies and opens'
complete -c aa-trace -n __aa_trace_needs_command -a test -d 'Compare the answers of a script with those that it expects'
complete -c aa-trace -n __aa_trace_needs_command -a steps -d 'Run a script of single events'
complete -c aa-trace -n __aa_trace_needs_command -a storm -d 'Open a file in threads during renames and new profiles'
complete -c aa-trace -n __aa_trace_needs_command -a compile -d 'Write the image of a profile'
complete -c aa-trace -n __aa_trace_needs_command -a check -d 'Test an image'
complete -c aa-trace -n __aa_trace_needs_command -a match -d 'Judge a name by an image'
complete -c aa-trace -n __aa_trace_is_first -a help -d 'Print help'

complete -c aa-trace -n '__aa_trace_offers judge match compile check run test steps import -- -v --verbose' \
    -s v -l verbose -d 'Explain refusals on standard error'
complete -c aa-trace -n '__aa_trace_offers judge match -- -q --quiet' -s q -l quiet -d 'Print no verdict'
complete -c aa-trace -n '__aa_trace_offers judge explain match any all diff lint test audit -- --json' -l json \
    -d 'Write each answer as a JSON object'
complete -c aa-trace -n '__aa_trace_offers any diff -- --each-rule' -l each-rule -d 'One name for each rule or pair of reasons'
complete -c aa-trace -n '__aa_trace_offers diff -- --below' -x -l below -d 'Only names that this path of a rule matches'
complete -c aa-trace -n '__aa_trace_offers explain -- --flattened' -l flattened -d 'Import the profile from a flattened text'
complete -c aa-trace -n '__aa_trace_offers explain import -- --profile --all' -x -l profile -d 'The profile of a flattened text'
complete -c aa-trace -n '__aa_trace_offers explain import -- --owner --for' -x -l owner -a 'keep drop' -d 'Rules for owners'
complete -c aa-trace -n '__aa_trace_offers explain import -- --owner --for' -x -l for -a 'owner others' \
    -d 'Whose verdicts the imported profile gives'
complete -c aa-trace -n '__aa_trace_offers explain import --' -x -l define -d 'A value of a variable: VAR=VALUE'
complete -c aa-trace -n '__aa_trace_offers explain import -- --override' -l override -d 'The values given replace those of the text'
complete -c aa-trace -n '__aa_trace_offers import -- --all --profile --map' -l all -d 'Each profile of the text'
complete -c aa-trace -n '__aa_trace_offers import -- --strict' -l strict -d 'Refuse a profile that is not exact for the chosen subject'
complete -c aa-trace -n '__aa_trace_offers import -- --account' -x -l account -a 'changes all none' -d 'What of the account is written'
complete -c aa-trace -n '__aa_trace_offers import -- --map --all' -r -F -l map -d 'Write where each rule comes from'
complete -c aa-trace -n '__aa_trace_offers names -- -n --not-allowed' -s n -l not-allowed -d 'Print the names that are not allowed'
complete -c aa-trace -n '__aa_trace_offers names -- -0 --null' -s 0 -l null -d 'Names end with byte 0'
complete -c aa-trace -n '__aa_trace_offers names -- --verdict' -l verdict -d 'Print each name with its verdict'
complete -c aa-trace -n '__aa_trace_offers run test steps -- --capacity' -x -l capacity -d 'How many entries the tree has room for'
complete -c aa-trace -n '__aa_trace_offers test -- --answers' -l answers -d 'Print the answer of each command'
complete -c aa-trace -n '__aa_trace_offers compile -- --depth' -x -l depth -d 'The number of defaults at which a byte is looked up'
complete -c aa-trace -n '__aa_trace_offers storm -- --sessions' -x -l sessions -d 'Sessions'
complete -c aa-trace -n '__aa_trace_offers storm -- --opens' -x -l opens -d 'Opens of each session'
complete -c aa-trace -n '__aa_trace_offers storm -- --changes' -x -l changes -d 'Renames and profiles'

complete -c aa-trace -n '__aa_trace_takes 0 judge explain match any all names' -a '(__aa_trace_letters)' -d Permissions
complete -c aa-trace -n '__aa_trace_takes 1 judge explain match any all' -a '(__aa_trace_absolute)'
complete -c aa-trace -n '__aa_trace_takes 1 names' -F
complete -c aa-trace -n '__aa_trace_takes 0 diff; or __aa_trace_takes 1 diff' -F
complete -c aa-trace -n '__aa_trace_offers audit --' -F
