# Completes the words, flags and files of `console` and `rudekpi` in bash: `. scripts/completion.bash`.
# Made by scripts/completions.

_rudekpi_commands='run audit picture epochs storm'
# what the Python package has beside the words of the program
_rudekpi_bench='sweep compare worst check shell json conform explain bursts again page'

# Completes the word at the cursor by some words.
_rudekpi_words() {
    mapfile -t COMPREPLY < <(compgen -W "$*" -- "$word")
}

_rudekpi_files() {
    # marks folders, and quotes what has to be
    compopt -o filenames 2> /dev/null
    mapfile -t COMPREPLY < <(compgen -f -- "$word")
}

# By the flags of a command.
_rudekpi_flags() {
    case ${COMP_WORDS[0]##*/},$1 in
        rudekpi,picture) _rudekpi_words --entry --output --names --program --help ;;
        *,run) _rudekpi_words --rules --nodes --present --workers --from --help ;;
        *,audit) _rudekpi_words --help ;;
        *,picture) _rudekpi_words --entry --help ;;
        *,epochs) _rudekpi_words --help ;;
        *,storm) _rudekpi_words --rules --nodes --present --workers --from --roam --turns --help ;;
        *,sweep) _rudekpi_words --graph --undirected --rules --daemon --seeds --first-seed --faults --registers --any-value --joins --leaves --cut --add --rewire --move --every --trace --racks --csv --resume --force --maximum --partners --plot --plotted --processes --dask --program --help ;;
        *,compare) _rudekpi_words --graph --undirected --rules --daemon --seeds --first-seed --faults --registers --any-value --joins --leaves --cut --add --rewire --move --every --trace --racks --csv --resume --force --maximum --partners --plot --plotted --processes --dask --program --markdown --help ;;
        *,worst) _rudekpi_words --graph --undirected --rules --seconds --seed --transcript --output --program --help ;;
        *,check) _rudekpi_words --help ;;
        *,shell) _rudekpi_words --rules --nodes --present --program --help ;;
        *,json) _rudekpi_words --names --program --help ;;
        *,conform) _rudekpi_words --rules --resync --views --ages --age --ignore-extra --stop --stuck --output --program --help ;;
        *,explain) _rudekpi_words --names --program --help ;;
        *,bursts) _rudekpi_words --names --no-nodes --partners --program --help ;;
        *,again) _rudekpi_words --output --page --undirected --program --help ;;
        *,page) _rudekpi_words --output --names --program --help ;;
    esac
}

# The first word behind the program's name and in front of the cursor that is no flag, if any.
_rudekpi_command() {
    local at
    for ((at = 1; at < COMP_CWORD; at++)); do
        case ${COMP_WORDS[at]} in
            -*) ;;
            *) printf '%s' "${COMP_WORDS[at]}" && return ;;
        esac
    done
}

# The commands, of `rudekpi` also those of the Python package.
_rudekpi_all() {
    printf '%s' "$_rudekpi_commands"
    [ "${COMP_WORDS[0]##*/}" != rudekpi ] || printf ' %s' "$_rudekpi_bench"
}

_rudekpi() {
    local word=${COMP_WORDS[COMP_CWORD]} before=${COMP_WORDS[COMP_CWORD - 1]} command
    COMPREPLY=()
    # bash takes the = between a flag and its value for a word of its own
    if [ "$word" = = ]; then
        word=
    elif [ "$before" = = ]; then
        before=${COMP_WORDS[COMP_CWORD - 2]}
    fi
    command=$(_rudekpi_command)
    case " $(_rudekpi_all) help " in
        *" $command "*) ;;
        *) [ -z "$command" ] || return 0 ;;
    esac
    case $before in
        *'<' | *'>') _rudekpi_files ;;
        --rules) _rudekpi_words hh manne ;;
        --nodes | --present | --workers | --entry | --roam | --turns | --seeds | --first-seed | --faults | --joins | --leaves | --cut | --add | --rewire | --move | --every | --processes | --dask | --seconds | --seed | --age | --stuck) : a number, which nobody can complete ;;
        --from | --graph | --trace | --racks | --csv | --plot | --program | --output | --names | --ages | --page) _rudekpi_files ;;
        --daemon) _rudekpi_words synchronous least greatest age seeded greedy helpful local ;;
        --registers) _rudekpi_words any pointer flag ;;
        --plotted) _rudekpi_words moves rounds ;;
        *)
            case $command,$word in
                ,*) _rudekpi_words "$(_rudekpi_all)" help --help --version ;;
                help,*) _rudekpi_words "$(_rudekpi_all)" ;;
                run,[!-]* | run, | audit,[!-]* | audit, | picture,[!-]* | picture, | epochs,[!-]* | epochs, | storm,[!-]* | storm, | sweep,[!-]* | sweep, | compare,[!-]* | compare, | check,[!-]* | check, | json,[!-]* | json, | conform,[!-]* | conform, | explain,[!-]* | explain, | bursts,[!-]* | bursts, | again,[!-]* | again, | page,[!-]* | page,) _rudekpi_files ;;
                *) _rudekpi_flags "$command" ;;
            esac
            ;;
    esac
}

complete -F _rudekpi console rudekpi
